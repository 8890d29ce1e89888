//! The transfer types of instruction words.

pub const NONE: u32 = 0;
pub const NOT_TAKEN_BRANCH: u32 = 4;
pub const INDIRECT_CALL: u32 = 8;
pub const DIRECT_CALL: u32 = 9;
const INDIRECT_JUMP: u32 = 10;
const DIRECT_JUMP: u32 = 11;
pub const SWAP: u32 = 12;
pub const RETURN: u32 = 13;
const OTHER_INDIRECT_JUMP: u32 = 14;
const OTHER_DIRECT_JUMP: u32 = 15;

/// The number of the word's type; `taken` is 1 or 0, and matters to branches only; `zc` says whether table
/// jumps and pop-returns are transfers. Else a 16-bit word of quadrant 2 is no jump if any of bits 6 to 2
/// is set.
#[inline(always)]
pub fn transfer_type(word: u32, taken: u32, zc: bool) -> u32 {
    let register = word >> 7 & 31;
    match word & 0x7f {
        _ if zc && word & 0xe003 == 0xa002 => table_jump_or_pop(word),
        0x63 => branch(word >> 12 & 7, taken),
        0x67 if word >> 12 & 7 == 0 => jalr(register, word >> 15 & 31),
        0x6f => jal(register),
        0b10 => c_register_jump(word >> 12 & 15, register),
        opcode if opcode & 3 == 0b01 => c_offset_jump(word >> 13 & 7, taken),
        _ => NONE,
    }
}

/// The index of a table jump is below 32 if bits 9 to 7 are 0, and rlist below 4 if bits 7 and 6 are.
fn table_jump_or_pop(word: u32) -> u32 {
    match word >> 8 & 0x1f {
        0..=3 if word & 0x380 == 0 => DIRECT_JUMP,
        0..=3 => DIRECT_CALL,
        0x1c | 0x1e if word & 0xc0 != 0 => RETURN,
        _ => NONE,
    }
}

/// 2 and 3 are reserved.
fn branch(funct3: u32, taken: u32) -> u32 {
    match funct3 {
        2 | 3 => NONE,
        _ => NOT_TAKEN_BRANCH + taken,
    }
}

fn jal(rd: u32) -> u32 {
    match rd {
        0 => DIRECT_JUMP,
        1 | 5 => DIRECT_CALL,
        _ => OTHER_DIRECT_JUMP,
    }
}

fn jalr(rd: u32, base: u32) -> u32 {
    match (rd, base) {
        (1, 5) | (5, 1) => SWAP,
        (1 | 5, _) => INDIRECT_CALL,
        (_, 1 | 5) => RETURN,
        (0, _) => INDIRECT_JUMP,
        _ => OTHER_INDIRECT_JUMP,
    }
}

/// C.JR and C.JALR. Neither has base x0.
fn c_register_jump(funct4: u32, base: u32) -> u32 {
    match (funct4, base) {
        (_, 0) => NONE,
        (8, 1 | 5) => RETURN,
        (8, _) => INDIRECT_JUMP,
        (9, 5) => SWAP,
        (9, _) => INDIRECT_CALL,
        _ => NONE,
    }
}

/// C.J, C.BEQZ and C.BNEZ.
fn c_offset_jump(funct3: u32, taken: u32) -> u32 {
    match funct3 {
        5 => DIRECT_JUMP,
        6 | 7 => NOT_TAKEN_BRANCH + taken,
        _ => NONE,
    }
}
