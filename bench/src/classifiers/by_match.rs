//! A plain match on the opcode.

use super::one_by_one;

pub const NONE: u8 = 0;
pub const BRANCH: u8 = 5;
pub const INDIRECT_CALL: u8 = 8;
pub const DIRECT_CALL: u8 = 9;
pub const INDIRECT_JUMP: u8 = 10;
pub const DIRECT_JUMP: u8 = 11;
pub const SWAP: u8 = 12;
pub const RETURN: u8 = 13;
pub const OTHER_INDIRECT_JUMP: u8 = 14;
pub const OTHER_DIRECT_JUMP: u8 = 15;

pub fn classify_all(words: &[u32], types: &mut [u8]) -> usize {
    one_by_one(words, types, transfer_type)
}

/// The tables of the other classifiers are made by it as well. A 16-bit word of quadrant 2 is no
/// jump if any of bits 6 to 2 is set.
#[inline(always)]
pub const fn transfer_type(word: u32) -> u8 {
    let register = word >> 7 & 31;
    match word & 0x7f {
        0x63 => branch(word >> 12 & 7),
        0x67 if word >> 12 & 7 == 0 => jalr(register, word >> 15 & 31),
        0x6f => jal(register),
        0b10 => c_register_jump(word >> 12 & 15, register),
        opcode if opcode & 3 == 0b01 => c_offset_jump(word >> 13 & 7),
        _ => NONE,
    }
}

pub fn classify_all_switched(words: &[u32], types: &mut [u8]) -> usize {
    one_by_one(words, types, switched_type)
}

/// With table jumps and pop-returns, which have codes of C.FSDSP.
#[inline(always)]
pub const fn switched_type(word: u32) -> u8 {
    if word & 0xe003 == 0xa002 {
        table_jump_or_pop(word)
    } else {
        transfer_type(word)
    }
}

/// The index of a table jump is below 32 if bits 9 to 7 are 0, and rlist below 4 if bits 7 and 6 are.
const fn table_jump_or_pop(word: u32) -> u8 {
    match word >> 8 & 0x1f {
        0..=3 if word & 0x380 == 0 => DIRECT_JUMP,
        0..=3 => DIRECT_CALL,
        0x1c | 0x1e if word & 0xc0 != 0 => RETURN,
        _ => NONE,
    }
}

/// 2 and 3 are reserved.
const fn branch(funct3: u32) -> u8 {
    match funct3 {
        2 | 3 => NONE,
        _ => BRANCH,
    }
}

const fn jal(rd: u32) -> u8 {
    match rd {
        0 => DIRECT_JUMP,
        1 | 5 => DIRECT_CALL,
        _ => OTHER_DIRECT_JUMP,
    }
}

const fn jalr(rd: u32, base: u32) -> u8 {
    match (rd, base) {
        (1, 5) | (5, 1) => SWAP,
        (1 | 5, _) => INDIRECT_CALL,
        (_, 1 | 5) => RETURN,
        (0, _) => INDIRECT_JUMP,
        _ => OTHER_INDIRECT_JUMP,
    }
}

/// C.JR and C.JALR. Neither has base x0.
const fn c_register_jump(funct4: u32, base: u32) -> u8 {
    match (funct4, base) {
        (_, 0) => NONE,
        (8, 1 | 5) => RETURN,
        (8, _) => INDIRECT_JUMP,
        (9, 5) => SWAP,
        (9, _) => INDIRECT_CALL,
        _ => NONE,
    }
}

/// C.J, C.BEQZ and C.BNEZ.
const fn c_offset_jump(funct3: u32) -> u8 {
    match funct3 {
        5 => DIRECT_JUMP,
        6 | 7 => BRANCH,
        _ => NONE,
    }
}
