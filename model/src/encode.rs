//! Instruction words built from their fields. Of `rest` the bits outside the named fields are kept.

pub fn jalr(rest: u32, rs1: u32, funct3: u32, rd: u32) -> u32 {
    (rest & 0xfff0_0000) | rs1 << 15 | funct3 << 12 | rd << 7 | 0x67
}

pub fn jal(rest: u32, rd: u32) -> u32 {
    (rest & 0xffff_f000) | rd << 7 | 0x6f
}

/// In a branch, bits 11 to 7 hold a part of the offset.
pub fn branch(rest: u32, funct3: u32, bits_11_to_7: u32) -> u32 {
    (rest & 0xffff_8000) | funct3 << 12 | bits_11_to_7 << 7 | 0x63
}

pub fn c_jr(rest: u32, rs1: u32) -> u32 {
    (rest & 0xffff_0000) | rs1 << 7 | 0x8002
}

pub fn c_jalr(rest: u32, rs1: u32) -> u32 {
    (rest & 0xffff_0000) | rs1 << 7 | 0x9002
}

/// The bits of an offset from `place` up, `count` of them, put from bit `at` up.
fn bits(offset: i64, place: u32, count: u32, at: u32) -> u32 {
    ((offset >> place & ((1 << count) - 1)) as u32) << at
}

pub fn jal_by(offset: i64, rd: u32) -> u32 {
    let high = bits(offset, 20, 1, 31) | bits(offset, 1, 10, 21);
    jal(high | bits(offset, 11, 1, 20) | bits(offset, 12, 8, 12), rd)
}

/// A branch of x10 and x11.
pub fn branch_by(offset: i64, funct3: u32) -> u32 {
    let high = bits(offset, 12, 1, 31) | bits(offset, 5, 6, 25);
    let low = bits(offset, 1, 4, 1) | bits(offset, 11, 1, 0);
    branch(high | 11 << 20 | 10 << 15, funct3, low)
}

pub fn c_j_by(offset: i64) -> u32 {
    let high = bits(offset, 11, 1, 12) | bits(offset, 4, 1, 11) | bits(offset, 8, 2, 9);
    let middle = bits(offset, 10, 1, 8) | bits(offset, 6, 1, 7) | bits(offset, 7, 1, 6);
    high | middle | bits(offset, 1, 3, 3) | bits(offset, 5, 1, 2) | 0xa001
}

/// C.BEQZ and C.BNEZ, by their funct3, of x8 to x15, by the three bits that they have for it.
pub fn c_branch_by(offset: i64, funct3: u32, register: u32) -> u32 {
    let high = bits(offset, 8, 1, 12) | bits(offset, 3, 2, 10) | bits(offset, 6, 2, 5);
    high | bits(offset, 1, 2, 3) | bits(offset, 5, 1, 2) | funct3 << 13 | register << 7 | 1
}
