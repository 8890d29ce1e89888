//! The proved decision as it was before request 5, word for word: the same functions, and the same
//! tests in the same order.

use super::one_by_one;

#[derive(Clone, Copy)]
enum Transfer {
    None,
    Branch,
    IndirectCall,
    DirectCall,
    IndirectJump,
    DirectJump,
    CoroutineSwap,
    FunctionReturn,
    OtherIndirectJump,
    OtherDirectJump,
}

pub fn classify_all(words: &[u32], types: &mut [u8]) -> usize {
    one_by_one(words, types, |word| type_number(classify(word), true))
}

fn link(r: u32) -> bool {
    r == 1 || r == 5
}

fn branch(funct3: u32) -> Transfer {
    match funct3 {
        0 => Transfer::Branch, // BEQ
        1 => Transfer::Branch, // BNE
        4 => Transfer::Branch, // BLT
        5 => Transfer::Branch, // BGE
        6 => Transfer::Branch, // BLTU
        7 => Transfer::Branch, // BGEU
        _ => Transfer::None,
    }
}

fn jalr(funct3: u32, rd: u32, rs1: u32) -> Transfer {
    if funct3 == 0 {
        indirect(rd, rs1)
    } else {
        Transfer::None
    }
}

fn indirect(rd: u32, rs1: u32) -> Transfer {
    if link(rd) {
        if link(rs1) {
            if rd == rs1 {
                Transfer::IndirectCall
            } else {
                Transfer::CoroutineSwap
            }
        } else {
            Transfer::IndirectCall
        }
    } else if link(rs1) {
        Transfer::FunctionReturn
    } else if rd == 0 {
        Transfer::IndirectJump
    } else {
        Transfer::OtherIndirectJump
    }
}

fn direct(rd: u32) -> Transfer {
    if link(rd) {
        Transfer::DirectCall
    } else if rd == 0 {
        Transfer::DirectJump
    } else {
        Transfer::OtherDirectJump
    }
}

fn wide(opcode: u32, funct3: u32, rd: u32, rs1: u32) -> Transfer {
    match opcode {
        0x63 => branch(funct3),
        0x67 => jalr(funct3, rd, rs1),
        0x6F => direct(rd),
        _ => Transfer::None,
    }
}

fn quadrant1(funct3: u32) -> Transfer {
    match funct3 {
        5 => direct(0),
        6 => Transfer::Branch,
        7 => Transfer::Branch,
        _ => Transfer::None,
    }
}

fn register_jump(funct4: u32, rs1: u32) -> Transfer {
    match funct4 {
        8 => indirect(0, rs1),
        9 => indirect(1, rs1),
        _ => Transfer::None,
    }
}

fn quadrant2(funct4: u32, rs1: u32, rs2: u32) -> Transfer {
    if rs1 == 0 {
        Transfer::None
    } else if rs2 == 0 {
        register_jump(funct4, rs1)
    } else {
        Transfer::None
    }
}

fn classify(word: u32) -> Transfer {
    match field(word, 0, 2) {
        1 => quadrant1(field(word, 13, 3)),
        2 => quadrant2(field(word, 12, 4), field(word, 7, 5), field(word, 2, 5)),
        3 => wide(
            field(word, 0, 7),
            field(word, 12, 3),
            field(word, 7, 5),
            field(word, 15, 5),
        ),
        _ => Transfer::None,
    }
}

fn type_number(t: Transfer, taken: bool) -> u8 {
    match t {
        Transfer::None => 0,
        Transfer::Branch => {
            if taken {
                5
            } else {
                4
            }
        }
        Transfer::IndirectCall => 8,
        Transfer::DirectCall => 9,
        Transfer::IndirectJump => 10,
        Transfer::DirectJump => 11,
        Transfer::CoroutineSwap => 12,
        Transfer::FunctionReturn => 13,
        Transfer::OtherIndirectJump => 14,
        Transfer::OtherDirectJump => 15,
    }
}

/// The `k` bits of `w` from bit `n` up.
fn field(w: u32, n: u32, k: u32) -> u32 {
    (w >> n) & ((1 << k) - 1)
}
