//! What the tables tell apart: groups of opcodes and classes of registers.

/// An opcode of each group: of those that are no transfer, branch, JALR, JAL, quadrant 1, and
/// quadrant 2 with bits 6..2 zero.
pub const OPCODES: [u32; 6] = [0x00, 0x63, 0x67, 0x6f, 0x01, 0x02];

/// A register of each class: x0, x1, x5 and the others.
pub const REGISTERS: [u32; 4] = [0, 1, 5, 6];

pub const fn opcode_group(opcode: usize) -> u8 {
    match opcode {
        0x63 => 1,
        0x67 => 2,
        0x6f => 3,
        0x02 => 5,
        _ if opcode & 3 == 1 => 4,
        _ => 0,
    }
}

pub const fn register_class(register: usize) -> u8 {
    match register {
        0 => 0,
        1 => 1,
        5 => 2,
        _ => 3,
    }
}
