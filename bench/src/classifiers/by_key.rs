//! A table of types by a key of 11 bits: the group of the opcode (3), bits 15..12 of the word, the
//! class of rd (2) and that of rs1 (2). Groups and classes are in tables too, as they stand in keys.

use super::by_eights;
use super::by_match::transfer_type;
use super::classes::{opcode_group, register_class, OPCODES, REGISTERS};

/// By bits 6..0, 32 times the group. Eight times that is its part of a key.
static GROUPS: [u8; 128] = groups();

/// By register, their parts of a key.
static RD_CLASSES: [u8; 32] = classes(4);
static RS1_CLASSES: [u8; 32] = classes(1);

/// By key. There are 2,048 keys; it is as long as two bytes can reach, so that no index is checked.
static TYPES: [u8; TYPES_LEN] = types();
const TYPES_LEN: usize = 8 * 255 + 255 + 1;

pub fn classify_all(words: &[u32], types: &mut [u8]) -> usize {
    by_eights(words, types, transfer_type_by_key)
}

#[inline(always)]
fn transfer_type_by_key(word: u32) -> u8 {
    let group = GROUPS[(word & 0x7f) as usize];
    let rd = RD_CLASSES[(word >> 7 & 31) as usize];
    let rs1 = RS1_CLASSES[(word >> 15 & 31) as usize];
    let others = (word >> 8 & 0xf0) as u8 | rd | rs1;
    TYPES[8 * usize::from(group) + usize::from(others)]
}

const fn groups() -> [u8; 128] {
    let mut groups = [0; 128];
    let mut opcode = 0;
    while opcode < groups.len() {
        groups[opcode] = 32 * opcode_group(opcode);
        opcode += 1;
    }
    groups
}

const fn classes(factor: u8) -> [u8; 32] {
    let mut classes = [0; 32];
    let mut register = 0;
    while register < classes.len() {
        classes[register] = factor * register_class(register);
        register += 1;
    }
    classes
}

/// Bit 15 is the lowest of rs1 too. Keys where the two do not go together are never looked up.
const fn types() -> [u8; TYPES_LEN] {
    let mut types = [0; TYPES_LEN];
    let mut key = 0;
    while key < OPCODES.len() << 8 {
        let opcode = OPCODES[key >> 8];
        let bits_15_to_12 = (key >> 4 & 15) as u32;
        let rd = REGISTERS[key >> 2 & 3];
        let rs1 = REGISTERS[key & 3];
        types[key] = transfer_type(opcode | rd << 7 | bits_15_to_12 << 12 | rs1 << 15);
        key += 1;
    }
    types
}
