//! Three tables: a row by the low 12 bits of a word, a column by bits 19..12, and the type by both.

use super::by_eights;
use super::by_match::{switched_type, transfer_type};
use super::classes::{opcode_group, register_class, OPCODES, REGISTERS};

/// By bits 11..0: eight times the row, which is four times the group of the opcode plus the class
/// of rd.
static ROWS: [u8; 4096] = rows();

/// By bits 19..12: funct3 plus eight times the class of rs1: even, x1, x5 or another odd one.
static COLUMNS: [u8; 256] = columns();

/// By 32 times the row plus the column, which is below 1,024; it is as long as two bytes can reach,
/// so that no index is checked.
static TYPES: [u8; TYPES_LEN] = types();
const TYPES_LEN: usize = 4 * 255 + 255 + 1;

/// The same with more rows, for table jumps and pop-returns.
static SWITCHED_ROWS: [u8; 4096] = switched_rows();
static SWITCHED_TYPES: [u8; TYPES_LEN] = switched_types();

pub fn classify_all(words: &[u32], types: &mut [u8]) -> usize {
    by_eights(words, types, |word| by_tables(&ROWS, &TYPES, word))
}

pub fn classify_all_switched(words: &[u32], types: &mut [u8]) -> usize {
    by_eights(words, types, |word| {
        by_tables(&SWITCHED_ROWS, &SWITCHED_TYPES, word)
    })
}

#[inline(always)]
fn by_tables(rows: &[u8; 4096], types: &[u8; TYPES_LEN], word: u32) -> u8 {
    let row = rows[(word & 0xfff) as usize];
    let column = COLUMNS[(word >> 12 & 0xff) as usize];
    types[4 * usize::from(row) + usize::from(column)]
}

const fn rows() -> [u8; 4096] {
    let mut rows = [0; 4096];
    let mut bits = 0;
    while bits < rows.len() {
        rows[bits] = 8 * (4 * opcode_group(bits & 0x7f) + register_class(bits >> 7));
        bits += 1;
    }
    rows
}

/// A 16-bit word has bit 15 where others have the lowest of rs1, so even and odd are told apart.
const fn columns() -> [u8; 256] {
    let mut columns = [0; 256];
    let mut bits = 0;
    while bits < columns.len() {
        let class = match bits >> 3 {
            1 => 1,
            5 => 2,
            rs1 if rs1 & 1 == 0 => 0,
            _ => 3,
        };
        columns[bits] = (bits & 7) as u8 + 8 * class;
        bits += 1;
    }
    columns
}

const fn types() -> [u8; TYPES_LEN] {
    let mut types = [0; TYPES_LEN];
    let mut index = 0;
    while index < OPCODES.len() << 7 {
        let opcode = OPCODES[index >> 7];
        let rd = REGISTERS[index >> 5 & 3];
        let rs1 = [0, 1, 5, 7][index >> 3 & 3];
        let funct3 = (index & 7) as u32;
        types[index] = transfer_type(opcode | rd << 7 | funct3 << 12 | rs1 << 15);
        index += 1;
    }
    types
}

const fn switched_rows() -> [u8; 4096] {
    let mut rows = [0; 4096];
    let mut bits = 0;
    while bits < rows.len() {
        rows[bits] = 8 * switched_row(bits);
        bits += 1;
    }
    rows
}

/// In quadrant 2 bits 11 and 10 tell table jumps, where they are 0, from pop-returns, where they are 1.
const fn switched_row(bits: usize) -> u8 {
    let is_register_jump = bits & 0x7f == 2;
    let is_pop = bits & 0xd00 == 0xc00 && bits & 0xc0 != 0;
    match (bits & 3, bits >> 10) {
        (2, 1..) => match (is_register_jump, is_pop) {
            (true, false) => 28,
            (true, true) => 29,
            (false, true) => 31,
            (false, false) => 3,
        },
        (2, 0) if !is_register_jump => 24 + register_class(bits >> 7),
        _ => 4 * opcode_group(bits & 0x7f) + register_class(bits >> 7),
    }
}

/// The low 12 bits of a word of each of the last eight rows.
const LAST_ROWS: [u32; 8] = [0x006, 0x086, 0x286, 0x306, 0x402, 0xc82, 0x000, 0xc86];

const fn switched_types() -> [u8; TYPES_LEN] {
    let mut types = [0; TYPES_LEN];
    let mut index = 0;
    while index < 1024 {
        let row = index >> 5;
        let low = match row {
            24.. => LAST_ROWS[row - 24],
            _ => OPCODES[row >> 2] | REGISTERS[row & 3] << 7,
        };
        let rs1 = [0, 1, 5, 7][index >> 3 & 3];
        types[index] = switched_type(low | ((index & 7) as u32) << 12 | rs1 << 15);
        index += 1;
    }
    types
}
