//! A table of 64 KB by the low half of a word. It gives the type of every 16-bit word, and of every
//! 32-bit word but JALR with an odd rs1, where bits 19..16 count as well. All words go on to a small
//! table by what the large one gives and by those bits, so there is no branch.

use super::by_eights;
use super::by_match::{switched_type, transfer_type};
use super::classes::{register_class, REGISTERS};

/// By bits 15..0: the type, or for JALR with an odd rs1 `ODD_BASE` plus the class of rd.
static HALVES: [u8; 1 << 16] = halves(false);
static SWITCHED_HALVES: [u8; 1 << 16] = halves(true);
const ODD_BASE: u8 = 16;

/// By 32 times bits 19..16 plus the entry of the large table, which is below 512; it is as long as
/// a byte can reach, so that no index is checked.
static TYPES: [u8; TYPES_LEN] = types();
const TYPES_LEN: usize = 32 * 15 + 255 + 1;

pub fn classify_all(words: &[u32], types: &mut [u8]) -> usize {
    by_eights(words, types, |word| by_table(&HALVES, word))
}

pub fn classify_all_switched(words: &[u32], types: &mut [u8]) -> usize {
    by_eights(words, types, |word| by_table(&SWITCHED_HALVES, word))
}

#[inline(always)]
fn by_table(halves: &[u8; 1 << 16], word: u32) -> u8 {
    let entry = halves[(word & 0xffff) as usize];
    TYPES[(word >> 11 & 0x1e0) as usize + usize::from(entry)]
}

const fn halves(is_switched: bool) -> [u8; 1 << 16] {
    let mut halves = [0; 1 << 16];
    let mut half = 0;
    while half < halves.len() {
        halves[half] = if half & 0xf07f == 0x8067 {
            ODD_BASE + register_class(half >> 7 & 31)
        } else if is_switched {
            switched_type(half as u32)
        } else {
            transfer_type(half as u32)
        };
        half += 1;
    }
    halves
}

const fn types() -> [u8; TYPES_LEN] {
    let mut types = [0; TYPES_LEN];
    let mut index = 0;
    while index < 512 {
        let entry = (index & 31) as u8;
        types[index] = if entry < ODD_BASE {
            entry
        } else {
            let rd = REGISTERS[(entry & 3) as usize];
            let rs1 = (index >> 5) as u32 * 2 + 1;
            transfer_type(rs1 << 15 | rd << 7 | 0x67)
        };
        index += 1;
    }
    types
}
