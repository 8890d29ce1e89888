//! Masks and compares without branches. They are of bytes, so that the compiler puts sixteen words
//! into a vector.

use super::by_match::{
    BRANCH, DIRECT_JUMP, INDIRECT_CALL, INDIRECT_JUMP, OTHER_INDIRECT_JUMP, RETURN, SWAP,
};
use super::one_by_one;

const BLOCK: usize = 64;

pub fn classify_all(words: &[u32], types: &mut [u8]) -> usize {
    let count = words.len().min(types.len());
    let (blocks, last_words) = words[..count].as_chunks::<BLOCK>();
    let (places, last_places) = types[..count].as_chunks_mut::<BLOCK>();
    for (block, places) in blocks.iter().zip(places) {
        // By way of halves, which the compiler vectorises best.
        let lower = block.map(|word| word as u16);
        let upper = block.map(|word| (word >> 16) as u16);
        let low = lower.map(|half| half as u8);
        let middle = lower.map(|half| (half >> 8) as u8);
        let high = upper.map(|half| half as u8);
        for (i, place) in places.iter_mut().enumerate() {
            *place = transfer_type(low[i], middle[i], high[i]);
        }
    }
    one_by_one(last_words, last_places, |word| {
        transfer_type(word as u8, (word >> 8) as u8, (word >> 16) as u8)
    });
    count
}

/// By bits 7..0, 15..8 and 23..16. The lowest bit of rd is the top one of `low` and its others are
/// the low four of `middle`; so it is with rs1 in `middle` and `high`.
#[inline(always)]
fn transfer_type(low: u8, middle: u8, high: u8) -> u8 {
    let opcode = low & 0x7f;
    let rd = low & 0x80 | middle & 0xf;
    let rd_is_zero = mask(rd == 0);
    let rd_is_link = mask(rd & 0xfd == 0x80);
    let signed = middle as i8;
    let top_bit = mask(signed < 0);
    let rs1_is_link = top_bit & mask(high & 0xd == 0);

    // By rd alone. The type of a direct jump is one more than that of an indirect one.
    let indirect = OTHER_INDIRECT_JUMP
        ^ rd_is_zero & (OTHER_INDIRECT_JUMP ^ INDIRECT_JUMP)
        ^ rd_is_link & (OTHER_INDIRECT_JUMP ^ INDIRECT_CALL);
    // Bit 1 of `middle` and of `high` is bit 2 of the register, which tells x5 from x1.
    let swap = (middle ^ high) << 1 & (SWAP ^ INDIRECT_CALL);
    let jalr = choose(
        rs1_is_link,
        choose(rd_is_link, INDIRECT_CALL | swap, RETURN),
        indirect,
    );
    let is_jalr = mask(opcode == 0x67) & mask(middle & 0x70 == 0);

    let c_jr = choose(rd_is_link, RETURN, INDIRECT_JUMP);
    let c_jalr = choose(mask(rd == 0x82), SWAP, INDIRECT_CALL);
    let c_register_jump = choose(mask(signed < 0x90_u8 as i8), c_jr, c_jalr);
    let is_c_register_jump = mask(opcode == 0x02) & mask(signed < 0xa0_u8 as i8) & !rd_is_zero;

    let c_offset_jump = mask(signed >= 0xa0_u8 as i8) & DIRECT_JUMP
        ^ mask(signed >= 0xc0_u8 as i8) & (DIRECT_JUMP ^ BRANCH);
    let is_c_offset_jump = mask(low & 3 == 1) & top_bit;

    jalr & is_jalr
        | (indirect | 1) & mask(opcode == 0x6f)
        | BRANCH & mask(opcode == 0x63) & !mask(middle & 0x60 == 0x20)
        | c_register_jump & is_c_register_jump
        | c_offset_jump & is_c_offset_jump
}

#[inline(always)]
fn mask(condition: bool) -> u8 {
    u8::from(condition).wrapping_neg()
}

#[inline(always)]
fn choose(mask: u8, yes: u8, no: u8) -> u8 {
    yes & mask | no & !mask
}
