//! Dumps held against firmware: whether each valid entry is one that the word at its source can have
//! left.

use std::ops::Range;

use self::Reason::*;
use crate::classifier::{
    length, transfer_type, BRANCH, C_BEQZ, C_BNEZ, C_J, IS_C_OFFSET_JUMP, JAL, NOT_TAKEN_BRANCH,
    OPCODE, TAKEN_BRANCH,
};
use crate::registers::Entry;

/// How many words of a dump are an entry.
pub(crate) const ENTRY_WORDS: usize = 3;

// The numbers of refusals.
pub(crate) const LOOSE_WORDS: u64 = 6;
pub(crate) const BAD_IMAGE: u64 = 11;

/// One more than the last address.
const ADDRESSES: u128 = 1 << 64;

/// Why an entry doesn't fit: of several reasons, the first in this order.
#[derive(Clone, Copy, Debug, PartialEq, Eq)]
pub enum Reason {
    SourceOutside = 1,
    CutOff = 2,
    TypeUnlike = 3,
    TargetWrong = 4,
}

impl Reason {
    pub fn number(self) -> u64 {
        self as u64
    }
}

/// What a check gives: all entries fit, a refusal to look at them, or the first that doesn't fit.
#[derive(Clone, Copy, Debug, PartialEq, Eq)]
pub enum Checked {
    Accepted,
    Refused(u64),
    Misfit { index: usize, reason: Reason },
}

/// Holds entries, three words each and newest first, against the code that starts at `base`. With `zc`
/// it has table jumps and pop-returns.
pub fn check(code: &[u8], base: u64, entries: &[u64], zc: bool) -> Checked {
    let (entries, loose) = entries.as_chunks::<ENTRY_WORDS>();
    if !loose.is_empty() {
        return Checked::Refused(LOOSE_WORDS);
    }
    let Some(image) = Image::new(code, base) else {
        return Checked::Refused(BAD_IMAGE);
    };
    for (index, words) in entries.iter().enumerate() {
        if let Err(reason) = image.require_fit(Entry::from_words(*words), zc) {
            return Checked::Misfit { index, reason };
        }
    }
    Checked::Accepted
}

/// Code, and where it lies.
struct Image<'a> {
    code: &'a [u8],
    addresses: Range<u128>,
}

impl<'a> Image<'a> {
    /// None if the base is odd or the code doesn't end by 2^64.
    fn new(code: &'a [u8], base: u64) -> Option<Image<'a>> {
        let start = u128::from(base);
        let end = start + code.len() as u128;
        (start % 2 == 0 && end <= ADDRESSES).then_some(Image {
            code,
            addresses: start..end,
        })
    }

    /// Only valid entries are looked at, and only those of retired words have a word of their own.
    fn require_fit(&self, entry: Entry, zc: bool) -> Result<(), Reason> {
        match entry.transfer_type() {
            _ if !entry.is_valid() => Ok(()),
            1..=3 => Ok(()),
            0 | 6 | 7 => Err(TypeUnlike),
            _ => self.require_fitting_word(entry, zc),
        }
    }

    fn require_fitting_word(&self, entry: Entry, zc: bool) -> Result<(), Reason> {
        let (pc, number) = (entry.source(), entry.transfer_type());
        let word = self.word_at(pc)?;
        require(
            TypeUnlike,
            number == transfer_type(word, number == TAKEN_BRANCH, zc),
        )?;
        match only_target(word, number, pc) {
            Some(target) => require(TargetWrong, entry.target() == target),
            None => Ok(()),
        }
    }

    /// The word that starts at an even address. Of a 16-bit one the upper half is 0.
    fn word_at(&self, pc: u64) -> Result<u32, Reason> {
        require(SourceOutside, self.addresses.contains(&pc.into()))?;
        let place = u128::from(pc) - self.addresses.start;
        let bytes = &self.code[place as usize..];
        let half = u16::from_le_bytes(*bytes.first_chunk().ok_or(CutOff)?);
        match length(half.into()) {
            2 => Ok(half.into()),
            _ => Ok(u32::from_le_bytes(*bytes.first_chunk().ok_or(CutOff)?)),
        }
    }
}

fn require(reason: Reason, holds: bool) -> Result<(), Reason> {
    if holds {
        Ok(())
    } else {
        Err(reason)
    }
}

/// Where a word of this type goes from `pc`, if it can go to one place alone.
fn only_target(word: u32, number: u8, pc: u64) -> Option<u64> {
    let offset = offset(word)?;
    let distance = match number {
        NOT_TAKEN_BRANCH => length(word).into(),
        _ => offset,
    };
    let sum = i128::from(pc) + i128::from(distance);
    Some(sum.rem_euclid(ADDRESSES as i128) as u64)
}

/// The bits of a word from `top` down, and which bits of its offset they are.
struct Part {
    top: u32,
    places: &'static [u32],
}

const fn part(top: u32, places: &'static [u32]) -> Part {
    Part { top, places }
}

/// Where the offset lies in words that equal `pattern` in the bits of `mask`. The first place of the
/// first part is the sign.
struct Layout {
    mask: u32,
    pattern: u32,
    parts: &'static [Part],
}

const fn layout(mask: u32, pattern: u32, parts: &'static [Part]) -> Layout {
    Layout {
        mask,
        pattern,
        parts,
    }
}

/// The manual's offset[20|10:1|11|19:12].
const JAL_PARTS: &[Part] = &[part(
    31,
    &[
        20, 10, 9, 8, 7, 6, 5, 4, 3, 2, 1, 11, 19, 18, 17, 16, 15, 14, 13, 12,
    ],
)];

/// The manual's offset[12|10:5] and offset[4:1|11].
const BRANCH_PARTS: &[Part] = &[
    part(31, &[12, 10, 9, 8, 7, 6, 5]),
    part(11, &[4, 3, 2, 1, 11]),
];

/// The manual's offset[11|4|9:8|10|6|7|3:1|5].
const C_J_PARTS: &[Part] = &[part(12, &[11, 4, 9, 8, 10, 6, 7, 3, 2, 1, 5])];

/// The manual's offset[8|4:3] and offset[7:6|2:1|5].
const C_BRANCH_PARTS: &[Part] = &[part(12, &[8, 4, 3]), part(6, &[7, 6, 2, 1, 5])];

/// All words with a type that have an offset.
const LAYOUTS: [Layout; 5] = [
    layout(OPCODE, JAL, JAL_PARTS),
    layout(OPCODE, BRANCH, BRANCH_PARTS),
    layout(IS_C_OFFSET_JUMP, C_J, C_J_PARTS),
    layout(IS_C_OFFSET_JUMP, C_BEQZ, C_BRANCH_PARTS),
    layout(IS_C_OFFSET_JUMP, C_BNEZ, C_BRANCH_PARTS),
];

/// The signed offset of a word that has a type, if its target is an offset from its address.
fn offset(word: u32) -> Option<i64> {
    let layout = LAYOUTS.iter().find(|l| word & l.mask == l.pattern)?;
    let sign = layout.parts[0].places[0];
    let bits = layout.parts.iter().flat_map(|part| {
        let places = part.places.iter().copied();
        places.zip((0..=part.top).rev())
    });
    Some(
        bits.filter(|(_, bit)| word >> bit & 1 == 1)
            .map(|(place, _)| {
                if place == sign {
                    -1 << place
                } else {
                    1 << place
                }
            })
            .sum(),
    )
}

#[cfg(test)]
mod tests {
    use super::*;

    /// Each place up to the sign but place 0, which isn't in the word.
    #[test]
    fn layouts_have_each_place_once() {
        for (layout, sign) in LAYOUTS.iter().zip([20, 12, 11, 8, 8]) {
            let mut places: Vec<u32> = layout
                .parts
                .iter()
                .flat_map(|p| p.places.to_vec())
                .collect();
            assert_eq!(places[0], sign);
            places.sort_unstable();
            assert_eq!(places, (1..=sign).collect::<Vec<u32>>());
        }
    }

    #[test]
    fn layouts_reach_no_bits_that_tell_the_word() {
        for layout in &LAYOUTS {
            assert_eq!(layout.pattern & !layout.mask, 0);
            for part in layout.parts {
                for bit in (0..=part.top).rev().take(part.places.len()) {
                    assert_eq!(layout.mask >> bit & 1, 0, "bit {bit}");
                }
            }
        }
    }

    #[test]
    fn words_without_an_offset_have_none() {
        // JALR, LUI, C.JR, C.JALR, CM.JT, CM.JALT, CM.POPRET, CM.POPRETZ, C.JAL of RV32.
        for word in [
            0x67, 0x37, 0x8082, 0x9082, 0xa002, 0xa082, 0xbe42, 0xbc42, 0x2001,
        ] {
            assert_eq!(offset(word), None, "{word:#x}");
        }
    }

    #[test]
    fn reasons_have_the_numbers_1_to_4() {
        let reasons = [SourceOutside, CutOff, TypeUnlike, TargetWrong];
        assert_eq!(reasons.map(Reason::number), [1, 2, 3, 4]);
    }
}
