//! What `replay_sweep` is fed with: well-formed rows, then malformed ones.

use crate::expected::recorder_sweep::random_events;
use crate::expected::traces::{guest_rows, user_rows};
use crate::replay::{encode, Row};

/// How many rows are well-formed, and how many malformed.
pub(super) const GOOD: usize = 512;
pub(super) const BROKEN: usize = 48;

/// How many rows come from each sample trace, setups included. Random events are the rest.
const SAMPLE: usize = 128;
const RANDOM: usize = GOOD - 2 * SAMPLE;

/// Where the random events start, so that there are all kinds of them and all kinds of answers.
const RANDOM_SEED: u64 = 46;

/// Each breaks one rule of a row, and all else in it is right.
const MALFORMED: [Row; BROKEN] = [
    // Kinds from 6 up, two of them with the data of the kind in their low three bits.
    [0x006, 0, 0, 0],
    [0x007, 0, 0, 0],
    [0x008, 0xef, 0x1000, 0x2000],
    [0x083, 0x34E, 7, 0],
    [0x0FF, 0, 0, 0],
    // Word 0 of a retired word: bit 10 beside the flags or not, bit 31, and bit 10 below cycles.
    [0x400, 0xef, 0x1000, 0x2000],
    [0x700, 0x63, 0x1000, 0x2000],
    [1 << 31, 0xef, 0x1000, 0x2000],
    [0xFFFF_FFFF_0000_0400, 0xef, 0x1000, 0x2000],
    // Word 0 of a trap.
    [0x1201, 2, 0x3000, 0x4000],
    [1 << 31 | 0x201, 2, 0x3000, 0x4000],
    [1 << 63 | 0x1201, 2, 0x3000, 0x4000],
    [0x501, 2, 0x3000, 0x4000],
    [0xE01, 2, 0x3000, 0x4000],
    [0x701, 2, 0x3000, 0x4000],
    // Word 0 of a return.
    [0x902, 0, 0x5000, 0x6000],
    [1 << 31 | 0x102, 0, 0x5000, 0x6000],
    [1 << 63 | 0x902, 0, 0x5000, 0x6000],
    [0x502, 0, 0x5000, 0x6000],
    [0x602, 0, 0x5000, 0x6000],
    [0x702, 0, 0x5000, 0x6000],
    // Word 0 of an access.
    [0x503, 0x34E, 7, 0],
    [1 << 32 | 0x103, 0x34E, 7, 0],
    [1 << 63 | 0x103, 0x34E, 7, 0],
    // Word 0 of SCTRCLR.
    [0x104, 0, 0, 0],
    [1 << 32 | 0x004, 0, 0, 0],
    [1 << 63 | 0x004, 0, 0, 0],
    // Word 0 of the host's.
    [0x705, 0, 0, 0],
    [1 << 32 | 0x305, 0, 0, 0],
    [1 << 63 | 0x305, 0, 0, 0],
    // Instructions that are too large.
    [0x000, 1 << 32, 0x1000, 0x2000],
    [0x000, 1 << 32 | 0xef, 0x1000, 0x2000],
    [0x100, 1 << 63 | 0x63, 0x1000, 0x2000],
    // CSR numbers that are too large.
    [0x103, 4096, 7, 0],
    [0x103, 4096 | 0x34E, 7, 0],
    [0x003, 1 << 32 | 0x34E, 0, 0],
    [0x203, 1 << 63, 7, 0],
    // Words that have to be 0: word 1 of a return, word 3 of an access.
    [0x002, 1, 0x5000, 0x6000],
    [0x102, 1 << 63, 0x5000, 0x6000],
    [0x003, 0x34E, 7, 1],
    [0x303, 0x34E, 7, 1 << 63],
    // All but word 0 of SCTRCLR and of the host's.
    [0x004, 1, 0, 0],
    [0x004, 0, 1, 0],
    [0x004, 0, 0, 1],
    [0x004, 0, 1 << 63, 0],
    [0x105, 1, 0, 0],
    [0x205, 0, 1, 0],
    [0x305, 0, 0, 1 << 63],
];

pub(super) fn rows() -> Vec<Row> {
    let samples = user_rows().take(SAMPLE).chain(guest_rows().take(SAMPLE));
    let random = random_events(RANDOM_SEED).map(encode).take(RANDOM);
    samples.chain(random).chain(MALFORMED).collect()
}

#[cfg(test)]
mod tests {
    use super::*;
    use crate::access::Answer;
    use crate::recorder::{Event, Machine};
    use crate::registers::Mode;
    use crate::replay::decode;
    use std::collections::HashSet;

    /// The well-formed rows as events from reset, with answers and the modes after them.
    fn answered() -> Vec<(Event, Answer, Mode)> {
        let mut machine = Machine::reset(true);
        let rows = rows();
        let events = rows[..GOOD].iter().map(|row| decode(*row));
        events
            .map(|event| {
                let event = event.expect("a well-formed row");
                let answer = machine.step(event);
                (event, answer, machine.registers.mode)
            })
            .collect()
    }

    #[test]
    fn every_kind_number_value_and_mode_occurs() {
        let rows = rows();
        let kinds: HashSet<u64> = rows[..GOOD].iter().map(|row| row[0] % 0x100).collect();
        assert_eq!(kinds, HashSet::from([0, 1, 2, 3, 4, 5]));
        let (mut numbers, mut values, mut modes) = (HashSet::new(), HashSet::new(), HashSet::new());
        for (event, answer, mode) in answered() {
            numbers.insert(answer.number);
            modes.insert(mode as u8);
            if event.is_transfer() {
                values.insert(answer.value);
            }
        }
        assert_eq!(numbers, HashSet::from([0, 1, 2, 3, 4]));
        assert_eq!(values, HashSet::from([0, 1, 2, 3, 4]));
        assert_eq!(modes, HashSet::from([0, 1, 2, 3, 4]));
    }

    /// All of the setups and of the samples is possible, and much of each sample is recorded.
    #[test]
    fn samples_are_recorded() {
        let answered = answered();
        let (user, others) = answered.split_at(SAMPLE);
        let (guest, _) = others.split_at(SAMPLE);
        for sample in [user, guest] {
            assert!(sample.iter().all(|(_, answer, _)| answer.number == 0));
            let is_recorded = |(event, answer, _): &&(Event, Answer, Mode)| {
                event.is_transfer() && answer.value == 1
            };
            assert!(sample.iter().filter(is_recorded).count() > SAMPLE / 2);
        }
    }

    #[test]
    fn each_malformed_row_has_one_word_that_breaks_a_rule() {
        let rows = rows();
        assert_eq!(rows.len(), GOOD + BROKEN);
        for row in &rows[GOOD..] {
            let word = decode(*row).expect_err("a malformed row");
            let is_mended = (0..6).any(|value| {
                let mut row = *row;
                row[word] = value;
                decode(row).is_ok()
            });
            assert!(is_mended, "{row:x?}");
        }
        let distinct: HashSet<&Row> = rows[GOOD..].iter().collect();
        assert_eq!(distinct.len(), BROKEN);
    }

    /// Every word of every kind that can break a rule does so in some row.
    #[test]
    fn every_word_that_can_be_broken_is() {
        let rows = rows();
        let broken: HashSet<(u64, usize)> = rows[GOOD..]
            .iter()
            .filter(|row| row[0] % 0x100 < 6)
            .map(|row| (row[0] % 0x100, decode(*row).expect_err("a malformed row")))
            .collect();
        let heads = (0..6).map(|kind| (kind, 0));
        let others = [(0, 1), (2, 1), (3, 1), (3, 3)];
        let zeros = [4, 5].map(|kind| [(kind, 1), (kind, 2), (kind, 3)]);
        let expected = heads.chain(others).chain(zeros.concat()).collect();
        assert_eq!(broken, expected);
    }
}
