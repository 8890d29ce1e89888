//! The expected output of `trace_sweep`: rows of all kinds, with each rule broken in each word.

use crate::digest::extended;
use crate::recorder::Event;
use crate::replay::{decode, BrokenWord};

/// Words of a row after the first: the largest CSR number, the largest instruction word and those
/// after them, a cause with its top bit set, and what is 0 where it has to be or is not.
const FIRST: [u64; 8] = [
    0,
    1,
    0xFFF,
    0x1000,
    0xFFFF_FFFF,
    0x1_0000_0000,
    0x8000_0000_0000_000D,
    u64::MAX,
];
const OTHER: [u64; 3] = [0, 1, u64::MAX];

/// Bits 63..32.
const UPPER_HALF: u64 = 0xFFFF_FFFF << 32;

/// The first words: every kind under all settings of the bits that are named in the lower half and
/// one more, with the upper half all zeros and all ones; and every single bit above under the kinds
/// there are and the next.
fn heads() -> impl Iterator<Item = u64> {
    let high_bits = (13..64).flat_map(|place| (0..=6).map(move |kind| kind | 1 << place));
    let lower = 0..0x2000;
    let with_ones = lower.clone().map(|head| UPPER_HALF | head);
    lower.chain(with_ones).chain(high_bits)
}

/// How many rows are an event of each kind, in how many each word is the first to break a rule, and
/// the digest of all that was decoded.
#[derive(Default)]
struct Tally {
    rows: u32,
    kinds: [u32; 6],
    broken: [u32; 4],
    digest: u64,
}

impl Tally {
    fn add(&mut self, decoded: Result<Event, BrokenWord>) {
        self.rows += 1;
        match decoded {
            Ok(event) => {
                let words = words(event);
                self.kinds[words[0] as usize] += 1;
                self.digest = extended(self.digest, words);
            }
            Err(word) => {
                self.broken[word] += 1;
                self.digest = extended(self.digest, [6, word as u64]);
            }
        }
    }

    fn lines(&self) -> String {
        let mut text = format!("  rows {}\n", self.rows);
        for (kind, count) in self.kinds.iter().enumerate() {
            text += &format!("  kind {kind} {count}\n");
        }
        for (word, count) in self.broken.iter().enumerate() {
            text += &format!("  broken in word {word} {count}\n");
        }
        text + &format!("  digest 0x{:016x}\n", self.digest)
    }
}

/// The kind of an event and its data, in the order in which it has them.
fn words(event: Event) -> Vec<u64> {
    match event {
        Event::Retired(e) => vec![
            0,
            e.word.into(),
            e.pc,
            e.target,
            e.taken.into(),
            e.mispredicted.into(),
            e.cycles.into(),
        ],
        Event::Trap(e) => vec![
            1,
            e.target_mode as u64,
            e.is_interrupt.into(),
            e.cause,
            e.epc,
            e.handler,
            e.cycles.into(),
        ],
        Event::TrapReturn(e) => vec![2, e.target_mode as u64, e.pc, e.target, e.cycles.into()],
        Event::Access(e) => vec![3, e.operation as u64, e.csr, e.operand],
        Event::Sctrclr => vec![4],
        Event::Host {
            mstateen0_ctr,
            hstateen0_ctr,
        } => vec![5, mstateen0_ctr.into(), hstateen0_ctr.into()],
    }
}

/// What `trace_sweep` prints.
pub fn trace_sweep() -> String {
    let mut tally = Tally::default();
    for head in heads() {
        for first in FIRST {
            for second in OTHER {
                for third in OTHER {
                    tally.add(decode([head, first, second, third]));
                }
            }
        }
    }
    format!("rows\n{}", tally.lines())
}

#[cfg(test)]
mod tests {
    use super::*;

    /// Of the 72 rows under a head: all of a trap's, a return's nine with word 1 0, an access's
    /// nine with word 3 0 (three numbers, three operands), a retired word's 45 (five words), and
    /// one of SCTRCLR's and the host's. Four lower halves are retired words, ten traps, five returns,
    /// four accesses, one SCTRCLR and four the host's; the first three kinds have them with no
    /// cycles, with the most, and one of them with each single bit of the 32.
    #[test]
    fn each_kind_and_each_broken_word_occurs() {
        let text = trace_sweep();
        let kinds = [
            (2 * 4 + 32) * 45,
            (2 * 10 + 32) * 72,
            (2 * 5 + 32) * 9,
            4 * 9,
            1,
            4,
        ];
        for (kind, count) in kinds.into_iter().enumerate() {
            assert!(text.contains(&format!("  kind {kind} {count}\n")), "{text}");
        }
        assert!(!text.contains(" 0\n"), "{text}");
    }
}
