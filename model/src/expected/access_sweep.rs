//! The expected output of `access_sweep`: every operation on many CSR numbers, SCTRCLR and host
//! events, in every mode and many states, and the places of logical entries.

use super::random::Random;
use crate::access::{Access, Answer, Operation};
use crate::digest::extended;
use crate::registers::{Entry, Mode, Registers, DEPTHS, MCTRCTL_MASK, SCTRCTL_MASK};

/// Both ends of the window, of the entries in use at each depth, and a high bit.
const SELECTIONS: [u64; 13] = [
    0x1FF,
    0x200,
    0x20F,
    0x210,
    0x21F,
    0x220,
    0x23F,
    0x240,
    0x27F,
    0x280,
    0x2FF,
    0x300,
    0x8000_0000_0000_0200,
];

/// What `access_sweep` prints: a block of lines for each mode, and one for logical entries.
pub fn access_sweep() -> String {
    let modes: String = Mode::ALL.into_iter().map(mode_block).collect();
    modes + &logical_entries()
}

/// All listed CSR numbers and their neighbours, the ends of the ranges, and one that is listed but
/// for a high bit.
fn numbers() -> impl Iterator<Item = u64> {
    [0].into_iter()
        .chain(0x14D..=0x158)
        .chain(0x15E..=0x160)
        .chain([0x1FF, 0x200])
        .chain(0x24D..=0x258)
        .chain([0x2FF, 0x300])
        .chain(0x34D..=0x34F)
        .chain([0xFFF, 0x1_0000_014E])
}

impl Random {
    /// Often no bits, all bits or few bits.
    fn operand(&mut self) -> u64 {
        let x = self.draw();
        match x >> 62 {
            0 => 0,
            1 => u64::MAX,
            2 => x % 1024,
            _ => x,
        }
    }

    /// State `s`, without state enables and selections. Some control words, WRPTRs and depth codes
    /// are bad, up to the largest there are.
    fn state(&mut self, mode: Mode, s: u64) -> Registers {
        let (mctrctl, vsctrctl) = (self.draw(), self.draw());
        let depth_code = match s % 10 {
            9 => u64::MAX,
            _ => s % 6,
        };
        let depth = 16 << depth_code.min(4);
        let (wrptr, cycles) = (self.draw(), self.draw());
        Registers {
            mode,
            mctrctl: if s % 8 == 7 {
                mctrctl
            } else {
                mctrctl & MCTRCTL_MASK
            },
            vsctrctl: match s % 16 {
                6 => 1 << 2,
                14 => vsctrctl,
                _ => vsctrctl & SCTRCTL_MASK,
            },
            depth_code,
            wrptr: match s % 32 {
                5 | 21 => depth,
                13 => wrptr,
                29 => u64::MAX,
                _ => wrptr % depth,
            },
            frozen: s % 2 == 1,
            cycles: match s % 16 {
                10 => 1 << 27,
                _ => cycles % (1 << 27),
            },
            ccv: cycles >> 63 == 1,
            ..Registers::reset(false)
        }
    }
}

/// How often each number was answered, and the digests of answers and of what is there afterwards.
#[derive(Default)]
struct Tally {
    counts: [u32; 6],
    answers: u64,
    registers: u64,
    entries: u64,
}

impl Tally {
    fn add(&mut self, answer: Answer, registers: &Registers, entry: &Entry) {
        self.counts[usize::from(answer.number)] += 1;
        self.answers = extended(self.answers, [answer.number.into(), answer.value]);
        self.registers = extended(self.registers, registers.fields());
        self.entries = extended(self.entries, entry.words());
    }

    fn lines(&self) -> String {
        let counts = self.counts.iter().enumerate();
        let mut text: String = counts
            .map(|(number, count)| format!("  number {number} {count}\n"))
            .collect();
        text += &format!("  answers 0x{:016x}\n", self.answers);
        text += &format!("  registers 0x{:016x}\n", self.registers);
        text + &format!("  entries 0x{:016x}\n", self.entries)
    }
}

fn mode_block(mode: Mode) -> String {
    let mut random = Random::from_seed();
    let mut tally = Tally::default();
    for s in 0..40 {
        let state = random.state(mode, s);
        for e in 0..4 {
            for j in 0..SELECTIONS.len() as u64 {
                let registers = Registers {
                    siselect: selection(j),
                    vsiselect: selection(2 * j + s),
                    mstateen0_ctr: e % 2 == 1,
                    hstateen0_ctr: e / 2 == 1,
                    ..state
                };
                add_events(&mut tally, &mut random, &registers);
            }
        }
    }
    format!("mode {mode:?}\n{}", tally.lines())
}

fn selection(index: u64) -> u64 {
    SELECTIONS[index as usize % SELECTIONS.len()]
}

/// All accesses from one state, each with an operand and an entry of its own, then SCTRCLR and a
/// host event with the last entry.
fn add_events(tally: &mut Tally, random: &mut Random, start: &Registers) {
    let mut last = Entry::default();
    for csr in numbers() {
        for operation in Operation::ALL {
            let operand = random.operand();
            last = random.entry();
            let (mut registers, mut entry) = (*start, last);
            let access = Access {
                operation,
                csr,
                operand,
            };
            let answer = registers.access(&mut entry, access);
            tally.add(answer, &registers, &entry);
        }
    }
    let (mut registers, mut cleared) = (*start, last);
    let answer = registers.sctrclr(&mut cleared);
    tally.add(answer, &registers, &cleared);

    let (mut registers, x) = (*start, random.0);
    let answer = registers.set_state_enables(x & 1 == 1, x >> 1 & 1 == 1);
    tally.add(answer, &registers, &last);
}

/// For each depth, the digest of the places of all logical entries under all WRPTRs.
fn logical_entries() -> String {
    let mut text = "logical entries\n".to_string();
    for (depth_code, depth) in (0..).zip(DEPTHS) {
        let places = (0..depth).flat_map(|wrptr| places(depth_code, wrptr));
        text += &format!("  depth {depth} 0x{:016x}\n", extended(0, places));
    }
    text
}

/// The physical entries of all logical entries in turn.
fn places(depth_code: u64, wrptr: u64) -> impl Iterator<Item = u64> {
    let registers = Registers {
        depth_code,
        wrptr,
        ..Registers::reset(false)
    };
    (0..registers.depth()).map(move |i| registers.physical_entry(i))
}

#[cfg(test)]
mod tests {
    use super::*;

    /// In each mode: 40 states, 4 settings of the state enables and 13 selections, with 37 numbers
    /// under 4 operations and 2 more events.
    #[test]
    fn each_mode_has_as_many_events() {
        let sweep = access_sweep();
        let counts: Vec<u32> = sweep
            .lines()
            .filter_map(|line| line.strip_prefix("  number "))
            .map(|line| line.split_once(' ').expect("a number and a count").1)
            .map(|count| count.parse().expect("a count"))
            .collect();
        let sums = counts.chunks(6).map(|mode| mode.iter().sum());
        assert_eq!(Vec::<u32>::from_iter(sums), [40 * 4 * 13 * (37 * 4 + 2); 5]);
    }
}
