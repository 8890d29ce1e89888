//! The expected output of `replay_sweep`: runs over slices of its input, the same rows cut in two at
//! each place, and runs with a malformed row at each place.

mod input;

use std::array;
use std::ops::Range;

use self::input::{rows, BROKEN, GOOD};
use super::random::Random;
use super::recorder_sweep::with_state;
use crate::digest::extended;
use crate::recorder::Machine;
use crate::registers::Registers;
use crate::replay::{bytes_of, Row};
use crate::run::Outcome;

/// How many slices are run, and how many rows they have at most.
const SLICES: usize = 2000;
const MOST: usize = 40;

/// How many rows the runs with a malformed one have at most.
const MOST_IF_MALFORMED: usize = 16;

/// How many words there are for answers. A run is lent some of them.
const ROOM: usize = 128;

/// The numbers that runs give.
const GIVEN: [u8; 4] = [0, 6, 7, 9];

/// The bytes that `replay_sweep` is fed with.
pub fn replay_sweep_input() -> Vec<u8> {
    bytes_of(rows())
}

/// What `replay_sweep` prints.
pub fn replay_sweep() -> String {
    format!("runs\n{}", tally().lines())
}

fn tally() -> Tally {
    let input = rows();
    let mut random = Random::from_seed();
    let mut tally = Tally::default();
    let machine = add_slices(&mut tally, &mut random, &input);
    for n in 1..=MOST_IF_MALFORMED {
        for place in 0..n {
            for b in 0..BROKEN {
                with_malformed(&input, &mut random, &machine, (n, place, b)).run_whole(&mut tally);
            }
        }
    }
    tally
}

/// Runs all slices, whole and cut, with the switch on. Each starts where the last one ended that was not run from a bad
/// state; what is given is the machine after them.
fn add_slices(tally: &mut Tally, random: &mut Random, input: &[Row]) -> Machine {
    let mut machine = Machine::reset(true);
    for k in 0..SLICES {
        let trial = slice(input, random, &machine, k);
        let whole = trial.run_whole(tally);
        trial.run_cut_at_each_place(tally, &whole);
        if !trial.start.machine.registers.is_bad() {
            machine = whole.end.machine;
        }
    }
    machine
}

/// What the runs gave, how often each number was answered, how many runs ended in a bad state, how
/// many words were left as they had been; how many cuts there were, how many of them with 0 from
/// each run, and how many of these ended as the whole run did; and the digest of what each run gave
/// and left.
#[derive(Default)]
struct Tally {
    runs: u64,
    given: [u64; 10],
    events: u64,
    numbers: [u64; 6],
    bad: u64,
    kept: u64,
    cuts: u64,
    cuts_of_0: u64,
    cuts_alike: u64,
    digest: u64,
}

impl Tally {
    /// A run that was lent the words from `first` on.
    fn add(&mut self, outcome: Outcome, bench: &Bench, first: usize) {
        self.runs += 1;
        self.given[usize::from(outcome.number)] += 1;
        self.events += outcome.count;
        for number in bench.numbers(first, outcome.count as usize) {
            self.numbers[number as usize] += 1;
        }
        self.bad += u64::from(bench.machine.registers.is_bad());
        self.kept += bench.kept();
        self.digest = extended(self.digest, [outcome.number.into(), outcome.count]);
        self.digest = extended(self.digest, bench.answers);
        self.digest = with_state(self.digest, &bench.machine);
    }

    /// What a whole run and the two of a cut gave and left.
    fn add_cut(&mut self, whole: &Ran, [first, last]: [Outcome; 2], end: &Bench) {
        self.cuts += 1;
        let runs = [whole.outcome, first, last];
        if runs.iter().all(|run| run.number == 0) {
            let count = first.count + last.count;
            self.cuts_of_0 += 1;
            self.cuts_alike += u64::from(*end == whole.end && count == whole.outcome.count);
        }
    }

    fn lines(&self) -> String {
        let mut text = format!("  runs {}\n", self.runs);
        for number in GIVEN {
            text += &format!("  gave {number} {}\n", self.given[usize::from(number)]);
        }
        text += &format!("  events {}\n", self.events);
        for (number, count) in self.numbers.iter().enumerate() {
            text += &format!("  number {number} {count}\n");
        }
        text += &format!("  bad {}\n", self.bad);
        text += &format!("  words kept {}\n", self.kept);
        text += &format!("  cuts {}\n", self.cuts);
        text += &format!("  cuts of 0 {}\n", self.cuts_of_0);
        text += &format!("  cuts alike {}\n", self.cuts_alike);
        text + &format!("  digest 0x{:016x}\n", self.digest)
    }
}

/// A machine and the words for answers, each of which is its index under a pattern at first.
#[derive(Clone, PartialEq)]
struct Bench {
    machine: Machine,
    pattern: u64,
    answers: [u64; ROOM],
}

impl Bench {
    fn new(machine: Machine, pattern: u64) -> Bench {
        Bench {
            machine,
            pattern,
            answers: array::from_fn(|index| pattern ^ index as u64),
        }
    }

    /// A run that is lent some of the words.
    fn run(&mut self, tally: &mut Tally, words: &[u64], lent: Range<usize>) -> Outcome {
        let first = lent.start;
        let outcome = self.machine.run(words, &mut self.answers[lent]);
        tally.add(outcome, self, first);
        outcome
    }

    /// The numbers of so many answers, which start at `first`.
    fn numbers(&self, first: usize, count: usize) -> impl Iterator<Item = u64> + '_ {
        let answers = self.answers[first..].chunks_exact(2);
        answers.take(count).map(|answer| answer[0])
    }

    /// How many words are as they were at first.
    fn kept(&self) -> u64 {
        let words = (0..).zip(self.answers);
        words
            .filter(|(index, word)| *word == self.pattern ^ index)
            .count() as u64
    }
}

/// What is run, and how many words for answers are lent.
struct Trial {
    words: Vec<u64>,
    start: Bench,
    lent: usize,
}

/// What a run gave, and what it left.
struct Ran {
    outcome: Outcome,
    end: Bench,
}

impl Trial {
    fn run_whole(&self, tally: &mut Tally) -> Ran {
        let mut end = self.start.clone();
        let outcome = end.run(tally, &self.words, 0..self.lent);
        Ran { outcome, end }
    }

    /// Runs the rows before each place, then from the machine that is left those after it. If words
    /// are too few, the first run gets what there is of its share.
    fn run_cut_at_each_place(&self, tally: &mut Tally, whole: &Ran) {
        for place in 0..=self.words.len() / 4 {
            let (before, after) = self.words.split_at(4 * place);
            let share = self.lent.min(2 * place);
            let mut end = self.start.clone();
            let first = end.run(tally, before, 0..share);
            let last = end.run(tally, after, share..self.lent);
            tally.add_cut(whole, [first, last], &end);
        }
    }
}

/// Slice `k`: rows from anywhere in the well-formed ones, and behind them loose words in one of five
/// slices. The answer words are as many as are needed, more, or too few; one of eight states is bad.
fn slice(input: &[Row], random: &mut Random, machine: &Machine, k: usize) -> Trial {
    let [x, pattern] = random.draw_all();
    let first = (x % (GOOD - MOST) as u64) as usize;
    let n = k % (MOST + 1);
    let loose = if k % 5 == 4 { 1 + k / 5 % 3 } else { 0 };
    let mut words = input[first..].concat();
    words.truncate(4 * n + loose);
    let mut start = Bench::new(machine.clone(), pattern);
    if k % 8 == 7 {
        make_bad(&mut start.machine.registers, k / 8);
    }
    let lent = match (k / 3 % 4, k / 12 % 2) {
        (0 | 1, _) => 2 * n,
        (2, _) => 2 * n + 1 + k / 12 % 7,
        (_, 0) => (2 * n).saturating_sub(1),
        _ => n.saturating_sub(1),
    };
    Trial { words, start, lent }
}

/// `n` rows, with malformed row `b` in place of one of them. One of seven malformed rows meets a bad
/// state.
fn with_malformed(
    input: &[Row],
    random: &mut Random,
    machine: &Machine,
    (n, place, b): (usize, usize, usize),
) -> Trial {
    let mut rows = input[29 * n..][..n].to_vec();
    rows[place] = input[GOOD + b];
    let mut start = Bench::new(machine.clone(), random.draw());
    if b % 7 == 6 {
        make_bad(&mut start.machine.registers, b / 7);
    }
    let lent = match (n + place + b) % 4 {
        0 => 2 * n - 1,
        1 | 2 => 2 * n,
        _ => 2 * n + 5,
    };
    Trial {
        words: rows.concat(),
        start,
        lent,
    }
}

/// Makes a good state bad, in one of the five ways there are.
fn make_bad(registers: &mut Registers, way: usize) {
    match way % 5 {
        0 => registers.depth_code = 5,
        1 => registers.wrptr = registers.depth(),
        2 => registers.mctrctl |= 1 << 63,
        3 => registers.vsctrctl |= 1 << 2,
        _ => registers.cycles = 1 << 27,
    }
}

#[cfg(test)]
mod tests {
    use super::*;

    /// Of the runs, each slice is one, each cut two, and the rest have a malformed row: 1 to 16 rows
    /// with each place and each malformed row.
    #[test]
    fn everything_occurs_and_all_is_counted() {
        let tally = tally();
        assert!(!tally.lines().contains(" 0\n"), "{}", tally.lines());
        let with_malformed = 16 * 17 / 2 * 48;
        assert_eq!(tally.runs, 2000 + 2 * tally.cuts + with_malformed);
        assert_eq!(tally.given.iter().sum::<u64>(), tally.runs);
        assert_eq!(tally.numbers.iter().sum::<u64>(), tally.events);
        assert!(tally.given[9] < with_malformed);
    }

    #[test]
    fn cuts_of_0_are_alike() {
        let tally = tally();
        assert_eq!(tally.cuts_alike, tally.cuts_of_0);
        assert!(tally.cuts_of_0 < tally.cuts);
    }

    /// Refused for loose words, with and without room; and for too few answer words, down to none.
    #[test]
    fn slices_are_refused_in_each_way() {
        let (input, machine) = (rows(), Machine::reset(false));
        let mut random = Random::from_seed();
        let slices: Vec<Trial> = (0..SLICES)
            .map(|k| slice(&input, &mut random, &machine, k))
            .collect();
        let occurs = |loose: usize, has_room: bool| {
            let is_so = |slice: &&Trial| {
                let rows = slice.words.len() / 4;
                slice.words.len() % 4 == loose && has_room == (slice.lent >= 2 * rows)
            };
            slices.iter().filter(is_so).count() > 10
        };
        for loose in 0..4 {
            assert!(occurs(loose, true) && occurs(loose, false), "{loose}");
        }
        let has_none = |slice: &Trial| slice.lent == 0 && slice.words.len() == 4;
        assert!(slices.iter().any(has_none));
    }

    /// The machine after the slices is not frozen, and the modes are on.
    #[test]
    fn events_before_a_malformed_row_are_recorded() {
        let (input, mut tally) = (rows(), Tally::default());
        let mut random = Random::from_seed();
        let machine = add_slices(&mut tally, &mut random, &input);
        let trial = with_malformed(&input, &mut random, &machine, (8, 7, 2));
        let Ran { outcome, end } = trial.run_whole(&mut tally);
        assert_eq!((outcome.number, outcome.count), (9, 7));
        assert_eq!(end.answers[..14], [0, 1].repeat(7));
        assert_ne!(end.machine.entries, machine.entries);
    }

    #[test]
    fn bad_states_are_bad() {
        for way in 0..4 {
            let mut registers = Registers::reset(false);
            make_bad(&mut registers, way);
            assert!(registers.is_bad());
        }
    }
}
