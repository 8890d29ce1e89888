//! Pairs of lists that are equal but for what belongs to modes that are off: words retired there,
//! addresses on their side, and the cycles of traps and returns from them. The answers and the end states have to be equal.

use std::mem;

use super::draw::{address, cycles};
use super::{with_answer, with_state};
use crate::access::Answer;
use crate::expected::random::Random;
use crate::recorder::{Event, Machine};
use crate::registers::Mode;

const PAIRS: u32 = 4000;

/// How many events the lists of a pair have in common; some of these may be struck. By a random
/// number, so that lists may be empty or be struck to nothing.
fn turns(n: u64) -> u32 {
    match n % 8 {
        0 => 0,
        1 => 1,
        _ => 16,
    }
}

/// One run of a pair. Words retired in a mode that is off are struck.
struct Run {
    machine: Machine,
    events: u32,
    struck: u32,
}

impl Run {
    fn new(machine: Machine) -> Run {
        Run {
            machine,
            events: 0,
            struck: 0,
        }
    }

    fn mode(&self) -> Mode {
        self.machine.registers.mode
    }

    fn is_off(&self, mode: Mode) -> bool {
        !self.machine.registers.is_on(mode)
    }

    /// What is answered to the event, unless it is struck.
    fn step(&mut self, event: Event) -> Option<Answer> {
        let is_struck = matches!(event, Event::Retired(_)) && self.is_off(self.mode());
        self.events += 1;
        self.struck += u32::from(is_struck);
        let answer = self.machine.step(event);
        (!is_struck).then_some(answer)
    }

    /// Words that only this run has, if they are struck.
    fn retire_words(&mut self, random: &mut Random, count: u64) {
        if self.is_off(self.mode()) {
            for _ in 0..count {
                self.step(random.retired_word());
            }
        }
    }
}

/// What the pairs had in them, how often they were unequal, and digests of what is left of the
/// first run of each.
#[derive(Default)]
struct Tally {
    bad_starts: u32,
    switched_on: u32,
    unequal_lengths: u32,
    empty: u32,
    struck_to_nothing: u32,
    words_struck: u32,
    addresses_differed: u32,
    cycles_differed: u32,
    flags_differed: u32,
    events_left: u32,
    answers_unequal: u32,
    end_states_unequal: u32,
    answers: u64,
    end_states: u64,
}

impl Tally {
    /// The answers to one event in both runs. If only one run has it struck, what is left of the
    /// lists is unequal, and so are the answers.
    fn add_answers(&mut self, answers: (Option<Answer>, Option<Answer>)) {
        match answers {
            (None, None) => {}
            (Some(a), Some(b)) => {
                self.events_left += 1;
                self.answers_unequal += u32::from(a != b);
                self.answers = with_answer(self.answers, a);
            }
            _ => self.answers_unequal += 1,
        }
    }

    fn add_ends(&mut self, a: &Run, b: &Run) {
        for run in [a, b] {
            self.empty += u32::from(run.events == 0);
            self.struck_to_nothing += u32::from(run.events > 0 && run.events == run.struck);
        }
        self.unequal_lengths += u32::from(a.events != b.events);
        self.words_struck += a.struck + b.struck;
        self.end_states_unequal += u32::from(a.machine != b.machine);
        self.end_states = with_state(self.end_states, &a.machine);
    }

    fn lines(&self) -> String {
        let counts = [
            ("bad starts", self.bad_starts),
            ("switched on", self.switched_on),
            ("unequal lengths", self.unequal_lengths),
            ("empty lists", self.empty),
            ("struck to nothing", self.struck_to_nothing),
            ("words struck", self.words_struck),
            ("addresses differed", self.addresses_differed),
            ("cycles differed", self.cycles_differed),
            ("flags differed", self.flags_differed),
            ("events left", self.events_left),
            ("answers unequal", self.answers_unequal),
            ("end states unequal", self.end_states_unequal),
        ];
        let mut text: String = counts
            .iter()
            .map(|(name, count)| format!("  {name} {count}\n"))
            .collect();
        text += &format!("  answers 0x{:016x}\n", self.answers);
        text + &format!("  end states 0x{:016x}\n", self.end_states)
    }
}

pub(super) fn pairs() -> String {
    let mut random = Random::from_seed();
    let mut tally = Tally::default();
    for _ in 0..PAIRS {
        add_pair(&mut tally, &mut random);
    }
    format!("pairs\n  pairs {PAIRS}\n{}", tally.lines())
}

fn add_pair(tally: &mut Tally, random: &mut Random) {
    let start = random.machine();
    tally.bad_starts += u32::from(start.registers.is_bad());
    tally.switched_on += u32::from(start.registers.zc);
    let (mut a, mut b) = (Run::new(start.clone()), Run::new(start));
    for _ in 0..turns(random.draw()) {
        retire_words(&mut a, &mut b, random);
        let event = random.event(a.mode());
        let mut other = event;
        let addresses = random.draw_all().map(address);
        let n = random.draw();
        tally.addresses_differed += replace_addresses(&mut other, addresses, &a, &b);
        tally.cycles_differed += u32::from(replace_cycles(&mut other, cycles(n), &a, &b));
        let is_mispredicted = n / (1 << 36) % 2 == 1;
        tally.flags_differed += u32::from(replace_flag(&mut other, is_mispredicted, &a, &b));
        tally.add_answers((a.step(event), b.step(other)));
    }
    retire_words(&mut a, &mut b, random);
    tally.add_ends(&a, &b);
}

/// Words that each run has alone.
fn retire_words(a: &mut Run, b: &mut Run, random: &mut Random) {
    let n = random.draw();
    a.retire_words(random, n % 4);
    b.retire_words(random, n / 4 % 4);
}

/// Replaces the addresses whose side is off in both runs, and tells how many of them differ now.
fn replace_addresses(event: &mut Event, [p, q]: [u64; 2], a: &Run, b: &Run) -> u32 {
    let (source, target, target_mode) = match event {
        Event::Trap(trap) => (&mut trap.epc, &mut trap.handler, trap.target_mode),
        Event::TrapReturn(trap_return) => (
            &mut trap_return.pc,
            &mut trap_return.target,
            trap_return.target_mode,
        ),
        _ => return 0,
    };
    let mut differing = 0;
    if a.is_off(a.mode()) && b.is_off(b.mode()) {
        differing += u32::from(mem::replace(source, p) != p);
    }
    if a.is_off(target_mode) && b.is_off(target_mode) {
        differing += u32::from(mem::replace(target, q) != q);
    }
    differing
}

/// Replaces the cycles of a trap or return whose source mode is off in both runs, and tells whether
/// they differ now.
fn replace_cycles(event: &mut Event, number: u32, a: &Run, b: &Run) -> bool {
    let cycles = match event {
        Event::Trap(trap) => &mut trap.cycles,
        Event::TrapReturn(trap_return) => &mut trap_return.cycles,
        _ => return false,
    };
    a.is_off(a.mode()) && b.is_off(b.mode()) && mem::replace(cycles, number) != number
}

/// Replaces the flag of a word that is struck in both runs, and tells whether it differs now.
fn replace_flag(event: &mut Event, is_mispredicted: bool, a: &Run, b: &Run) -> bool {
    match event {
        Event::Retired(retired) if a.is_off(a.mode()) && b.is_off(b.mode()) => {
            mem::replace(&mut retired.mispredicted, is_mispredicted) != is_mispredicted
        }
        _ => false,
    }
}

#[cfg(test)]
mod tests {
    use super::*;

    #[test]
    fn no_pair_is_unequal() {
        let text = pairs();
        assert!(!text.contains("differed 0\n"));
        assert!(text.contains("\n  answers unequal 0\n"));
        assert!(text.contains("\n  end states unequal 0\n"));
    }
}
