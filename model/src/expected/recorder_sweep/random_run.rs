//! Long lists of random events, each list from a random state.

use super::counts::Counts;
use super::depths::Depths;
use super::edges::{Edges, RASEMU, TRETINH};
use super::mispredictions::Mispredictions;
use super::switch::Switched;
use super::{with_answer, with_state};
use crate::access::Answer;
use crate::expected::random::Random;
use crate::recorder::{Event, Machine};
use crate::registers::Registers;

const LISTS: u64 = 1000;

/// How many events a list has.
const EVENTS: u32 = 400;

/// How many it has from a bad state, where all events have the same answer.
const EVENTS_IF_BAD: u32 = 40;

/// How many events met FROZEN, how often each number was answered and each value, the edges, the depths,
/// the counts, the flags and the switched words that were met, and digests of answers and of the states after them.
#[derive(Default)]
struct Tally {
    bad_starts: u32,
    events: u32,
    frozen: u32,
    numbers: [u32; 6],
    values: [u32; 5],
    edges: Edges,
    depths: Depths,
    counts: Counts,
    mispredictions: Mispredictions,
    switched: Switched,
    answers: u64,
    states: u64,
}

impl Tally {
    fn add(&mut self, event: Event, answer: Answer, after: &Machine) {
        self.events += 1;
        self.numbers[usize::from(answer.number)] += 1;
        if answer.number == 0 && event.is_transfer() {
            self.values[answer.value as usize] += 1;
        }
        self.answers = with_answer(self.answers, answer);
        self.states = with_state(self.states, after);
    }

    fn lines(&self) -> String {
        let mut text = format!("  bad starts {}\n", self.bad_starts);
        text += &format!("  events {}\n", self.events);
        text += &format!("  frozen {}\n", self.frozen);
        for (number, count) in self.numbers.iter().enumerate() {
            text += &format!("  number {number} {count}\n");
        }
        for (value, count) in self.values.iter().enumerate() {
            text += &format!("  value {value} {count}\n");
        }
        text += &self.edges.lines();
        text += &self.depths.lines();
        text += &self.counts.lines();
        text += &self.mispredictions.lines();
        text += &self.switched.lines();
        text += &format!("  answers 0x{:016x}\n", self.answers);
        text + &format!("  states 0x{:016x}\n", self.states)
    }
}

pub(super) fn random_run() -> String {
    format!("random run\n  lists {LISTS}\n{}", run().lines())
}

fn run() -> Tally {
    let mut random = Random::from_seed();
    let mut tally = Tally::default();
    for list in 0..LISTS {
        add_list(&mut tally, &mut random, list);
    }
    tally
}

fn add_list(tally: &mut Tally, random: &mut Random, list: u64) {
    let mut machine = random.machine();
    set_bits(&mut machine.registers, list);
    let is_bad = machine.registers.is_bad();
    tally.bad_starts += u32::from(is_bad);
    let mut deepest = 0;
    for _ in 0..if is_bad { EVENTS_IF_BAD } else { EVENTS } {
        let event = random.event(machine.registers.mode);
        tally.frozen += u32::from(machine.registers.frozen);
        let before = machine.clone();
        let answer = machine.step(event);
        tally.edges.add(&before.registers, machine.registers.mode);
        if !is_bad {
            let value = (answer.number == 0 && event.is_transfer()).then_some(answer.value);
            let registers = &before.registers;
            deepest = deepest.max(registers.depth());
            tally.depths.add(registers, &machine, value, deepest);
            if answer.number == 0 {
                tally.counts.add(event, registers, &machine, value);
                tally.mispredictions.add(event, &before, answer.value);
                tally.switched.add(event, &before, answer.value);
            }
        }
        tally.add(event, answer, &machine);
    }
}

/// The first lists set each single bit of the two control words in turn, stray or not; the next have RASEMU and TRETINH
/// different in the two, each way in turn.
fn set_bits(registers: &mut Registers, list: u64) {
    match list {
        0..=63 => registers.mctrctl |= 1 << list,
        64..=127 => registers.vsctrctl |= 1 << (list - 64),
        128..=383 => {
            let both = RASEMU | TRETINH;
            let bits = list % 2 * RASEMU | list / 2 % 2 * TRETINH;
            registers.mctrctl = registers.mctrctl & !both | bits;
            registers.vsctrctl = registers.vsctrctl & !both | (both ^ bits);
        }
        _ => {}
    }
}

#[cfg(test)]
mod tests {
    use super::*;

    #[test]
    fn nothing_is_counted_0_times() {
        let tally = run();
        assert!(tally.bad_starts > 0 && tally.frozen > 0);
        let mut counts = tally.numbers.iter().chain(&tally.values);
        assert!(counts.all(|count| *count > 0), "{}", tally.lines());
        let mut cells = tally.edges.0.iter().flatten();
        assert!(cells.all(|count| *count > 0), "{}", tally.lines());
        let Depths {
            changes,
            upper,
            wraps_up,
            wraps_down,
            back,
        } = &tally.depths;
        let others = [upper, wraps_up, wraps_down, back];
        let mut depths = changes.iter().flatten().chain(others);
        assert!(depths.all(|count| *count > 0), "{}", tally.lines());
        assert!(!tally.counts.has_none(), "{}", tally.lines());
        assert!(!tally.mispredictions.has_none(), "{}", tally.lines());
        assert!(!tally.switched.has_none(), "{}", tally.lines());
    }
}
