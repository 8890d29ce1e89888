//! The expected output of `step_bench`: a round of calls in each of three forms, which have to end alike.

use super::recorder_sweep::{with_answer, with_state};
use crate::access::{Access, Operation};
use crate::recorder::{Event, Machine, Retired};
use crate::registers::csr::{MCTRCTL, SCTRDEPTH};

/// How many calls a round has.
const CALLS: u64 = 100_000;

/// Depth 256, and M is on.
const SETUP: [(u64, u64); 2] = [(SCTRDEPTH, 4), (MCTRCTL, 4)];

/// What `step_bench` is fed with: a round of each form.
pub fn step_bench_input() -> Vec<u8> {
    b"vpk".to_vec()
}

/// What it prints.
pub fn step_bench() -> String {
    let digest = round();
    ["by value", "in place", "by kind"]
        .map(|form| format!("{form} 0x{digest:016x}\n"))
        .concat()
}

/// The digest of the answers to all calls and of the state after them.
fn round() -> u64 {
    let mut machine = Machine::reset(false);
    for (csr, operand) in SETUP {
        machine.step(Event::Access(Access {
            operation: Operation::Write,
            csr,
            operand,
        }));
    }
    let answers = (0..CALLS).fold(0, |h, i| with_answer(h, machine.step(call(i))));
    with_state(answers, &machine)
}

fn call(i: u64) -> Event {
    Event::Retired(Retired {
        word: 0x0000_00ef,
        pc: 4 * i,
        target: 8 * i,
        taken: false,
        mispredicted: false,
        cycles: 0,
    })
}
