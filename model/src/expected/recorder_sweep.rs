//! The expected output of `recorder_sweep`: the published cases, long random lists of events, and
//! pairs of lists that differ only where modes are off.

mod bench_lines;
mod counts;
mod depths;
mod draw;
mod edges;
mod mispredictions;
mod pairs;
mod random_run;
mod random_trace;
mod switch;

use self::bench_lines::bench_lines;
use self::pairs::pairs;
use self::random_run::random_run;
pub use self::random_trace::random_events;
use crate::access::Answer;
use crate::digest::extended;
use crate::recorder::Machine;
use crate::registers::Entry;

/// What `recorder_sweep` prints.
pub fn recorder_sweep() -> String {
    bench_lines() + &random_run() + &pairs()
}

/// The digest of a list that goes on with an answer.
pub(super) fn with_answer(h: u64, answer: Answer) -> u64 {
    extended(h, [answer.number.into(), answer.value])
}

/// The digest of a list that goes on with every field and every entry of a state.
pub(super) fn with_state(h: u64, machine: &Machine) -> u64 {
    let h = extended(h, machine.registers.fields());
    extended(h, machine.entries.iter().flat_map(Entry::words))
}

/// A name with counts.
type Counted<'a> = (&'static str, &'a [u32]);

/// A line for each name with its counts behind it, under a title.
fn rows_under(title: &str, rows: &[Counted]) -> String {
    let mut text = title.to_string();
    for (name, counts) in rows {
        text += name;
        for count in *counts {
            text += &format!(" {count}");
        }
        text += "\n";
    }
    text
}

#[cfg(test)]
fn any_is_0(rows: &[Counted]) -> bool {
    rows.iter().any(|(_, counts)| counts.contains(&0))
}
