//! What is printed of a trace after its answers.

use super::cycles::valid_count;
use super::recorder::{Entry, Recorder, MISP, V};
use super::run::Run;
use model::replay::{NUMBERS, TYPES, VALUES};

/// The TYPE field of ctrdata.
const TYPE: u64 = 0xF;

impl Run {
    pub fn report(&self) -> String {
        let mut numbers = self.refusals;
        numbers[0] = self.values.iter().sum::<u64>() + self.others;
        let mut text = format!("events {}\n", numbers.iter().sum::<u64>());
        text += &counts(&NUMBERS, &numbers);
        text += &counts(&VALUES, &self.values);
        text += &registers(&self.recorder);
        text += &valid_entries(&self.recorder);
        text
    }
}

/// The words of what occurred, each with how often it did.
fn counts(words: &[&str], counts: &[u64]) -> String {
    words
        .iter()
        .zip(counts)
        .filter(|(_, count)| **count > 0)
        .map(|(words, count)| format!("{words}: {count}\n"))
        .collect()
}

fn registers(recorder: &Recorder) -> String {
    let readings = [
        ("mctrctl", recorder.mctrctl),
        ("vsctrctl", recorder.vsctrctl),
        ("sctrdepth", recorder.depth_code()),
        ("sctrstatus", recorder.status()),
        ("siselect", recorder.siselect),
        ("vsiselect", recorder.vsiselect),
        ("mstateen0.CTR", recorder.mstateen0_ctr.into()),
        ("hstateen0.CTR", recorder.hstateen0_ctr.into()),
        ("cycles", recorder.counter),
        ("ccv", recorder.ccv.into()),
        ("zc", recorder.zc.into()),
    ];
    let lines = readings.map(|(name, reading)| format!("{name} {reading:#x}\n"));
    format!("mode {:?}\n", recorder.mode) + &lines.concat()
}

/// The valid ones of the entries in use, in logical order.
fn valid_entries(recorder: &Recorder) -> String {
    (0..=recorder.last)
        .map(|index| (index, recorder.entries[recorder.physical(index)]))
        .filter(|(_, entry)| entry.source & V == V)
        .map(|(index, entry)| transfer(index, entry))
        .collect()
}

/// The count of cycles is shown only if it is valid.
fn transfer(index: usize, entry: Entry) -> String {
    let (source, target) = (entry.source & !V, entry.target & !MISP);
    let name = TYPES[(entry.data & TYPE) as usize];
    let count = valid_count(entry.data).map_or(String::new(), |n| format!(" cycles {n}"));
    let flag = if entry.target & MISP == MISP {
        " mispredicted"
    } else {
        ""
    };
    format!("{index} {source:#x} -> {target:#x} {name}{count}{flag}\n")
}
