//! The traces that are timed: the sample traces behind setups, whole or in pieces among random
//! events.

use std::fs;
use std::io;
use std::path::Path;

use model::access::{Access, Operation};
use model::digest::{xorshift64, SEED};
use model::expected::random_events;
use model::recorder::{Event, Machine, Trap, TrapReturn};
use model::registers::csr::SCTRSTATUS;
use model::registers::Mode;
use model::replay::{bytes_of, decode, encode, row_of};

/// How many events a piece of the mixed trace has, its setup apart.
const PIECE: usize = 2000;

/// A sample trace: its events with the mode that each comes in, and the setups that suit it.
struct Sample {
    events: Vec<(Mode, Event)>,
    setups: Vec<Vec<Event>>,
}

impl Sample {
    fn read(folder: &Path, name: &str, setups: &[&str]) -> io::Result<Sample> {
        let read = |name| read_events(&folder.join(name));
        let mut machine = Machine::reset(false);
        let with_mode = |event| {
            let mode = machine.registers.mode;
            machine.step(event);
            (mode, event)
        };
        Ok(Sample {
            events: read(name)?.into_iter().map(with_mode).collect(),
            setups: setups
                .iter()
                .map(|name| read(name))
                .collect::<Result<_, _>>()?,
        })
    }

    /// A piece that starts anywhere, behind one of the setups.
    fn piece(&self, random: &mut Random) -> Vec<Event> {
        let setup = random.one_of(&self.setups);
        let start = random.below(self.events.len());
        let end = self.events.len().min(start + PIECE);
        behind(setup, &self.events[start..end])
    }
}

/// Sample events behind a setup, in the mode that the first was taken in.
fn behind(setup: &[Event], sample: &[(Mode, Event)]) -> Vec<Event> {
    let (mode, _) = sample[0];
    let mut events = vec![enter_m()];
    events.extend(setup);
    events.extend([thaw(), leave_m(mode)]);
    events.extend(sample.iter().map(|(_, event)| event));
    events
}

fn read_events(path: &Path) -> io::Result<Vec<Event>> {
    let bytes =
        fs::read(path).map_err(|error| io::Error::other(format!("{}: {error}", path.display())))?;
    let (rows, _) = bytes.as_chunks();
    let events = rows.iter().map(|row| decode(row_of(row)));
    Ok(events
        .map(|event| event.expect("a well-formed row"))
        .collect())
}

/// The last pseudo-random number that was drawn.
struct Random(u64);

impl Random {
    fn draw(&mut self) -> u64 {
        self.0 = xorshift64(self.0);
        self.0
    }

    fn below(&mut self, bound: usize) -> usize {
        self.draw() as usize % bound
    }

    fn one_of<'a, T>(&mut self, list: &'a [T]) -> &'a T {
        &list[self.below(list.len())]
    }
}

/// Setups are written from M, which a trap reaches from every mode.
fn enter_m() -> Event {
    Event::Trap(Trap {
        target_mode: Mode::M,
        is_interrupt: true,
        cause: 7,
        epc: 0x8000_0000,
        handler: 0x8000_0400,
        cycles: 20,
    })
}

fn leave_m(target_mode: Mode) -> Event {
    Event::TrapReturn(TrapReturn {
        target_mode,
        pc: 0x8000_0480,
        target: 0x8000_0000,
        cycles: 20,
    })
}

/// Random events before it may have frozen the recorder.
fn thaw() -> Event {
    Event::Access(Access {
        operation: Operation::Write,
        csr: SCTRSTATUS,
        operand: 0,
    })
}

fn read_samples(folder: &Path) -> io::Result<[Sample; 2]> {
    Ok([
        Sample::read(
            folder,
            "user.rows",
            &["history.setup", "external.setup", "call-stack.setup"],
        )?,
        Sample::read(folder, "guest.rows", &["guest.setup"])?,
    ])
}

/// As many events, as the bytes of a trace. One of four pieces is random.
pub fn mixed_trace(folder: &Path, count: usize) -> io::Result<Vec<u8>> {
    let samples = read_samples(folder)?;
    let mut random = Random(SEED);
    let mut events = vec![];
    while events.len() < count {
        match random.below(4) {
            0 => events.extend(random_events(random.draw()).take(PIECE)),
            _ => events.extend(random.one_of(&samples).piece(&mut random)),
        }
    }
    Ok(bytes_of(events.into_iter().take(count).map(encode)))
}

/// As many events, as the bytes of a trace: both samples in turn, whole, each behind its next setup.
pub fn sample_trace(folder: &Path, count: usize) -> io::Result<Vec<u8>> {
    let samples = read_samples(folder)?;
    let mut events = vec![];
    for round in 0.. {
        if events.len() >= count {
            break;
        }
        for sample in &samples {
            let setup = &sample.setups[round % sample.setups.len()];
            events.extend(behind(setup, &sample.events));
        }
    }
    Ok(bytes_of(events.into_iter().take(count).map(encode)))
}
