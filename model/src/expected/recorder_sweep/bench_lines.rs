//! The published cases that are runs: the answer to the last event of each.

use crate::access::{Access, Operation};
use crate::recorder::{Event, Machine, Retired, Trap, TrapReturn};
use crate::registers::csr::*;
use crate::registers::Mode::{self, M, S, U, VS, VU};

const JAL: Event = Event::Retired(Retired {
    word: 0x0000_00ef,
    pc: 0x1000,
    target: 0x2000,
    taken: false,
    mispredicted: false,
    cycles: 0,
});

const RETURN: Event = Event::Retired(Retired {
    word: 0x0000_8067,
    pc: 0x3000,
    target: 0x1004,
    taken: false,
    mispredicted: false,
    cycles: 0,
});

fn read(csr: u64) -> Event {
    access(Operation::Read, csr, 0)
}

fn write(csr: u64, operand: u64) -> Event {
    access(Operation::Write, csr, operand)
}

fn access(operation: Operation, csr: u64, operand: u64) -> Event {
    Event::Access(Access {
        operation,
        csr,
        operand,
    })
}

fn host(mstateen0_ctr: bool, hstateen0_ctr: bool) -> Event {
    Event::Host {
        mstateen0_ctr,
        hstateen0_ctr,
    }
}

fn return_to(target_mode: Mode) -> Event {
    Event::TrapReturn(TrapReturn {
        target_mode,
        pc: 0x4000,
        target: 0x5000,
        cycles: 0,
    })
}

fn trap_to(target_mode: Mode) -> Event {
    Event::Trap(Trap {
        target_mode,
        is_interrupt: false,
        cause: 8,
        epc: 0x6000,
        handler: 0x7000,
        cycles: 0,
    })
}

/// The lines so far, and the events of the last one that has all its events given.
struct Bench {
    text: String,
    events: Vec<Event>,
}

impl Bench {
    fn line(&mut self, name: &str, events: &[Event]) {
        self.events = events.to_vec();
        self.text += &answered(name, &self.events);
    }

    /// A line whose events come after those of the last `line`, from reset again.
    fn line_after(&mut self, name: &str, events: &[Event]) {
        let all = [&self.events, events].concat();
        self.text += &answered(name, &all);
    }
}

/// Runs events from reset.
fn answered(name: &str, events: &[Event]) -> String {
    let mut machine = Machine::reset(false);
    let answers = events.iter().map(|event| machine.step(*event));
    let answer = answers.last().expect("an event");
    format!(
        "  {name}: number {} value 0x{:016x}\n",
        answer.number, answer.value
    )
}

pub(super) fn bench_lines() -> String {
    let mut bench = Bench {
        text: "bench lines\n".to_string(),
        events: vec![],
    };
    add_enables_and_selections(&mut bench);
    add_controls(&mut bench);
    add_status_and_depth(&mut bench);
    add_traps(&mut bench);
    add_emulated_return(&mut bench);
    add_guests(&mut bench);
    bench.text
}

fn add_enables_and_selections(bench: &mut Bench) {
    bench.line(
        "VS reads sctrdepth with mstateen0.CTR 0",
        &[host(false, true), return_to(VS), read(SCTRDEPTH)],
    );
    bench.line(
        "VS reads sctrdepth with mstateen0.CTR 1",
        &[host(true, true), return_to(VS), read(SCTRDEPTH)],
    );
    for (depth, code, selection) in [
        (128, 3, 0x27F),
        (128, 3, 0x280),
        (128, 3, 0x300),
        (256, 4, 0x2FF),
        (256, 4, 0x300),
    ] {
        bench.line(
            &format!("selection 0x{selection:x} at depth {depth}"),
            &[
                write(SCTRDEPTH, code),
                write(SISELECT, selection),
                write(SIREG, 0xABCD),
                read(SIREG),
            ],
        );
    }
}

fn add_controls(bench: &mut Bench) {
    let write_all_ones = write(MCTRCTL, u64::MAX);
    bench.line("mctrctl after all ones", &[write_all_ones, read(MCTRCTL)]);
    let to_s = [write_all_ones, host(true, false), return_to(S)];
    bench.line("sctrctl read by S", &[&to_s[..], &[read(SCTRCTL)]].concat());
    bench.line(
        "mctrctl after S wrote 0 to sctrctl",
        &[&to_s[..], &[write(SCTRCTL, 0), trap_to(M), read(MCTRCTL)]].concat(),
    );
}

fn add_status_and_depth(bench: &mut Bench) {
    bench.line(
        "sctrstatus after 0x8000001f at depth 16",
        &[write(SCTRSTATUS, 0x8000_001F), read(SCTRSTATUS)],
    );
    bench.line(
        "a record at WRPTR 15",
        &[write(MCTRCTL, 4), write(SCTRSTATUS, 15), JAL],
    );
    bench.line_after("sctrstatus after it", &[read(SCTRSTATUS)]);
    bench.line_after(
        "logical entry 0 after it",
        &[write(SISELECT, 0x200), read(SIREG)],
    );
    bench.line("sctrdepth after 7", &[write(SCTRDEPTH, 7), read(SCTRDEPTH)]);
    bench.line("sctrdepth after 8", &[write(SCTRDEPTH, 8), read(SCTRDEPTH)]);
}

fn add_traps(bench: &mut Bench) {
    bench.line(
        "U to M with MTE",
        &[write(MCTRCTL, 0x201), return_to(U), trap_to(M)],
    );
    bench.line(
        "U to M with MTE and STE",
        &[write(MCTRCTL, 0x301), return_to(U), trap_to(M)],
    );
    for (name, csr) in [
        ("its ctrsource", SIREG),
        ("its ctrtarget", SIREG2),
        ("its ctrdata", SIREG3),
    ] {
        bench.line_after(name, &[write(SISELECT, 0x200), read(csr)]);
    }
    bench.line(
        "S off to M on",
        &[
            write(MCTRCTL, 4),
            return_to(S),
            trap_to(M),
            write(SISELECT, 0x200),
            read(SIREG),
        ],
    );
}

fn add_emulated_return(bench: &mut Bench) {
    bench.line(
        "a return under RASEMU at WRPTR 0",
        &[
            write(MCTRCTL, 4),
            write(SISELECT, 0x200),
            write(SIREG, 0x1235),
            write(MCTRCTL, 0x84),
            RETURN,
        ],
    );
    bench.line_after("entry 15 after it", &[write(SISELECT, 0x20F), read(SIREG)]);
    bench.line_after("sctrstatus after it under RASEMU", &[read(SCTRSTATUS)]);
}

/// Traps out of a guest, where another implementation departs from the ratified text (docs/PEERS.md); returns into one, which
/// go by vsctrctl; and what the state enables close.
fn add_guests(bench: &mut Bench) {
    bench.line(
        "VU to S with EXCINH in mctrctl alone",
        &[
            write(VSCTRCTL, 1),
            write(MCTRCTL, 2 | 1 << 33),
            return_to(VU),
            trap_to(S),
        ],
    );
    bench.line(
        "VS to S with STE and without VSTE",
        &[
            host(true, false),
            write(VSCTRCTL, 2),
            write(MCTRCTL, 1 << 8),
            return_to(VS),
            trap_to(S),
        ],
    );
    bench.line_after(
        "ctrtarget of that trap",
        &[write(SISELECT, 0x200), read(SIREG2)],
    );
    bench.line(
        "S to VS with TRETINH in mctrctl alone",
        &[
            write(VSCTRCTL, 2),
            write(MCTRCTL, 2 | 1 << 35),
            return_to(S),
            return_to(VS),
        ],
    );
    bench.line(
        "S to VS with RASEMU in vsctrctl alone",
        &[
            write(VSCTRCTL, 2 | 1 << 7),
            write(MCTRCTL, 2),
            return_to(S),
            return_to(VS),
        ],
    );
    bench.line(
        "S reads sireg in the window with mstateen0.CTR 0",
        &[write(SISELECT, 0x200), return_to(S), read(SIREG)],
    );
    bench.line(
        "VS reads sireg in the window with hstateen0.CTR 0",
        &[
            host(true, false),
            write(VSISELECT, 0x200),
            return_to(VS),
            read(SIREG),
        ],
    );
    bench.line("VU reads siselect", &[return_to(VU), read(SISELECT)]);
}

#[cfg(test)]
mod tests {
    use super::*;

    /// Number and value of each line: refusals of VS, what is read back, records and the pop.
    const PUBLISHED: [(u8, u64); 33] = [
        (1, 0),
        (2, 0),
        (0, 0xABCD),
        (0, 0),
        (3, 0),
        (0, 0xABCD),
        (3, 0),
        (0, 0x0000_FF3E_0000_1B87),
        (0, 0x0000_FF3E_0000_1983),
        (0, 0x204),
        (0, 0x8000_000F),
        (0, 1),
        (0, 0),
        (0, 0x1001),
        (0, 4),
        (0, 0),
        (0, 0),
        (0, 1),
        (0, 0x6001),
        (0, 0),
        (0, 1),
        (0, 1),
        (0, 2),
        (0, 0x1234),
        (0, 15),
        (0, 1),
        (0, 1),
        (0, 0),
        (0, 1),
        (0, 0),
        (1, 0),
        (2, 0),
        (2, 0),
    ];

    #[test]
    fn the_answers_are_the_published_ones() {
        let text = bench_lines();
        let answers: Vec<&str> = text
            .lines()
            .filter_map(|line| line.split_once(": "))
            .map(|(_, answer)| answer)
            .collect();
        let published =
            PUBLISHED.map(|(number, value)| format!("number {number} value 0x{value:016x}"));
        assert_eq!(answers, published);
    }
}
