//! The setups of the sample traces, the image of the user program, and what `replay` is fed with: the
//! samples behind their setups, a trace with every kind of row, and a damaged trace. Parts of the
//! samples, likewise behind setups, are what `replay_sweep` is fed with; the image and a dump of the
//! user program's history are what `check_dump` is.

use std::{io, iter};

use crate::access::{Access, Operation};
use crate::check_dump::check_dump;
use crate::classifier::length;
use crate::printed::Printed;
use crate::recorder::{Event, Retired, Trap, TrapReturn};
use crate::registers::csr::{MCTRCTL, SCTRCTL, SCTRDEPTH, SISELECT, VSCTRCTL, VSISELECT};
use crate::registers::Mode;
use crate::replay::{bytes_of, decode, encode, replay, row_of, Row, ROW_BYTES};

const USER: &[u8] = include_bytes!("../../../examples/traces/user.rows");
const GUEST: &[u8] = include_bytes!("../../../examples/traces/guest.rows");

/// Register numbers, and what M writes there.
type Setup = &'static [(u64, u64)];

/// 16 entries; U on.
const HISTORY: Setup = &[(SCTRDEPTH, 0), (MCTRCTL, 0x1)];

/// 16 entries; U on, STE and MTE.
const EXTERNAL: Setup = &[(SCTRDEPTH, 0), (MCTRCTL, 0x301)];

/// 16 entries; U on, RASEMU.
const CALL_STACK: Setup = &[(SCTRDEPTH, 0), (MCTRCTL, 0x81)];

/// 256 entries; all five modes on.
const ALL_MODES: Setup = &[(SCTRDEPTH, 4), (MCTRCTL, 0x7), (VSCTRCTL, 0x3)];

/// 128 entries; the same modes, and branches that are not taken.
const ALL_BRANCHES: Setup = &[
    (SCTRDEPTH, 3),
    (MCTRCTL, 0x10_0000_0007),
    (VSCTRCTL, 0x10_0000_0003),
];

/// The row of the user sample where M returns to the user program, which is soon interrupted.
const RETURN_TO_USER: usize = 2189;

/// Where the user program of the user sample lies.
const USER_BASE: u64 = 0x8040_0000;

/// The entry of the history whose target is changed in the dump, a direct call.
const CHANGED: usize = 10;

const CHECK_ARGUMENTS: [&str; 3] = ["user.image", "0x80400000", "changed.dump"];

/// One more CSR number than there is.
const NO_CSR: u64 = 4096;

/// How many rows come before the malformed one, and how many after it.
const ROWS_BEFORE: usize = 100;
const ROWS_AFTER: usize = 3;

/// How many bytes come after the last row.
const LOOSE_BYTES: usize = 5;

const ARGUMENTS: [&str; 6] = [
    "--answers",
    "--state",
    "user.rows",
    "guest.rows",
    "kinds.rows",
    "damaged.rows",
];

/// The setups and the image: path from the repository's root, and contents.
pub(super) fn setup_files() -> Vec<(&'static str, Vec<u8>)> {
    vec![
        ("examples/traces/history.setup", setup(HISTORY)),
        ("examples/traces/external.setup", setup(EXTERNAL)),
        ("examples/traces/call-stack.setup", setup(CALL_STACK)),
        ("examples/traces/guest.setup", setup(ALL_MODES)),
        ("examples/traces/user.image", user_image()),
    ]
}

/// The files of `replay`, likewise.
pub(super) fn replay_files() -> Vec<(&'static str, Vec<u8>)> {
    vec![
        ("crates/replay/data/user.rows", user()),
        ("crates/replay/data/guest.rows", guest()),
        ("crates/replay/data/kinds.rows", kinds()),
        ("crates/replay/data/damaged.rows", damaged()),
        (
            "crates/replay/args",
            ARGUMENTS.map(line).concat().into_bytes(),
        ),
        ("crates/replay/stdout", printed().stdout),
    ]
}

/// The files of `check_dump`, likewise.
pub(super) fn check_dump_files() -> Vec<(&'static str, Vec<u8>)> {
    let (image, dump) = (user_image(), changed_dump());
    let open = |name: &str| match name {
        "user.image" => Ok(&image[..]),
        "changed.dump" => Ok(&dump[..]),
        _ => Err(io::ErrorKind::NotFound.into()),
    };
    let printed = check_dump(&CHECK_ARGUMENTS.map(String::from), open);
    vec![
        ("crates/check_dump/data/user.image", image.clone()),
        ("crates/check_dump/data/changed.dump", dump.clone()),
        (
            "crates/check_dump/args",
            CHECK_ARGUMENTS.map(line).concat().into_bytes(),
        ),
        ("crates/check_dump/stdout", printed.stdout),
    ]
}

/// The words of the user program that the sample has, where they lie, with zeros between them.
fn user_image() -> Vec<u8> {
    let mut image = vec![];
    for row in rows(USER) {
        let Ok(Event::Retired(Retired { word, pc, .. })) = decode(row) else {
            continue;
        };
        let Some(place) = pc.checked_sub(USER_BASE) else {
            continue;
        };
        let start = place as usize;
        let end = start + usize::from(length(word));
        image.resize(image.len().max(end), 0);
        image[start..end].copy_from_slice(&word.to_le_bytes()[..end - start]);
    }
    image
}

/// A dump of the user program's history, with one target two bytes further on.
fn changed_dump() -> Vec<u8> {
    let trace = [&setup(HISTORY), USER].concat();
    let arguments = ["--dump", "trace"].map(String::from);
    let mut dump = replay(&arguments, |_| Ok(&trace[..])).stdout;
    dump[CHANGED * 24 + 8] += 2;
    dump
}

fn line(word: &str) -> String {
    format!("{word}\n")
}

fn setup(writes: Setup) -> Vec<u8> {
    bytes_of(setup_rows(writes))
}

fn setup_rows(writes: Setup) -> impl Iterator<Item = Row> {
    writes
        .iter()
        .map(|(csr, operand)| access(Operation::Write, *csr, *operand))
}

fn access(operation: Operation, csr: u64, operand: u64) -> Row {
    encode(Event::Access(Access {
        operation,
        csr,
        operand,
    }))
}

fn user() -> Vec<u8> {
    [&setup(EXTERNAL), USER].concat()
}

fn guest() -> Vec<u8> {
    [&setup(ALL_MODES), GUEST].concat()
}

/// A part of the user sample, for a run from reset.
pub(super) fn user_rows() -> impl Iterator<Item = Row> {
    setup_rows(EXTERNAL).chain(rows(USER).skip(RETURN_TO_USER))
}

/// The guest sample, for a run from any good state: a trap leads to M first.
pub(super) fn guest_rows() -> impl Iterator<Item = Row> {
    iter::once(trap(Mode::M, true, 0xD000))
        .chain(setup_rows(ALL_BRANCHES))
        .chain(rows(GUEST))
}

fn rows(sample: &[u8]) -> impl Iterator<Item = Row> + '_ {
    let (rows, _) = sample.as_chunks();
    rows.iter().map(row_of)
}

/// Every operation, every setting of the host's, every mode as the target of a return and of both
/// kinds of trap, a branch taken and not, mispredicted and not, and SCTRCLR: each so that the answers or
/// the history tell it from the others.
fn kinds() -> Vec<u8> {
    let mut rows = vec![
        access(Operation::Write, SISELECT, 0x20F),
        access(Operation::Set, SISELECT, 0x0F0),
        access(Operation::Clear, SISELECT, 0x00C),
        access(Operation::Read, SISELECT, 0),
        retired(true, false, 0x9000),
        encode(Event::Sctrclr),
        retired(true, true, 0x9100),
    ];
    for (mstateen0_ctr, hstateen0_ctr) in
        [(false, false), (false, true), (true, false), (true, true)]
    {
        rows.extend([
            encode(Event::Host {
                mstateen0_ctr,
                hstateen0_ctr,
            }),
            trap_return(Mode::S, 0xA000),
            access(Operation::Read, SCTRCTL, 0),
            trap_return(Mode::VS, 0xA100),
            access(Operation::Read, SCTRCTL, 0),
            trap(Mode::M, false, 0xA200),
        ]);
    }
    // What may be read tells the mode.
    let reads = [SISELECT, VSISELECT, MCTRCTL].map(|csr| access(Operation::Read, csr, 0));
    for mode in Mode::ALL {
        rows.push(trap_return(mode, 0xB000));
        rows.extend(reads);
        rows.push(trap(Mode::M, true, 0xB100));
        for (is_interrupt, pc) in [(false, 0xB200), (true, 0xB300)] {
            rows.extend([
                trap_return(Mode::VU, pc),
                trap(mode, is_interrupt, pc + 0x40),
            ]);
            rows.extend(reads);
            rows.push(trap(Mode::M, true, pc + 0x80));
        }
    }
    rows.extend([
        retired(false, false, 0xC000),
        retired(true, false, 0xC100),
        retired(false, true, 0xC200),
        retired(true, true, 0xC300),
    ]);
    [setup(ALL_BRANCHES), bytes_of(rows)].concat()
}

fn retired(taken: bool, mispredicted: bool, pc: u64) -> Row {
    encode(Event::Retired(Retired {
        word: 0x0000_0063,
        pc,
        target: pc + 8,
        taken,
        mispredicted,
        cycles: 5,
    }))
}

fn trap(target_mode: Mode, is_interrupt: bool, epc: u64) -> Row {
    encode(Event::Trap(Trap {
        target_mode,
        is_interrupt,
        cause: 2,
        epc,
        handler: epc + 0x10,
        cycles: 40,
    }))
}

fn trap_return(target_mode: Mode, pc: u64) -> Row {
    encode(Event::TrapReturn(TrapReturn {
        target_mode,
        pc,
        target: pc + 0x20,
        cycles: 4100,
    }))
}

/// A row that is malformed, and after it rows and loose bytes that are not looked at any more.
fn damaged() -> Vec<u8> {
    let (before, after) = GUEST.split_at(ROWS_BEFORE * ROW_BYTES);
    let malformed = bytes_of([access(Operation::Read, NO_CSR, 0)]);
    let after = &after[..ROWS_AFTER * ROW_BYTES + LOOSE_BYTES];
    [&setup(ALL_MODES), before, &malformed, after].concat()
}

/// What `replay` prints, run where its traces are.
fn printed() -> Printed {
    let traces = [user(), guest(), kinds(), damaged()];
    let open = |name: &str| match name {
        "user.rows" => Ok(&traces[0][..]),
        "guest.rows" => Ok(&traces[1][..]),
        "kinds.rows" => Ok(&traces[2][..]),
        "damaged.rows" => Ok(&traces[3][..]),
        _ => Err(io::ErrorKind::NotFound.into()),
    };
    replay(&ARGUMENTS.map(String::from), open)
}

#[cfg(test)]
mod tests {
    use super::*;
    use std::collections::BTreeSet;

    fn report_of(setup_writes: Setup, trace: &[u8]) -> String {
        let bytes = [&setup(setup_writes), trace].concat();
        let printed = replay(&["trace".to_string()], |_| Ok(&bytes[..]));
        assert_eq!(printed.stderr, "");
        printed.text()
    }

    /// The valid entries, newest first, without their indices.
    fn entries(report: &str) -> Vec<&str> {
        let lines = report.lines().filter(|line| line.contains(" -> "));
        lines
            .filter_map(|line| line.split_once(' '))
            .map(|(_, entry)| entry)
            .collect()
    }

    #[test]
    fn setups_are_granted_and_leave_what_they_write() {
        for writes in [HISTORY, EXTERNAL, CALL_STACK, ALL_MODES] {
            let report = report_of(writes, &[]);
            let count = writes.len();
            assert!(report.starts_with(&format!("events {count}\nanswered: {count}\nmode M\n")));
            for (csr, value) in writes {
                let name = match *csr {
                    SCTRDEPTH => "sctrdepth",
                    VSCTRCTL => "vsctrctl",
                    _ => "mctrctl",
                };
                assert!(
                    report.contains(&format!("\n{name} {value:#x}\n")),
                    "{report}"
                );
            }
        }
    }

    /// The user program leaves by six traps.
    #[test]
    fn external_traps_are_recorded_beside_the_history() {
        assert!(report_of(HISTORY, USER).contains("\nrecorded: 2497\n"));
        assert!(report_of(EXTERNAL, USER).contains("\nrecorded: 2503\n"));
    }

    #[test]
    fn open_calls_are_left() {
        let report = report_of(CALL_STACK, USER);
        assert_eq!(
            entries(&report),
            [
                "0x80400182 -> 0x80400a76 direct call",
                "0x8040003c -> 0x8040015c direct call"
            ]
        );
    }

    /// Where an event is, where execution goes on after it, and its cycles.
    fn passage(event: Event) -> (u64, u64, u32) {
        match event {
            Event::Retired(retired) => (retired.pc, retired.target, retired.cycles),
            Event::Trap(trap) => (trap.epc, trap.handler, trap.cycles),
            Event::TrapReturn(trap_return) => {
                (trap_return.pc, trap_return.target, trap_return.cycles)
            }
            _ => panic!("the samples have no {event:?}"),
        }
    }

    /// The rule of examples/traces/README.md: 3 cycles for an event, and one more for each whole
    /// four bytes of code from where execution went on after the event before.
    #[test]
    fn cycles_of_the_samples_follow_from_addresses() {
        for sample in [USER, GUEST] {
            let mut start = None;
            for (index, row) in rows(sample).enumerate() {
                let (pc, next, cycles) = passage(decode(row).expect("a well-formed row"));
                let bytes = pc - start.unwrap_or(pc);
                assert_eq!(u64::from(cycles), 3 + bytes / 4, "row {index}");
                start = Some(next);
            }
        }
    }

    /// All 16 entries have one, and it is never 0.
    #[test]
    fn counts_are_shown_with_the_history() {
        let report = report_of(HISTORY, USER);
        let counts: Vec<u64> = entries(&report)
            .iter()
            .filter_map(|entry| entry.split_once(" cycles "))
            .filter_map(|(_, count)| count.parse().ok())
            .collect();
        assert_eq!(counts.len(), 16, "{report}");
        assert!(counts.iter().all(|count| *count > 0), "{report}");
    }

    /// Settings of word 0 that no answer tells from each other: traps to U and to VU, which answer 4
    /// in every mode, and hstateen0.CTR while mstateen0.CTR is 0.
    const ALIKE: [&[u16]; 2] = [&[0x001, 0x301, 0x801, 0xB01], &[0x005, 0x205]];

    /// Each row stands for something else: with any two settings of word 0 exchanged, the report
    /// differs, unless they are alike.
    #[test]
    fn kinds_tell_codes_from_each_other() {
        let report = |bytes: &[u8]| {
            let arguments = ["--answers", "--state", "trace"].map(String::from);
            replay(&arguments, |_| Ok(bytes)).stdout
        };
        let bytes = kinds();
        let rows = || bytes.chunks_exact(ROW_BYTES);
        let heads: BTreeSet<u16> = rows().map(head).collect();
        for first in &heads {
            for second in heads.range(first + 1..) {
                let exchanged: Vec<u8> = rows()
                    .flat_map(|row| {
                        let mut row = row.to_vec();
                        let head = match head(&row) {
                            head if head == *first => *second,
                            head if head == *second => *first,
                            head => head,
                        };
                        row[..2].copy_from_slice(&head.to_le_bytes());
                        row
                    })
                    .collect();
                let is_told = report(&exchanged) != report(&bytes);
                let are_alike = ALIKE
                    .iter()
                    .any(|alike| alike.contains(first) && alike.contains(second));
                assert_eq!(is_told, !are_alike, "{first:#x} and {second:#x}");
            }
        }
        assert_eq!(heads.len(), 4 + 10 + 5 + 4 + 1 + 4);
    }

    fn head(row: &[u8]) -> u16 {
        u16::from_le_bytes([row[0], row[1]])
    }

    /// Once the target is put back, the dump fits.
    #[test]
    fn the_changed_dump_has_one_target_wrong() {
        let image = user_image();
        let mut dump = changed_dump();
        let line = |dump: &[u8]| {
            let open = |name: &str| Ok(if name == "user.image" { &image } else { dump });
            check_dump(&CHECK_ARGUMENTS.map(String::from), open).text()
        };
        let expected = "entry 10: target wrong: 0x80400182 -> 0x80400a78 direct call\n";
        assert_eq!(line(&dump), expected);
        dump[CHANGED * 24 + 8] -= 2;
        assert_eq!(line(&dump), "accepted\n");
    }

    #[test]
    fn the_damaged_trace_alone_is_complained_of() {
        let stderr = printed().stderr;
        assert_eq!(
            stderr,
            "replay: damaged.rows: row 103: word 1 breaks a rule\n"
        );
    }
}
