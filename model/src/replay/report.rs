//! What is printed of a trace after its answers.

use crate::access::{Answer, GRANTED};
use crate::cycles::valid_count;
use crate::recorder::{Event, Machine};
use crate::registers::{Entry, Register, Registers};

/// What the numbers of answers mean. A selection outside the window has the words of an unlisted
/// CSR number.
pub const NUMBERS: [&str; 6] = [
    "answered",
    "illegal instruction",
    "virtual instruction",
    "no such register",
    "mode change not possible",
    "bad state",
];

/// What the values of retired words, traps and trap returns mean.
pub const VALUES: [&str; 5] = [
    "nothing",
    "recorded",
    "return popped",
    "swapped in place",
    "frozen by this trap",
];

/// What the types of transfers are called.
pub const TYPES: [&str; 16] = [
    "none",
    "exception",
    "interrupt",
    "trap return",
    "branch not taken",
    "branch taken",
    "reserved",
    "reserved",
    "indirect call",
    "direct call",
    "indirect jump",
    "direct jump",
    "co-routine swap",
    "function return",
    "other indirect jump",
    "other direct jump",
];

/// The recorder after some events from reset, and how often each answer was given.
#[derive(Debug)]
pub struct Run {
    machine: Machine,
    events: u64,
    numbers: [u64; NUMBERS.len()],
    values: [u64; VALUES.len()],
}

impl Run {
    /// No event yet, after a reset with `zc` as given.
    pub fn from_reset(zc: bool) -> Run {
        Run {
            machine: Machine::reset(zc),
            events: 0,
            numbers: [0; NUMBERS.len()],
            values: [0; VALUES.len()],
        }
    }

    #[inline]
    pub fn step(&mut self, event: Event) -> Answer {
        let answer = self.machine.step(event);
        self.events += 1;
        self.numbers[usize::from(answer.number)] += 1;
        if answer.number == GRANTED && event.is_transfer() {
            self.values[answer.value as usize] += 1;
        }
        answer
    }

    /// The lines below the answers; with `all_entries` also those of physical entries.
    pub fn report(&self, all_entries: bool) -> String {
        let mut text = format!("events {}\n", self.events);
        text += &counts(&NUMBERS, &self.numbers);
        text += &counts(&VALUES, &self.values);
        text += &registers(&self.machine.registers);
        text += &valid_entries(&self.machine);
        if all_entries {
            text += &physical_entries(&self.machine.entries);
        }
        text
    }

    /// The words of the entries in use, valid or not, in logical order: the bytes that a dump has.
    pub fn dump(&self) -> Vec<u8> {
        entries_in_use(&self.machine)
            .flat_map(|entry| entry.words())
            .flat_map(u64::to_le_bytes)
            .collect()
    }
}

/// The words of what occurred, each with how often it did.
fn counts(words: &[&str], counts: &[u64]) -> String {
    words
        .iter()
        .zip(counts)
        .filter(|(_, count)| **count > 0)
        .map(|(words, count)| format!("{words}: {count}\n"))
        .collect()
}

fn registers(registers: &Registers) -> String {
    let status = registers.reading(&Entry::default(), Register::Sctrstatus);
    let readings = [
        ("mctrctl", registers.mctrctl),
        ("vsctrctl", registers.vsctrctl),
        ("sctrdepth", registers.depth_code),
        ("sctrstatus", status),
        ("siselect", registers.siselect),
        ("vsiselect", registers.vsiselect),
        ("mstateen0.CTR", registers.mstateen0_ctr.into()),
        ("hstateen0.CTR", registers.hstateen0_ctr.into()),
        ("cycles", registers.cycles),
        ("ccv", registers.ccv.into()),
        ("zc", registers.zc.into()),
    ];
    let lines = readings.map(|(name, reading)| format!("{name} {reading:#x}\n"));
    format!("mode {:?}\n", registers.mode) + &lines.concat()
}

/// Logical entries from 0 up to the depth.
fn entries_in_use(machine: &Machine) -> impl Iterator<Item = Entry> + '_ {
    let registers = &machine.registers;
    (0..registers.depth()).map(|index| machine.entries[registers.physical_entry(index) as usize])
}

/// The valid ones of the entries in use, in logical order.
fn valid_entries(machine: &Machine) -> String {
    (0..)
        .zip(entries_in_use(machine))
        .filter(|(_, entry)| entry.is_valid())
        .map(|(index, entry)| transfer(index, entry))
        .collect()
}

/// The count of cycles is shown only if it is valid. Of MISP there is a word if it is 1.
fn transfer(index: u64, entry: Entry) -> String {
    let path = path_and_type(entry);
    let count = valid_count(entry.ctrdata).map_or(String::new(), |n| format!(" cycles {n}"));
    let misp = if entry.is_mispredicted() {
        " mispredicted"
    } else {
        ""
    };
    format!("{index} {path}{count}{misp}\n")
}

/// Where a transfer comes from, where it goes to, and what it is.
pub(crate) fn path_and_type(entry: Entry) -> String {
    let (source, target) = (entry.source(), entry.target());
    let name = TYPES[usize::from(entry.transfer_type())];
    format!("{source:#x} -> {target:#x} {name}")
}

fn physical_entries(entries: &[Entry]) -> String {
    entries
        .iter()
        .enumerate()
        .map(|(index, entry)| {
            let [source, target, data] = entry.words();
            format!("{index} {source:#x} {target:#x} {data:#x}\n")
        })
        .collect()
}

#[cfg(test)]
mod tests {
    use super::*;
    use crate::access::{Access, Operation};
    use crate::recorder::{Retired, Trap};
    use crate::registers::Mode;

    const CALL: Event = Event::Retired(Retired {
        word: 0x0000_00ef,
        pc: 0x1000,
        target: 0x2000,
        taken: false,
        mispredicted: false,
        cycles: 0x1234,
    });

    fn write(csr: u64, operand: u64) -> Event {
        Event::Access(Access {
            operation: Operation::Write,
            csr,
            operand,
        })
    }

    fn trap_to(target_mode: Mode) -> Event {
        Event::Trap(Trap {
            target_mode,
            is_interrupt: false,
            cause: 9,
            epc: 0,
            handler: 0,
            cycles: 1,
        })
    }

    fn report_of(events: &[Event]) -> String {
        report_from(Run::from_reset(false), events)
    }

    fn report_from(mut run: Run, events: &[Event]) -> String {
        for event in events {
            run.step(*event);
        }
        run.report(false)
    }

    const RESET: &str = "\
mode M
mctrctl 0x0
vsctrctl 0x0
sctrdepth 0x0
sctrstatus 0x0
siselect 0x0
vsiselect 0x0
mstateen0.CTR 0x0
hstateen0.CTR 0x0
cycles 0x0
ccv 0x0
zc 0x0
";

    #[test]
    fn without_events_there_is_the_reset() {
        assert_eq!(report_of(&[]), format!("events 0\n{RESET}"));
    }

    /// CM.JALT 32 with the switch on and off.
    #[test]
    fn words_go_by_the_switch_of_the_reset() {
        let table_jump = Event::Retired(Retired {
            word: 0xA082,
            pc: 0x1000,
            target: 0x2000,
            taken: false,
            mispredicted: false,
            cycles: 3,
        });
        let events = [write(0x34E, 4), table_jump];
        let report = report_from(Run::from_reset(true), &events);
        let expected = "\
hstateen0.CTR 0x0
cycles 0x0
ccv 0x1
zc 0x1
0 0x1000 -> 0x2000 direct call
";
        assert!(report.ends_with(expected), "{report}");
        let report = report_from(Run::from_reset(false), &events);
        let expected = "\nhstateen0.CTR 0x0\ncycles 0x3\nccv 0x0\nzc 0x0\n";
        assert!(report.ends_with(expected), "{report}");
    }

    #[test]
    fn numbers_and_values_that_occurred_are_counted() {
        let events = [CALL, write(0x999, 0), trap_to(Mode::S), CALL];
        let counts = "answered: 2\nno such register: 1\nmode change not possible: 1\nnothing: 2\n";
        assert_eq!(report_of(&events), format!("events 4\n{counts}{RESET}"));
    }

    /// The write answers the old reading 4, and refusals the value 0.
    #[test]
    fn only_values_of_answered_transfers_are_counted() {
        let events = [write(0x34E, 4), write(0x34E, 0), trap_to(Mode::U)];
        let counts = "answered: 2\nmode change not possible: 1\n";
        assert_eq!(report_of(&events), format!("events 3\n{counts}{RESET}"));
    }

    #[test]
    fn counts_come_in_ascending_order() {
        assert_eq!(
            counts(&NUMBERS, &[6, 5, 4, 3, 2, 1]),
            "answered: 6\nillegal instruction: 5\nvirtual instruction: 4\nno such register: 3\n\
             mode change not possible: 2\nbad state: 1\n"
        );
        assert_eq!(
            counts(&VALUES, &[5, 4, 3, 2, 1]),
            "nothing: 5\nrecorded: 4\nreturn popped: 3\nswapped in place: 2\n\
             frozen by this trap: 1\n"
        );
        assert_eq!(counts(&VALUES, &[0, 7, 0, 0, 0]), "recorded: 7\n");
    }

    #[test]
    fn registers_are_shown_in_hex() {
        let text = registers(&Registers {
            mode: Mode::VS,
            mctrctl: 0xFF3E_0000_1B87,
            vsctrctl: 0x83,
            depth_code: 4,
            wrptr: 0xFF,
            frozen: true,
            siselect: 0x2AB,
            vsiselect: u64::MAX,
            mstateen0_ctr: true,
            hstateen0_ctr: true,
            cycles: 0x7FF_FFFF,
            ccv: true,
            zc: true,
        });
        let expected = "\
mode VS
mctrctl 0xff3e00001b87
vsctrctl 0x83
sctrdepth 0x4
sctrstatus 0x800000ff
siselect 0x2ab
vsiselect 0xffffffffffffffff
mstateen0.CTR 0x1
hstateen0.CTR 0x1
cycles 0x7ffffff
ccv 0x1
zc 0x1
";
        assert_eq!(text, expected);
    }

    /// WRPTR is 2 at depth 16, so logical entries 0 and 15 are physical entries 1 and 2. Entry 16
    /// is not in use, and entry 3 not valid.
    fn machine_with_entries() -> Machine {
        let mut machine = Machine::reset(false);
        machine.registers.wrptr = 2;
        for (index, ctrsource, ctrtarget, ctrdata) in [
            (1, 0x1001, 0x2003, 0xFFF8),
            (2, 0x1, 0x0, 0xFFFF_7FF6),
            (3, 0x3000, 0x4000, 0x9),
            (16, 0x5001, 0x6000, 0x1),
        ] {
            machine.entries[index] = Entry {
                ctrsource,
                ctrtarget,
                ctrdata,
            };
        }
        machine
    }

    #[test]
    fn valid_entries_are_shown_in_logical_order() {
        assert_eq!(
            valid_entries(&machine_with_entries()),
            "0 0x1000 -> 0x2002 indirect call cycles 0 mispredicted\n15 0x0 -> 0x0 reserved\n"
        );
    }

    /// At depth 256 logical entries 241 and 255 are physical entries 16 and 2.
    #[test]
    fn valid_entries_go_up_to_the_depth() {
        let mut machine = machine_with_entries();
        machine.registers.depth_code = 4;
        assert_eq!(
            valid_entries(&machine),
            "0 0x1000 -> 0x2002 indirect call cycles 0 mispredicted\n\
             241 0x5000 -> 0x6000 exception\n255 0x0 -> 0x0 reserved\n"
        );
    }

    /// Two calls: the first has no valid count, the second its own cycles. Of the branch after
    /// them, which is not recorded, the cycles are in the counter.
    #[test]
    fn counts_of_cycles_are_shown_if_they_are_valid() {
        let branch = Event::Retired(Retired {
            word: 0x0000_0063,
            pc: 0x2000,
            target: 0x2004,
            taken: false,
            mispredicted: false,
            cycles: 0x56,
        });
        let report = report_of(&[write(0x34E, 4), CALL, CALL, branch]);
        let expected = "\
hstateen0.CTR 0x0
cycles 0x56
ccv 0x1
zc 0x0
0 0x1000 -> 0x2000 direct call cycles 4660
1 0x1000 -> 0x2000 direct call
";
        assert!(report.ends_with(expected), "{report}");
    }

    #[test]
    fn counts_of_cycles_are_decoded() {
        for (ctrdata, count) in [
            (0x0000_8009, 0),
            (0x0FFF_8009, 4_095),
            (0x1000_8009, 4_096),
            (0x2001_8009, 8_194),
            (0xFFFF_8009, 134_201_344),
        ] {
            let entry = Entry {
                ctrsource: 1,
                ctrtarget: 0,
                ctrdata,
            };
            let expected = format!("7 0x0 -> 0x0 direct call cycles {count}\n");
            assert_eq!(transfer(7, entry), expected);
        }
    }

    /// After the count if there is one, and beside addresses of which bit 0 is clear.
    #[test]
    fn misp_is_the_last_word_of_a_line() {
        for (ctrtarget, ctrdata, expected) in [
            (0x2000, 0x0007_0009, "3 0x1000 -> 0x2000 direct call\n"),
            (
                0x2001,
                0x0007_0009,
                "3 0x1000 -> 0x2000 direct call mispredicted\n",
            ),
            (
                0x2000,
                0x0007_8009,
                "3 0x1000 -> 0x2000 direct call cycles 7\n",
            ),
            (
                0x2001,
                0x0007_8009,
                "3 0x1000 -> 0x2000 direct call cycles 7 mispredicted\n",
            ),
            (0x0, 0x1, "3 0x1000 -> 0x0 exception\n"),
            (0x1, 0x1, "3 0x1000 -> 0x0 exception mispredicted\n"),
            (
                u64::MAX,
                0xFFFF_FFFF_FFFF_7FFF,
                "3 0x1000 -> 0xfffffffffffffffe other direct jump mispredicted\n",
            ),
        ] {
            let entry = Entry {
                ctrsource: 0x1001,
                ctrtarget,
                ctrdata,
            };
            assert_eq!(transfer(3, entry), expected);
        }
    }

    /// Two mispredicted calls and one that was not, newest first; then MISP of the newest is set and
    /// that of the one before is cleared by hand.
    #[test]
    fn mispredicted_calls_are_shown_as_such() {
        let call = |target, mispredicted| {
            Event::Retired(Retired {
                word: 0x0000_00ef,
                pc: 0x1000,
                target,
                taken: true,
                mispredicted,
                cycles: 9,
            })
        };
        let calls = [
            write(0x34E, 4),
            call(0x2001, true),
            call(0x3000, true),
            call(0x4001, false),
        ];
        let expected = "\
0 0x1000 -> 0x4000 direct call cycles 9
1 0x1000 -> 0x3000 direct call cycles 9 mispredicted
2 0x1000 -> 0x2000 direct call mispredicted
";
        let report = report_of(&calls);
        assert!(report.ends_with(expected), "{report}");

        let writes = [
            write(0x150, 0x200),
            write(0x152, 0x4001),
            write(0x250, 0x201),
            write(0x252, 0x3000),
        ];
        let expected = "\
0 0x1000 -> 0x4000 direct call cycles 9 mispredicted
1 0x1000 -> 0x3000 direct call cycles 9
2 0x1000 -> 0x2000 direct call mispredicted
";
        let report = report_of(&[&calls[..], &writes].concat());
        assert!(report.ends_with(expected), "{report}");
    }

    #[test]
    fn physical_entries_are_shown_whole() {
        let text = physical_entries(&machine_with_entries().entries);
        let lines: Vec<&str> = text.lines().collect();
        assert_eq!(lines.len(), 256);
        assert_eq!(lines[0], "0 0x0 0x0 0x0");
        assert_eq!(lines[1], "1 0x1001 0x2003 0xfff8");
        assert_eq!(lines[3], "3 0x3000 0x4000 0x9");
        assert_eq!(lines[16], "16 0x5001 0x6000 0x1");
        assert_eq!(lines[255], "255 0x0 0x0 0x0");
    }

    /// The words of a dump, three to an entry.
    fn dump_of(machine: Machine) -> Vec<[u64; 3]> {
        let mut run = Run::from_reset(false);
        run.machine = machine;
        let bytes = run.dump();
        let (words, rest) = bytes.as_chunks();
        assert_eq!(rest, [0; 0]);
        let words: Vec<u64> = words.iter().copied().map(u64::from_le_bytes).collect();
        let (entries, rest) = words.as_chunks();
        assert_eq!(rest, [0; 0]);
        entries.to_vec()
    }

    /// Entry 3, not valid, is logical entry 14, and entry 16 is beyond the depth.
    #[test]
    fn a_dump_has_the_words_of_all_entries_in_use_in_logical_order() {
        let mut expected = [[0; 3]; 16];
        expected[0] = [0x1001, 0x2003, 0xFFF8];
        expected[14] = [0x3000, 0x4000, 0x9];
        expected[15] = [0x1, 0x0, 0xFFFF_7FF6];
        assert_eq!(dump_of(machine_with_entries()), expected);
    }

    /// Logical entry i is physical entry 1 - i modulo the depth.
    #[test]
    fn a_dump_goes_up_to_the_depth() {
        for (code, depth) in [(0, 16), (1, 32), (2, 64), (3, 128), (4, 256)] {
            let mut machine = machine_with_entries();
            machine.registers.depth_code = code;
            let dump = dump_of(machine);
            assert_eq!(dump.len(), depth);
            assert_eq!(dump[0], [0x1001, 0x2003, 0xFFF8]);
            assert_eq!(dump[depth - 1], [0x1, 0x0, 0xFFFF_7FF6]);
            assert_eq!(dump[depth - 2], [0x3000, 0x4000, 0x9]);
            if depth > 16 {
                assert_eq!(dump[depth - 15], [0x5001, 0x6000, 0x1]);
            }
        }
    }

    #[test]
    fn words_of_a_dump_are_little_endian() {
        let mut run = Run::from_reset(false);
        run.machine.registers.wrptr = 1;
        run.machine.entries[0] = Entry {
            ctrsource: 0x0807_0605_0403_0201,
            ctrtarget: 0x100F_0E0D_0C0B_0A09,
            ctrdata: 0x1817_1615_1413_1211,
        };
        let expected: Vec<u8> = (1..=24).chain([0; 15 * 24]).collect();
        assert_eq!(run.dump(), expected);
    }

    #[test]
    fn all_entries_come_last_if_wanted() {
        let run = Run::from_reset(false);
        let expected = run.report(false) + &physical_entries(&run.machine.entries);
        assert_eq!(run.report(true), expected);
    }
}
