//! The cycle counter: whose cycles go into it, what records say of it, and what restarts it.

mod support;

use model::access::Operation;
use model::cycles::decoded;
use model::recorder::{Event, Machine, Retired, Trap, TrapReturn};
use model::registers::csr::*;
use model::registers::Mode;

use support::{
    access, entry, outcome, switch_on, with_bits, ALL_INHIBITS, BPFRZ, BRANCH, DIRECT_CALL,
    INDIRECT_CALL, LCOFIFRZ, MTE, NOP, OTHER_WORDS, POSSIBLE_RETURNS, POSSIBLE_TRAPS, RASEMU,
    RETURN, STE, SWAP,
};
use Mode::*;

/// A word of each type, branches as taken: word and type.
const TRANSFERS: [(u32, u64); 9] = [
    (BRANCH, 5),
    (INDIRECT_CALL, 8),
    (DIRECT_CALL, 9),
    (0x0003_0067, 10),
    (0x0000_006F, 11),
    (SWAP, 12),
    (RETURN, 13),
    (0x0003_8367, 14),
    (0x0000_036F, 15),
];

/// The largest count.
const TOP: u64 = (1 << 27) - 1;

/// The counter that machines start with here, the cycles of most events, and both together.
const BEFORE: u64 = 300;
const CYCLES: u32 = 40;
const SUM: u64 = 340;

fn retired(word: u32, cycles: u32) -> Event {
    Event::Retired(Retired {
        word,
        pc: 0x1000,
        target: 0x2000,
        taken: true,
        mispredicted: false,
        cycles,
    })
}

fn not_taken_branch() -> Event {
    Event::Retired(Retired {
        word: BRANCH,
        pc: 0x1000,
        target: 0x2000,
        taken: false,
        mispredicted: false,
        cycles: CYCLES,
    })
}

fn trap(target_mode: Mode, is_interrupt: bool, cause: u64) -> Event {
    Event::Trap(Trap {
        target_mode,
        is_interrupt,
        cause,
        epc: 0x3000,
        handler: 0x4000,
        cycles: CYCLES,
    })
}

fn trap_return(target_mode: Mode) -> Event {
    Event::TrapReturn(TrapReturn {
        target_mode,
        pc: 0x5000,
        target: 0x6000,
        cycles: CYCLES,
    })
}

/// An exception and an interrupt that don't freeze.
fn traps(target: Mode) -> [Event; 2] {
    [trap(target, false, 8), trap(target, true, 5)]
}

/// A breakpoint exception and a counter overflow interrupt.
fn freezing_traps(target: Mode) -> [Event; 2] {
    [trap(target, false, 3), trap(target, true, 13)]
}

fn write(csr: u64, operand: u64) -> Event {
    access(Operation::Write, csr, operand)
}

fn host(mstateen0_ctr: bool, hstateen0_ctr: bool) -> Event {
    Event::Host {
        mstateen0_ctr,
        hstateen0_ctr,
    }
}

/// All retired words, also those of no type.
fn words() -> Vec<Event> {
    let transfers = TRANSFERS.map(|(word, _)| retired(word, CYCLES));
    let others = OTHER_WORDS.map(|word| retired(word, CYCLES));
    [&transfers[..], &others, &[not_taken_branch()]].concat()
}

/// All possible retired words, traps and returns in a mode.
fn transfers_from(mode: Mode) -> Vec<Event> {
    let targets = |pairs: [(Mode, Mode); 11]| {
        let from_here = pairs.into_iter().filter(move |(source, _)| *source == mode);
        from_here.map(|(_, target)| target)
    };
    let traps = targets(POSSIBLE_TRAPS).flat_map(|target| [traps(target), freezing_traps(target)]);
    let returns = targets(POSSIBLE_RETURNS).map(trap_return);
    words()
        .into_iter()
        .chain(traps.flatten())
        .chain(returns)
        .collect()
}

/// The traps and returns in a mode that are not possible.
fn impossible_from(mode: Mode) -> Vec<Event> {
    let is_among = |pairs: [(Mode, Mode); 11], target| pairs.contains(&(mode, target));
    let mut events = vec![];
    for target in Mode::ALL {
        if !is_among(POSSIBLE_TRAPS, target) {
            events.extend(traps(target));
            events.extend(freezing_traps(target));
        }
        if !is_among(POSSIBLE_RETURNS, target) {
            events.push(trap_return(target));
        }
    }
    events
}

/// With both state enables, WRPTR 4, entries of their own, and a count that is valid.
fn machine(mode: Mode, on: &[Mode]) -> Machine {
    let mut machine = Machine::reset(false);
    let registers = &mut machine.registers;
    registers.mode = mode;
    registers.wrptr = 4;
    registers.mstateen0_ctr = true;
    registers.hstateen0_ctr = true;
    registers.cycles = BEFORE;
    registers.ccv = true;
    switch_on(registers, on);
    for (i, place) in (0..).zip(&mut machine.entries) {
        *place = entry(0x10_0001 + 16 * i, 0x20_0000 + 16 * i, 0xA5A5_8000 + i % 16);
    }
    machine
}

/// The machine with this CCV for the next record.
fn with_ccv(mut machine: Machine, ccv: bool) -> Machine {
    machine.registers.ccv = ccv;
    machine
}

/// The counter and the CCV of the next record.
fn count(machine: &Machine) -> (u64, bool) {
    (machine.registers.cycles, machine.registers.ccv)
}

/// The count after an answered event.
fn count_after(start: &Machine, event: Event) -> (u64, bool) {
    count(&outcome(start, event).1)
}

/// ctrdata with an exponent of 0.
fn ctrdata(counter: u64, ccv: bool, number: u64) -> u64 {
    counter << 16 | u64::from(ccv) << 15 | number
}

/// The event is recorded at WRPTR 4 with this count and type, and the counter restarts.
#[track_caller]
fn assert_records(start: &Machine, event: Event, counter: u64, number: u64) {
    let (value, after) = outcome(start, event);
    assert_eq!(value, 1, "{event:x?} in {:x?}", start.registers);
    let expected = ctrdata(counter, start.registers.ccv, number);
    assert_eq!(after.entries[4].ctrdata, expected, "{event:x?}");
    assert_eq!(count(&after), (0, true));
}

/// The event is not recorded, and leaves this in the counter; the next CCV stays.
#[track_caller]
fn assert_leaves(start: &Machine, event: Event, counter: u64) {
    let (value, after) = outcome(start, event);
    assert!(value == 0 || value == 4, "{event:x?}");
    assert_eq!(after.entries, start.entries);
    assert_eq!(count(&after), (counter, start.registers.ccv), "{event:x?}");
}

#[test]
fn after_reset_the_first_record_has_ccv_0_and_the_next_1() {
    let mut machine = Machine::reset(false);
    assert_eq!(count(&machine), (0, false));
    machine.registers.mctrctl = 4;
    let events = [
        (NOP, 10),
        (NOP, 20),
        (DIRECT_CALL, 7),
        (NOP, 30),
        (DIRECT_CALL, 5),
        (DIRECT_CALL, 0),
    ];
    for (word, cycles) in events {
        machine = outcome(&machine, retired(word, cycles)).1;
    }
    let stored = [0, 1, 2].map(|index| machine.entries[index].ctrdata);
    let expected = [
        ctrdata(37, false, 9),
        ctrdata(35, true, 9),
        ctrdata(0, true, 9),
    ];
    assert_eq!(stored, expected);
    assert_eq!(count(&machine), (0, true));
}

#[test]
fn words_are_recorded_with_the_count_that_has_their_own_cycles() {
    for mode in Mode::ALL {
        for ccv in [false, true] {
            let start = with_ccv(machine(mode, &[mode]), ccv);
            for (word, number) in TRANSFERS {
                assert_records(&start, retired(word, CYCLES), SUM, number);
            }
        }
    }
}

/// From a mode that is on: into one that is on, and external.
#[test]
fn traps_are_recorded_with_the_count_that_has_their_own_cycles() {
    for (source, target) in POSSIBLE_TRAPS {
        for ccv in [false, true] {
            for (event, number) in traps(target).into_iter().zip([1, 2]) {
                let start = with_ccv(machine(source, &[source, target]), ccv);
                assert_records(&start, event, SUM, number);
                let start = with_ccv(machine(source, &[source]), ccv);
                assert_records(&with_bits(start, STE | MTE), event, SUM, number);
            }
        }
    }
}

/// Into a mode that is on or off.
#[test]
fn returns_are_recorded_with_the_count_that_has_their_own_cycles() {
    for (source, target) in POSSIBLE_RETURNS {
        for on in [&[source][..], &[source, target]] {
            for ccv in [false, true] {
                let start = with_ccv(machine(source, on), ccv);
                assert_records(&start, trap_return(target), SUM, 3);
            }
        }
    }
}

#[test]
fn traps_from_an_off_mode_are_recorded_without_their_own_cycles() {
    for (source, target) in POSSIBLE_TRAPS {
        for ccv in [false, true] {
            if source != target {
                let start = with_ccv(machine(source, &[target]), ccv);
                for (event, number) in traps(target).into_iter().zip([1, 2]) {
                    assert_records(&start, event, BEFORE, number);
                }
            }
        }
    }
}

/// Words of no type, branches that are not taken, all that is inhibited, and traps that lack their
/// external bits.
#[test]
fn the_cycles_of_what_is_not_recorded_count() {
    for ccv in [false, true] {
        for mode in Mode::ALL {
            let start = with_ccv(machine(mode, &[mode]), ccv);
            for word in OTHER_WORDS {
                assert_leaves(&start, retired(word, CYCLES), SUM);
            }
            assert_leaves(&start, not_taken_branch(), SUM);
            let inhibited = with_bits(start, ALL_INHIBITS);
            for (word, _) in TRANSFERS {
                assert_leaves(&inhibited, retired(word, CYCLES), SUM);
            }
        }
        for (source, target) in POSSIBLE_TRAPS {
            let start = with_ccv(machine(source, &[source, target]), ccv);
            let external = with_ccv(machine(source, &[source]), ccv);
            for event in traps(target) {
                assert_leaves(&with_bits(start.clone(), ALL_INHIBITS), event, SUM);
                if source != target {
                    assert_leaves(&external, event, SUM);
                }
            }
        }
        for (source, target) in POSSIBLE_RETURNS {
            let start = with_ccv(machine(source, &[source, target]), ccv);
            let inhibited = with_bits(start, ALL_INHIBITS);
            assert_leaves(&inhibited, trap_return(target), SUM);
        }
    }
}

/// All other modes are on, so that some traps are recorded: then the counter restarts. External
/// bits and RASEMU make no difference.
#[test]
fn cycles_of_a_mode_that_is_off_do_not_count() {
    for mode in Mode::ALL {
        let others: Vec<Mode> = Mode::ALL
            .into_iter()
            .filter(|other| *other != mode)
            .collect();
        for (on, bits) in [(&[][..], STE | MTE), (&[], RASEMU), (&others[..], 0)] {
            let start = with_bits(machine(mode, on), bits | BPFRZ | LCOFIFRZ);
            for event in transfers_from(mode) {
                let (value, after) = outcome(&start, event);
                let counter = if value == 1 { 0 } else { BEFORE };
                assert_eq!(count(&after), (counter, true), "{event:x?}");
            }
        }
    }
}

/// Whether the event would freeze or not, and whether RASEMU governs it or not.
#[test]
fn nothing_counts_that_was_frozen_before() {
    for mode in Mode::ALL {
        for bits in [0, RASEMU, BPFRZ | LCOFIFRZ, RASEMU | BPFRZ | LCOFIFRZ] {
            for ccv in [false, true] {
                let mut start = with_ccv(machine(mode, &Mode::ALL), ccv);
                start.registers.frozen = true;
                let start = with_bits(start, bits);
                for event in transfers_from(mode) {
                    assert_leaves(&start, event, BEFORE);
                }
            }
        }
    }
}

#[test]
fn the_cycles_of_a_freezing_trap_count() {
    for (source, target) in POSSIBLE_TRAPS {
        for ccv in [false, true] {
            for event in freezing_traps(target) {
                for (on, counter) in [(&[source][..], SUM), (&Mode::ALL, SUM), (&[], BEFORE)] {
                    let start = with_ccv(machine(source, on), ccv);
                    let start = with_bits(start, BPFRZ | LCOFIFRZ);
                    assert_leaves(&start, event, counter);
                    assert!(outcome(&start, event).1.registers.frozen);
                }
            }
        }
    }
}

/// What was counted before freezing is there after it; meanwhile nothing is added.
#[test]
fn the_count_goes_on_after_freezing() {
    let mut machine = with_bits(machine(M, &[M]), BPFRZ);
    for event in [
        trap(M, false, 3),
        retired(NOP, 1000),
        retired(DIRECT_CALL, 1000),
        write(SCTRSTATUS, 4),
        retired(NOP, 6),
    ] {
        machine = outcome(&machine, event).1;
    }
    assert_eq!(count(&machine), (SUM + 6, true));
    assert_records(&machine, retired(DIRECT_CALL, 3), SUM + 9, 9);
}

#[test]
fn the_cycles_of_impossible_mode_changes_are_lost() {
    for mode in Mode::ALL {
        for bits in [0, RASEMU, BPFRZ | LCOFIFRZ] {
            let start = with_bits(machine(mode, &Mode::ALL), bits);
            for event in impossible_from(mode) {
                let mut after = start.clone();
                let answer = after.step(event);
                assert_eq!((answer.number, answer.value), (4, 0), "{event:x?}");
                assert_eq!(after, start);
            }
        }
    }
}

#[test]
fn the_counter_stays_at_its_top() {
    for (before, cycles, after) in [
        (0, 0x7FF_FFFE, TOP - 1),
        (0, 0x7FF_FFFF, TOP),
        (0, 0x800_0000, TOP),
        (0, u32::MAX, TOP),
        (TOP - 1, 1, TOP),
        (TOP - 1, 2, TOP),
        (TOP, 0, TOP),
        (TOP, 1, TOP),
        (TOP, u32::MAX, TOP),
    ] {
        let mut start = machine(M, &[M]);
        start.registers.cycles = before;
        assert_eq!(count_after(&start, retired(NOP, cycles)), (after, true));
    }
}

/// At the top the count is still valid.
#[test]
fn a_record_at_the_top_has_all_bits_of_cc() {
    let mut start = machine(M, &[M]);
    start.registers.cycles = 3;
    let (_, start) = outcome(&start, retired(NOP, u32::MAX));
    let (value, after) = outcome(&start, retired(DIRECT_CALL, 1));
    assert_eq!((value, after.entries[4].ctrdata), (1, 0xFFFF_8009));
    assert_eq!(count(&after), (0, true));
}

/// Every kind of event in every mode, possible or not.
#[test]
fn a_counter_of_2_to_the_27_answers_5() {
    for mode in Mode::ALL {
        let mut events = transfers_from(mode);
        events.extend(impossible_from(mode));
        events.extend([
            access(Operation::Read, MCTRCTL, 0),
            write(MCTRCTL, 0),
            write(SCTRCTL, 0),
            write(0x999, 0),
            Event::Sctrclr,
            host(true, true),
        ]);
        for bits in [0, RASEMU] {
            let mut start = with_bits(machine(mode, &Mode::ALL), bits);
            start.registers.cycles = TOP;
            assert!(!start.registers.is_bad());
            for cycles in [1 << 27, 1 << 32, 1 << 63, u64::MAX] {
                start.registers.cycles = cycles;
                assert!(start.registers.is_bad());
                for event in &events {
                    let mut after = start.clone();
                    let answer = after.step(*event);
                    assert_eq!((answer.number, answer.value), (5, 0), "{event:x?}");
                    assert_eq!(after, start);
                }
            }
        }
    }
}

/// Who is granted writes of which control register.
const CONTROL_WRITES: [(Mode, u64); 6] = [
    (M, MCTRCTL),
    (M, SCTRCTL),
    (M, VSCTRCTL),
    (S, SCTRCTL),
    (S, VSCTRCTL),
    (VS, SCTRCTL),
];

/// Whatever the operand is; frozen or not, on or off.
#[test]
fn writes_of_control_registers_restart_the_counter_with_ccv_0() {
    let writing = [Operation::Write, Operation::Set, Operation::Clear];
    for (mode, csr) in CONTROL_WRITES {
        for operand in [0, 1, RASEMU, 1 << 63, u64::MAX] {
            for (on, frozen) in [(&[][..], false), (&Mode::ALL, false), (&Mode::ALL, true)] {
                let mut start = machine(mode, on);
                start.registers.frozen = frozen;
                for operation in writing {
                    let event = access(operation, csr, operand);
                    assert_eq!(count_after(&start, event), (0, false), "{event:x?}");
                }
                let read = access(Operation::Read, csr, operand);
                assert_eq!(outcome(&start, read).1, start);
            }
        }
    }
}

/// The old reading is written, or no bit is set or cleared.
#[test]
fn writes_that_change_no_value_restart_too() {
    for (mode, csr) in CONTROL_WRITES {
        let start = with_bits(machine(mode, &Mode::ALL), ALL_INHIBITS | STE);
        let (old, _) = outcome(&start, access(Operation::Read, csr, 0));
        let mut expected = start.clone();
        (expected.registers.cycles, expected.registers.ccv) = (0, false);
        for event in [
            write(csr, old),
            access(Operation::Set, csr, 0),
            access(Operation::Set, csr, old),
            access(Operation::Clear, csr, 0),
            access(Operation::Clear, csr, 1 << 63),
        ] {
            assert_eq!(
                outcome(&start, event),
                (old, expected.clone()),
                "{event:x?}"
            );
        }
    }
}

#[test]
fn refused_writes_of_control_registers_do_not_restart() {
    for mode in Mode::ALL {
        for (mstateen0_ctr, hstateen0_ctr) in
            [(false, false), (true, false), (false, true), (true, true)]
        {
            let mut start = machine(mode, &Mode::ALL);
            start.registers.mstateen0_ctr = mstateen0_ctr;
            start.registers.hstateen0_ctr = hstateen0_ctr;
            for csr in [MCTRCTL, SCTRCTL, VSCTRCTL] {
                let mut after = start.clone();
                let answer = after.step(write(csr, 0));
                let is_granted = CONTROL_WRITES.contains(&(mode, csr))
                    && (mode == M || mstateen0_ctr)
                    && (mode != VS || hstateen0_ctr);
                assert_eq!(answer.number == 0, is_granted, "{mode:?} {csr:#x}");
                if !is_granted {
                    assert_eq!(after, start);
                }
            }
        }
    }
}

#[test]
fn sctrclr_restarts_the_counter_with_ccv_0_if_it_is_granted() {
    for (mode, number) in [(U, 1), (S, 0), (M, 0), (VU, 2), (VS, 0)] {
        for ccv in [false, true] {
            let start = with_ccv(machine(mode, &Mode::ALL), ccv);
            let mut after = start.clone();
            assert_eq!(after.step(Event::Sctrclr).number, number);
            let mut expected = start;
            if number == 0 {
                (expected.registers.cycles, expected.registers.ccv) = (0, false);
                expected.entries = Machine::reset(false).entries;
            }
            assert_eq!(after, expected);
        }
    }
}

/// The next record after a control write or SCTRCLR has the cycles since then, and CCV 0.
#[test]
fn the_record_after_a_restart_has_ccv_0_and_the_next_1() {
    for event in [write(MCTRCTL, 4), write(VSCTRCTL, 0), Event::Sctrclr] {
        let mut machine = machine(M, &[M]);
        for event in [
            retired(NOP, 9),
            event,
            retired(NOP, 5),
            retired(DIRECT_CALL, 6),
            retired(DIRECT_CALL, 7),
        ] {
            machine = outcome(&machine, event).1;
        }
        assert_eq!(machine.entries[4].ctrdata, ctrdata(11, false, 9));
        assert_eq!(machine.entries[5].ctrdata, ctrdata(7, true, 9));
    }
}

/// sctrdepth, sctrstatus, the select registers and all iregs, whether they change or not; and the
/// host's bits.
#[test]
fn nothing_else_restarts_the_counter() {
    let numbers = [
        SCTRDEPTH, SCTRSTATUS, SISELECT, VSISELECT, SIREG, SIREG2, SIREG3, SIREG4, SIREG5, SIREG6,
        VSIREG, VSIREG2, VSIREG3, VSIREG4, VSIREG5, VSIREG6,
    ];
    for ccv in [false, true] {
        let mut start = with_ccv(machine(M, &Mode::ALL), ccv);
        start.registers.siselect = 0x200;
        start.registers.vsiselect = 0x2FF;
        for csr in numbers {
            for operation in Operation::ALL {
                for operand in [0, 3, 1 << 31, 0x200, u64::MAX] {
                    let event = access(operation, csr, operand);
                    assert_eq!(count_after(&start, event), (BEFORE, ccv), "{event:x?}");
                }
            }
        }
        for (mstateen0_ctr, hstateen0_ctr) in [(false, true), (true, false), (true, true)] {
            let event = host(mstateen0_ctr, hstateen0_ctr);
            assert_eq!(count_after(&start, event), (BEFORE, ccv));
        }
    }
}

/// Words of no type, branches and jumps, freezing traps and all that isn't recorded too; and also
/// at the top.
#[test]
fn rasemu_zeroes_the_counter_at_every_event_of_a_mode_that_is_on() {
    for mode in Mode::ALL {
        for on in [&[mode][..], &Mode::ALL] {
            for bits in [0, BPFRZ | LCOFIFRZ, ALL_INHIBITS | STE | MTE] {
                for (before, ccv) in [(BEFORE, false), (BEFORE, true), (0, true), (TOP, true)] {
                    let mut start = with_ccv(machine(mode, on), ccv);
                    start.registers.cycles = before;
                    let start = with_bits(start, RASEMU | bits);
                    for event in transfers_from(mode) {
                        assert_eq!(count_after(&start, event), (0, false), "{event:x?}");
                    }
                }
            }
        }
    }
}

/// Whether an event is in V=1 before or after it, so that RASEMU is that of vsctrctl.
fn is_of_guest(mode: Mode, event: Event) -> bool {
    let target = match event {
        Event::Trap(trap) => trap.target_mode,
        Event::TrapReturn(trap_return) => trap_return.target_mode,
        _ => mode,
    };
    [mode, target].iter().any(|mode| matches!(mode, VU | VS))
}

/// RASEMU in one register alone: where it governs, the counter is zeroed; where it doesn't, it is
/// not but by a record.
#[test]
fn rasemu_zeroes_the_counter_only_where_it_governs() {
    for mode in Mode::ALL {
        for is_vsctrctl in [false, true] {
            let mut start = machine(mode, &Mode::ALL);
            if is_vsctrctl {
                start.registers.vsctrctl |= RASEMU;
            } else {
                start.registers.mctrctl |= RASEMU;
            }
            for event in transfers_from(mode) {
                let (value, after) = outcome(&start, event);
                let expected = match (is_vsctrctl == is_of_guest(mode, event), value) {
                    (true, _) => (0, false),
                    (false, 1) => (0, true),
                    (false, _) => (SUM, true),
                };
                assert_eq!(count(&after), expected, "{event:x?}");
            }
        }
    }
}

/// Two calls and the swap, whatever the counter is and the next CCV.
#[test]
fn records_and_swaps_under_rasemu_have_the_type_alone() {
    for mode in Mode::ALL {
        for (before, ccv) in [(0, false), (BEFORE, true), (TOP, true)] {
            let mut start = with_ccv(machine(mode, &[mode]), ccv);
            start.registers.cycles = before;
            let start = with_bits(start, RASEMU);
            for (word, number, expected_value, place) in [
                (0x0000_80E7, 8, 1, 4),
                (DIRECT_CALL, 9, 1, 4),
                (SWAP, 12, 3, 3),
            ] {
                let (value, after) = outcome(&start, retired(word, CYCLES));
                assert_eq!(value, expected_value);
                assert_eq!(after.entries[place].ctrdata, number);
                assert_eq!(count(&after), (0, false));
            }
        }
    }
}

#[test]
fn a_pop_leaves_ctrdata() {
    for stored in [0, 0x1234_8009, 0xFFFF_800F, u64::MAX] {
        let mut start = with_bits(machine(U, &[U]), RASEMU);
        start.entries[3].ctrdata = stored;
        let mut entries = start.entries;
        entries[3].ctrsource &= !1;
        let (value, after) = outcome(&start, retired(RETURN, CYCLES));
        assert_eq!((value, after.entries), (2, entries));
        assert_eq!(count(&after), (0, false));
    }
}

/// S counts, the guest below it has RASEMU, which governs both edges.
#[test]
fn after_rasemu_the_next_ordinary_record_has_ccv_0() {
    let mut machine = machine(S, &Mode::ALL);
    machine.registers.vsctrctl |= RASEMU;
    let events = [
        // event, value, count after it
        (retired(DIRECT_CALL, 10), 1, (0, true)),
        (retired(NOP, 11), 0, (11, true)),
        (trap_return(VS), 0, (0, false)),
        (retired(NOP, 12), 0, (0, false)),
        (retired(DIRECT_CALL, 13), 1, (0, false)),
        (trap(S, false, 8), 0, (0, false)),
        (retired(NOP, 14), 0, (14, false)),
        (retired(DIRECT_CALL, 15), 1, (0, true)),
        (retired(DIRECT_CALL, 16), 1, (0, true)),
    ];
    for (event, expected, counted) in events {
        let (value, after) = outcome(&machine, event);
        assert_eq!((value, count(&after)), (expected, counted), "{event:x?}");
        machine = after;
    }
    let stored = [4, 5, 6, 7].map(|place| machine.entries[place].ctrdata);
    let expected = [
        ctrdata(BEFORE + 10, true, 9),
        9,
        ctrdata(29, false, 9),
        ctrdata(16, true, 9),
    ];
    assert_eq!(stored, expected);
}

/// The first and the last counter of each exponent, and one between them: what is read of the last
/// record, and what software makes of it.
#[test]
fn counts_are_read_through_sireg3() {
    let limits = (1..16).map(|cce| (cce, 1 << (cce + 11), (1 << (cce + 12)) - 1));
    for (cce, first, last) in [(0, 0, 0xFFF)].into_iter().chain(limits) {
        for counter in [first, first + (last - first) / 3, last] {
            for ccv in [false, true] {
                let mut start = with_ccv(machine(M, &[M]), ccv);
                start.registers.cycles = 0;
                start.registers.siselect = 0x200;
                let (_, after) = outcome(&start, retired(DIRECT_CALL, counter as u32));
                let (read, _) = outcome(&after, access(Operation::Read, SIREG3, 0));
                assert_eq!(read & 0xFFFF, u64::from(ccv) << 15 | 9);
                assert_eq!(read >> 28, cce);
                let step = if cce == 0 { 1 } else { 1 << (cce - 1) };
                assert_eq!(decoded(read), counter / step * step);
            }
        }
    }
}

#[test]
fn cc_and_ccv_are_writable_through_sireg3() {
    for (written, kept) in [
        (u64::MAX, 0xFFFF_800F),
        (0xFFFF_FFFF_0000_7FF0, 0),
        (0x1234_8005, 0x1234_8005),
        (0x8000, 0x8000),
    ] {
        let mut start = machine(M, &[M]);
        start.registers.siselect = 0x200;
        let (old, after) = outcome(&start, write(SIREG3, written));
        assert_eq!((old, after.entries[3].ctrdata), (0xA5A5_8003, kept));
        let (read, _) = outcome(&after, access(Operation::Read, SIREG3, 0));
        assert_eq!(read, kept);
    }
}
