//! What events make of the whole recorder: published cases, slips that are easily made, and the
//! rules one by one (docs/RULES.md). No cycles are spent here, and nothing is mispredicted.

mod support;

use std::iter;

use model::access::{Access, Operation};
use model::recorder::{Event, Machine, Retired, Trap, TrapReturn};
use model::registers::{Entry, Mode, Registers};

use support::{
    entry, outcome, ALL_INHIBITS, BPFRZ, BRANCH, DIRECT_CALL, INDIRECT_CALL, LCOFIFRZ, MTE, NTBREN,
    RASEMU, RETURN, STE, SWAP,
};
use Mode::*;

const EXCINH: u64 = 1 << 33;
const INTRINH: u64 = 1 << 34;
const TRETINH: u64 = 1 << 35;

/// A word of each type, the branch as taken: word, type, and the bit that inhibits it.
const TRANSFERS: [(u32, u64, u64); 9] = [
    (BRANCH, 5, 1 << 37),
    (INDIRECT_CALL, 8, 1 << 40),
    (DIRECT_CALL, 9, 1 << 41),
    (0x0003_0067, 10, 1 << 42),
    (0x0000_006F, 11, 1 << 43),
    (SWAP, 12, 1 << 44),
    (RETURN, 13, 1 << 45),
    (0x0003_8367, 14, 1 << 46),
    (0x0000_036F, 15, 1 << 47),
];

/// Two addresses with bit 0 set, which is ignored.
const PC: u64 = 0x1235;
const TARGET: u64 = 0x5679;

/// What a record of them holds.
const CTRSOURCE: u64 = 0x1235;
const CTRTARGET: u64 = 0x5678;

fn retired(word: u32, taken: bool) -> Event {
    Event::Retired(Retired {
        word,
        pc: PC,
        target: TARGET,
        taken,
        mispredicted: false,
        cycles: 0,
    })
}

fn trap(target_mode: Mode, is_interrupt: bool, cause: u64) -> Event {
    Event::Trap(Trap {
        target_mode,
        is_interrupt,
        cause,
        epc: PC,
        handler: TARGET,
        cycles: 0,
    })
}

fn exception(target_mode: Mode) -> Event {
    trap(target_mode, false, 8)
}

fn interrupt(target_mode: Mode) -> Event {
    trap(target_mode, true, 5)
}

fn trap_return(target_mode: Mode) -> Event {
    Event::TrapReturn(TrapReturn {
        target_mode,
        pc: PC,
        target: TARGET,
        cycles: 0,
    })
}

fn is_virtual(mode: Mode) -> bool {
    mode == VU || mode == VS
}

/// The control register of a mode.
fn control(machine: &mut Machine, mode: Mode) -> &mut u64 {
    if is_virtual(mode) {
        &mut machine.registers.vsctrctl
    } else {
        &mut machine.registers.mctrctl
    }
}

/// A mode that has the other control register.
fn other(mode: Mode) -> Mode {
    if is_virtual(mode) {
        M
    } else {
        VS
    }
}

/// Trap returns from V=0 to V=1, and traps from V=1 to V=0.
const GUEST_ENTRIES: [(Mode, Mode); 4] = [(S, VS), (S, VU), (M, VS), (M, VU)];
const GUEST_EXITS: [(Mode, Mode); 4] = [(VS, S), (VS, M), (VU, S), (VU, M)];

/// A mode that has the control register whose RASEMU and inhibits govern a trap or a return.
fn governing(source: Mode, target: Mode) -> Mode {
    if GUEST_ENTRIES.contains(&(source, target)) || GUEST_EXITS.contains(&(source, target)) {
        VS
    } else {
        source
    }
}

/// The bits of a mask in every combination, from all of them down to none.
fn subsets(mask: u64) -> impl Iterator<Item = u64> {
    iter::successors(Some(mask), move |bits| {
        bits.checked_sub(1).map(|below| below & mask)
    })
}

/// The bits of two masks in every combination, those for vsctrctl and those for mctrctl.
fn in_each_register(vs_mask: u64, mask: u64) -> impl Iterator<Item = (u64, u64)> {
    subsets(vs_mask).flat_map(move |vs_bits| subsets(mask).map(move |bits| (vs_bits, bits)))
}

/// The switch of a mode in its control register.
fn switch(mode: Mode) -> u64 {
    match mode {
        U | VU => 1,
        S | VS => 2,
        M => 4,
    }
}

/// Depth 16, WRPTR 4, and each entry with words of its own.
fn machine(mode: Mode, on: &[Mode]) -> Machine {
    let mut machine = Machine::reset(false);
    machine.registers.mode = mode;
    machine.registers.wrptr = 4;
    for mode in on {
        *control(&mut machine, *mode) |= switch(*mode);
    }
    for (i, entry) in (0..).zip(&mut machine.entries) {
        *entry = Entry {
            ctrsource: 0x10_0001 + 16 * i,
            ctrtarget: 0x20_0000 + 16 * i,
            ctrdata: i % 16,
        };
    }
    machine
}

/// The state after an ordinary record in `start`, with the mode that it leads to. The next one has
/// CCV 1.
fn recorded(start: &Machine, mode: Mode, record: Entry) -> (u64, Machine) {
    let (value, mut after) = pushed(&in_mode(start, mode), record);
    after.registers.ccv = true;
    (value, after)
}

/// The state after a record in `start` under RASEMU.
fn pushed(start: &Machine, record: Entry) -> (u64, Machine) {
    let mut after = start.clone();
    let wrptr = start.registers.wrptr;
    after.entries[wrptr as usize] = record;
    after.registers.wrptr = if wrptr + 1 == start.registers.depth() {
        0
    } else {
        wrptr + 1
    };
    (1, after)
}

/// The state after an event that changed nothing but the mode.
fn nothing(start: &Machine, mode: Mode) -> (u64, Machine) {
    (0, in_mode(start, mode))
}

fn frozen(start: &Machine, mode: Mode) -> (u64, Machine) {
    let mut after = in_mode(start, mode);
    after.registers.frozen = true;
    (4, after)
}

fn in_mode(start: &Machine, mode: Mode) -> Machine {
    let mut after = start.clone();
    after.registers.mode = mode;
    after
}

const POSSIBLE_TRAPS: [(Mode, &[Mode]); 5] = [
    (U, &[S, M]),
    (VU, &[VS, S, M]),
    (VS, &[VS, S, M]),
    (S, &[S, M]),
    (M, &[M]),
];

const POSSIBLE_RETURNS: [(Mode, &[Mode]); 5] = [
    (M, &[U, S, M, VU, VS]),
    (S, &[S, U, VS, VU]),
    (VS, &[VS, VU]),
    (U, &[]),
    (VU, &[]),
];

/// All pairs of a table, source and target mode.
fn pairs(table: [(Mode, &'static [Mode]); 5]) -> impl Iterator<Item = (Mode, Mode)> {
    let targets_of = |(source, targets): (Mode, &'static [Mode])| {
        targets.iter().map(move |target| (source, *target))
    };
    table.into_iter().flat_map(targets_of)
}

#[test]
fn reset_is_mode_m_zc_as_given_and_all_else_0() {
    for zc in [false, true] {
        let expected = Registers {
            mode: M,
            mctrctl: 0,
            vsctrctl: 0,
            depth_code: 0,
            wrptr: 0,
            frozen: false,
            siselect: 0,
            vsiselect: 0,
            mstateen0_ctr: false,
            hstateen0_ctr: false,
            cycles: 0,
            ccv: false,
            zc,
        };
        let machine = Machine::reset(zc);
        assert_eq!(machine.registers, expected);
        assert_eq!(machine.registers, Registers::reset(zc));
        assert_eq!(machine.entries, [entry(0, 0, 0); 256]);
    }
}

/// The depth codes, and the last entry in use at each.
const LAST_ENTRIES: [(u64, usize); 5] = [(0, 15), (1, 31), (2, 63), (3, 127), (4, 255)];

/// Published for depth 16: the record at the last entry in use is logical entry 0, and WRPTR wraps.
#[test]
fn wrptr_wraps_after_the_last_entry() {
    for (depth_code, last) in LAST_ENTRIES {
        let mut start = machine(M, &[M]);
        start.registers.depth_code = depth_code;
        start.registers.wrptr = last as u64;
        let mut expected = start.clone();
        expected.entries[last] = entry(CTRSOURCE, CTRTARGET, 9);
        expected.registers.wrptr = 0;
        expected.registers.ccv = true;
        assert_eq!(expected.registers.physical_entry(0), last as u64);
        let result = outcome(&start, retired(DIRECT_CALL, true));
        assert_eq!(result, (1, expected));
    }
}

/// At the last entry of each smaller depth.
#[test]
fn wrptr_does_not_wrap_before_the_last_entry() {
    for (_, place) in &LAST_ENTRIES[..4] {
        let mut start = machine(M, &[M]);
        start.registers.depth_code = 4;
        start.registers.wrptr = *place as u64;
        let (value, after) = outcome(&start, retired(DIRECT_CALL, true));
        assert_eq!((value, after.registers.wrptr), (1, *place as u64 + 1));
        assert_eq!(after.entries[*place], entry(CTRSOURCE, CTRTARGET, 9));
    }
}

/// Published: U on, S and M off.
#[test]
fn external_trap_from_u_to_m_needs_mte_and_ste() {
    for (bits, expected) in [(0, 0), (MTE, 0), (STE, 0), (MTE | STE, 1)] {
        let mut start = machine(U, &[U]);
        *control(&mut start, M) |= bits;
        let (value, after) = outcome(&start, exception(M));
        assert_eq!(value, expected);
        if expected == 1 {
            assert_eq!(after.entries[4], entry(CTRSOURCE, 0, 1));
        } else {
            assert_eq!(after, in_mode(&start, M));
        }
    }
}

/// Published: S off, M on.
#[test]
fn trap_from_an_off_mode_has_ctrsource_1() {
    let (value, after) = outcome(&machine(S, &[M]), exception(M));
    assert_eq!((value, after.entries[4]), (1, entry(1, CTRTARGET, 1)));
}

/// Published for depth 16: entry 15 loses V and nothing else.
#[test]
fn return_at_wrptr_0_pops_the_last_entry() {
    for (depth_code, last) in LAST_ENTRIES {
        let start = at_wrptr_0_under_rasemu(depth_code);
        let mut expected = start.clone();
        expected.entries[last].ctrsource = 0x10_0000 + 16 * last as u64;
        expected.registers.wrptr = last as u64;
        assert_eq!(outcome(&start, retired(RETURN, true)), (2, expected));
    }
}

#[test]
fn swap_at_wrptr_0_overwrites_the_last_entry() {
    for (depth_code, last) in LAST_ENTRIES {
        let start = at_wrptr_0_under_rasemu(depth_code);
        let mut expected = start.clone();
        expected.entries[last] = entry(CTRSOURCE, CTRTARGET, 12);
        assert_eq!(outcome(&start, retired(SWAP, true)), (3, expected));
    }
}

fn at_wrptr_0_under_rasemu(depth_code: u64) -> Machine {
    let mut start = machine(U, &[U]);
    *control(&mut start, U) |= RASEMU;
    start.registers.depth_code = depth_code;
    start.registers.wrptr = 0;
    start
}

/// A slip: M is bit 2 and not bit 0.
#[test]
fn each_mode_has_its_own_switch() {
    let modes = [(1, U), (2, S), (4, M)];
    for (bits, on) in modes {
        for mode in [U, S, M] {
            let mut start = machine(mode, &[]);
            start.registers.mctrctl = bits;
            start.registers.vsctrctl = 3;
            let (value, _) = outcome(&start, retired(DIRECT_CALL, true));
            assert_eq!(value, u64::from(mode == on), "{mode:?}");
        }
    }
    for (bits, on) in [(1, VU), (2, VS)] {
        for mode in [VU, VS] {
            let mut start = machine(mode, &[]);
            start.registers.mctrctl = 7;
            start.registers.vsctrctl = bits;
            let (value, _) = outcome(&start, retired(DIRECT_CALL, true));
            assert_eq!(value, u64::from(mode == on), "{mode:?}");
        }
    }
}

/// Two slips: an external trap asks no inhibit, and doesn't show the handler.
#[test]
fn external_traps_ask_no_inhibit_and_show_no_handler() {
    for (source, target) in pairs(POSSIBLE_TRAPS).filter(|(source, target)| source != target) {
        for (event, number) in [(exception(target), 1), (interrupt(target), 2)] {
            let mut start = machine(source, &[source]);
            start.registers.mctrctl |= MTE | STE | ALL_INHIBITS;
            start.registers.vsctrctl |= STE | ALL_INHIBITS;
            let expected = recorded(&start, target, entry(CTRSOURCE, 0, number));
            assert_eq!(outcome(&start, event), expected);
        }
    }
}

/// A slip: equal link registers are a call under RASEMU too.
#[test]
fn jalr_x1_x1_is_no_swap() {
    for word in [0x0000_80E7, 0x0002_82E7] {
        let mut start = machine(S, &[S]);
        *control(&mut start, S) |= RASEMU;
        let expected = pushed(&start, entry(CTRSOURCE, CTRTARGET, 8));
        assert_eq!(outcome(&start, retired(word, true)), expected);
    }
}

/// A slip: logical entry 0 is the last record and not the place of the next one.
#[test]
fn the_last_record_is_read_as_logical_entry_0() {
    let (_, mut after) = outcome(&machine(M, &[M]), retired(DIRECT_CALL, true));
    after.registers.siselect = 0x200;
    assert_eq!(read(&mut after, 0x151), CTRSOURCE);
    assert_eq!(read(&mut after, 0x152), CTRTARGET);
    assert_eq!(read(&mut after, 0x153), 9);
}

fn read(machine: &mut Machine, csr: u64) -> u64 {
    access(machine, Operation::Read, csr, 0)
}

fn write(machine: &mut Machine, csr: u64, operand: u64) -> u64 {
    access(machine, Operation::Write, csr, operand)
}

/// The value of a granted access.
fn access(machine: &mut Machine, operation: Operation, csr: u64, operand: u64) -> u64 {
    let access = Access {
        operation,
        csr,
        operand,
    };
    let answer = machine.step(Event::Access(access));
    assert_eq!(answer.number, 0);
    answer.value
}

/// A slip: no mode need be on. The bit is that of the target's control register.
#[test]
fn freezing_goes_by_kind_cause_and_target() {
    let cases = [
        // interrupt or not, cause, the bit that counts
        (false, 3, BPFRZ),
        (true, 13, LCOFIFRZ),
        (true, 3, 0),
        (false, 13, 0),
        (false, 1 << 32 | 3, 0),
        (true, 1 << 63 | 13, 0),
    ];
    for (source, target) in pairs(POSSIBLE_TRAPS) {
        for (is_interrupt, cause, bit) in cases {
            for set_bit in [0, BPFRZ, LCOFIFRZ, BPFRZ | LCOFIFRZ] {
                let mut start = machine(source, &[]);
                *control(&mut start, target) |= set_bit;
                let event = trap(target, is_interrupt, cause);
                let expected = if set_bit & bit != 0 {
                    frozen(&start, target)
                } else {
                    nothing(&start, target)
                };
                assert_eq!(outcome(&start, event), expected);
            }
        }
    }
}

/// The bits of the other control register don't count.
#[test]
fn freezing_asks_one_register() {
    for (source, target) in pairs(POSSIBLE_TRAPS) {
        let mut start = machine(source, &[source]);
        *control(&mut start, other(target)) |= BPFRZ | LCOFIFRZ;
        for (is_interrupt, cause) in [(false, 3), (true, 13)] {
            let (value, after) = outcome(&start, trap(target, is_interrupt, cause));
            assert_ne!(value, 4, "{source:?} {target:?}");
            assert!(!after.registers.frozen);
        }
    }
}

/// With all modes on, frozen already or not, under RASEMU or not, inhibited or not.
#[test]
fn freezing_comes_first() {
    for (source, target) in pairs(POSSIBLE_TRAPS) {
        for more in [0, RASEMU, ALL_INHIBITS, STE] {
            for is_frozen in [false, true] {
                let mut start = machine(source, &Mode::ALL);
                start.registers.mctrctl |= more | BPFRZ | LCOFIFRZ;
                start.registers.vsctrctl |= more | BPFRZ | LCOFIFRZ;
                start.registers.frozen = is_frozen;
                for event in [trap(target, false, 3), trap(target, true, 13)] {
                    assert_eq!(outcome(&start, event), frozen(&start, target));
                }
            }
        }
    }
}

#[test]
fn frozen_keeps_all_but_the_mode() {
    for rasemu in [0, RASEMU] {
        for mode in Mode::ALL {
            let mut start = machine(mode, &Mode::ALL);
            start.registers.mctrctl |= rasemu;
            start.registers.vsctrctl |= rasemu;
            start.registers.frozen = true;
            for (word, _, _) in TRANSFERS {
                let result = outcome(&start, retired(word, true));
                assert_eq!(result, nothing(&start, mode));
            }
            for (_, target) in pairs(POSSIBLE_TRAPS).filter(|(source, _)| *source == mode) {
                let result = outcome(&start, exception(target));
                assert_eq!(result, nothing(&start, target));
            }
            for (_, target) in pairs(POSSIBLE_RETURNS).filter(|(source, _)| *source == mode) {
                let result = outcome(&start, trap_return(target));
                assert_eq!(result, nothing(&start, target));
            }
        }
    }
}

/// The event answers 4 and changes nothing unless the table has the pair; then the mode changes.
fn check_possible(table: [(Mode, &'static [Mode]); 5], event: fn(Mode) -> Event) {
    let possible: Vec<(Mode, Mode)> = pairs(table).collect();
    for source in Mode::ALL {
        for target in Mode::ALL {
            for on in [&[][..], &Mode::ALL] {
                let mut start = machine(source, on);
                start.registers.mctrctl |= BPFRZ | LCOFIFRZ;
                start.registers.vsctrctl |= BPFRZ | LCOFIFRZ;
                let mut after = start.clone();
                let answer = after.step(event(target));
                if possible.contains(&(source, target)) {
                    assert_eq!((answer.number, after.registers.mode), (0, target));
                } else {
                    assert_eq!((answer.number, answer.value), (4, 0));
                    assert_eq!(after, start);
                }
            }
        }
    }
}

#[test]
fn possible_traps_are_those_of_the_table() {
    check_possible(POSSIBLE_TRAPS, exception);
    check_possible(POSSIBLE_TRAPS, interrupt);
    check_possible(POSSIBLE_TRAPS, |target| trap(target, false, 3));
    check_possible(POSSIBLE_TRAPS, |target| trap(target, true, 13));
}

#[test]
fn possible_returns_are_those_of_the_table() {
    check_possible(POSSIBLE_RETURNS, trap_return);
}

/// Each type in each mode: on or off, and with its own filter bit or all the others.
#[test]
fn words_are_recorded_if_the_mode_is_on_and_the_type_not_inhibited() {
    for mode in Mode::ALL {
        for (word, number, bit) in TRANSFERS {
            let event = retired(word, true);
            let record = entry(CTRSOURCE, CTRTARGET, number);
            let on = machine(mode, &[mode]);
            assert_eq!(outcome(&on, event), recorded(&on, mode, record));

            let others: Vec<Mode> = Mode::ALL.into_iter().filter(|m| *m != mode).collect();
            let off = machine(mode, &others);
            assert_eq!(outcome(&off, event), nothing(&off, mode));

            let mut inhibited = on.clone();
            *control(&mut inhibited, mode) |= bit;
            assert_eq!(outcome(&inhibited, event), nothing(&inhibited, mode));

            let mut open = on;
            *control(&mut open, mode) |= ALL_INHIBITS & !bit;
            *control(&mut open, other(mode)) |= bit;
            assert_eq!(outcome(&open, event), recorded(&open, mode, record));
        }
    }
}

#[test]
fn not_taken_branches_need_ntbren() {
    for mode in Mode::ALL {
        let mut start = machine(mode, &[mode]);
        *control(&mut start, mode) |= ALL_INHIBITS;
        let result = outcome(&start, retired(BRANCH, false));
        assert_eq!(result, nothing(&start, mode));
        *control(&mut start, mode) |= NTBREN;
        let record = entry(CTRSOURCE, CTRTARGET, 4);
        let result = outcome(&start, retired(BRANCH, false));
        assert_eq!(result, recorded(&start, mode, record));
    }
}

/// NOP, SRET and MRET; a jump that is told to be not taken is one all the same.
#[test]
fn words_without_a_type_and_untaken_jumps() {
    let start = machine(M, &Mode::ALL);
    for word in [0x0000_0013, 0x1020_0073, 0x3020_0073] {
        assert_eq!(outcome(&start, retired(word, true)), nothing(&start, M));
    }
    let expected = recorded(&start, M, entry(CTRSOURCE, CTRTARGET, 9));
    assert_eq!(outcome(&start, retired(DIRECT_CALL, false)), expected);
}

/// On or off on both sides, without external bits; inhibits are those of the register that governs.
#[test]
fn traps_go_by_both_switches_and_the_inhibits_that_govern() {
    for (source, target) in pairs(POSSIBLE_TRAPS) {
        for on in [&[][..], &[source], &[target], &[source, target]] {
            for inhibits in [0, EXCINH, INTRINH, EXCINH | INTRINH] {
                let mut start = machine(source, on);
                let governing = governing(source, target);
                *control(&mut start, governing) |= inhibits;
                *control(&mut start, other(governing)) |= !inhibits & (EXCINH | INTRINH);
                check_trap(&start, exception(target), (on, target), (1, EXCINH));
                check_trap(&start, interrupt(target), (on, target), (2, INTRINH));
            }
        }
    }
}

/// The event has type `number`, and is inhibited by `bit`.
fn check_trap(
    start: &Machine,
    event: Event,
    (on, target): (&[Mode], Mode),
    (number, bit): (u64, u64),
) {
    let source = start.registers.mode;
    let is_inhibited = *control(&mut start.clone(), governing(source, target)) & bit != 0;
    let expected = if !on.contains(&target) || is_inhibited {
        nothing(start, target)
    } else if on.contains(&source) {
        recorded(start, target, entry(CTRSOURCE, CTRTARGET, number))
    } else {
        recorded(start, target, entry(1, CTRTARGET, number))
    };
    assert_eq!(outcome(start, event), expected);
}

/// All pairs that have external traps, with the bits needed: VSTE in vsctrctl, STE and MTE in
/// mctrctl.
const EXTERNAL_TRAPS: [(Mode, Mode, u64, u64); 8] = [
    (U, S, 0, STE),
    (U, M, 0, STE | MTE),
    (S, M, 0, MTE),
    (VU, VS, STE, 0),
    (VU, S, STE, STE),
    (VU, M, STE, STE | MTE),
    (VS, S, 0, STE),
    (VS, M, 0, STE | MTE),
];

#[test]
fn external_traps_need_the_bits_of_the_table() {
    for (source, target, vs_needed, needed) in EXTERNAL_TRAPS {
        for (vs_given, given) in in_each_register(STE, STE | MTE) {
            for on in lists_without(target) {
                let mut start = machine(source, &on);
                start.registers.vsctrctl |= vs_given;
                start.registers.mctrctl |= given;
                let is_enough = vs_given & vs_needed == vs_needed && given & needed == needed;
                let expected = if is_enough && on.contains(&source) {
                    recorded(&start, target, entry(CTRSOURCE, 0, 2))
                } else {
                    nothing(&start, target)
                };
                assert_eq!(outcome(&start, interrupt(target)), expected);
            }
        }
    }
}

/// Every list of modes without this one.
fn lists_without(mode: Mode) -> Vec<Vec<Mode>> {
    let mut lists = vec![vec![]];
    for next in Mode::ALL.into_iter().filter(|next| *next != mode) {
        let longer: Vec<_> = lists
            .iter()
            .map(|list| [&list[..], &[next]].concat())
            .collect();
        lists.extend(longer);
    }
    lists
}

/// TRETINH is that of the register that governs.
#[test]
fn returns_go_by_the_sources_switch_and_hide_an_off_target() {
    for (source, target) in pairs(POSSIBLE_RETURNS) {
        for on in [&[][..], &[source], &[target], &[source, target]] {
            let mut start = machine(source, on);
            start.registers.mctrctl |= ALL_INHIBITS & !TRETINH;
            start.registers.vsctrctl |= ALL_INHIBITS & !TRETINH;
            let governing = governing(source, target);
            *control(&mut start, other(governing)) |= TRETINH;
            let shown = if on.contains(&target) { CTRTARGET } else { 0 };
            let expected = if on.contains(&source) {
                recorded(&start, target, entry(CTRSOURCE, shown, 3))
            } else {
                nothing(&start, target)
            };
            assert_eq!(outcome(&start, trap_return(target)), expected);

            *control(&mut start, governing) |= TRETINH;
            let expected = nothing(&start, target);
            assert_eq!(outcome(&start, trap_return(target)), expected);
        }
    }
}

/// Calls enter, a return pops, a swap overwrites, also entries that are not valid; no inhibit is
/// asked.
#[test]
fn rasemu_keeps_a_stack_of_calls() {
    for mode in Mode::ALL {
        for v in [0, 1] {
            let mut start = machine(mode, &[mode]);
            *control(&mut start, mode) |= RASEMU | ALL_INHIBITS | NTBREN;
            start.entries[3].ctrsource = 0x30 | v;
            for (word, number, _) in TRANSFERS {
                let record = entry(CTRSOURCE, CTRTARGET, number);
                let expected = emulated(&start, record);
                assert_eq!(outcome(&start, retired(word, true)), expected);
            }
            let result = outcome(&start, retired(BRANCH, false));
            assert_eq!(result, nothing(&start, mode));
        }
    }
}

/// What becomes of a transfer under RASEMU at WRPTR 4.
fn emulated(start: &Machine, record: Entry) -> (u64, Machine) {
    let mode = start.registers.mode;
    let mut after = start.clone();
    match record.ctrdata {
        8 | 9 => pushed(start, record),
        12 => {
            after.entries[3] = record;
            (3, after)
        }
        13 => {
            after.entries[3].ctrsource = 0x30;
            after.registers.wrptr = 3;
            (2, after)
        }
        _ => nothing(start, mode),
    }
}

#[test]
fn rasemu_does_nothing_in_a_mode_that_is_off() {
    for mode in Mode::ALL {
        let mut start = machine(mode, &[]);
        *control(&mut start, mode) |= RASEMU;
        for (word, _, _) in TRANSFERS {
            let result = outcome(&start, retired(word, true));
            assert_eq!(result, nothing(&start, mode));
        }
    }
}

/// Neither from a mode that is on nor from one that is off; external bits don't help.
#[test]
fn rasemu_that_governs_keeps_traps_and_returns_out() {
    let lists = |source, target| [vec![source], vec![target], vec![source, target]];
    let start = |source, target, on: &[Mode]| {
        let mut start = machine(source, on);
        *control(&mut start, M) |= MTE | STE;
        *control(&mut start, VS) |= STE;
        *control(&mut start, governing(source, target)) |= RASEMU;
        start
    };
    for (source, target) in pairs(POSSIBLE_TRAPS) {
        for on in lists(source, target) {
            let start = start(source, target, &on);
            let result = outcome(&start, exception(target));
            assert_eq!(result, nothing(&start, target));
        }
    }
    for (source, target) in pairs(POSSIBLE_RETURNS) {
        for on in lists(source, target) {
            let start = start(source, target, &on);
            let result = outcome(&start, trap_return(target));
            assert_eq!(result, nothing(&start, target));
        }
    }
}

/// Neither that of the mode that a trap out of a guest leads to, nor that of the mode that a return
/// into a guest comes from.
#[test]
fn rasemu_of_the_other_register_is_not_asked() {
    let start = |source, governing| {
        let mut start = machine(source, &Mode::ALL);
        *control(&mut start, other(governing)) |= RASEMU;
        start
    };
    for mode in Mode::ALL {
        for (word, number, _) in TRANSFERS {
            let start = start(mode, mode);
            let expected = recorded(&start, mode, entry(CTRSOURCE, CTRTARGET, number));
            assert_eq!(outcome(&start, retired(word, true)), expected);
        }
    }
    for (source, target) in pairs(POSSIBLE_TRAPS) {
        let start = start(source, governing(source, target));
        let expected = recorded(&start, target, entry(CTRSOURCE, CTRTARGET, 1));
        assert_eq!(outcome(&start, exception(target)), expected);
    }
    for (source, target) in pairs(POSSIBLE_RETURNS) {
        let start = start(source, governing(source, target));
        let expected = recorded(&start, target, entry(CTRSOURCE, CTRTARGET, 3));
        assert_eq!(outcome(&start, trap_return(target)), expected);
    }
}

/// RASEMU and TRETINH in each register or not, both sides on or off.
#[test]
fn returns_into_a_guest_go_by_vsctrctl() {
    for (source, target) in GUEST_ENTRIES {
        for on in [&[][..], &[source], &[target], &[source, target]] {
            for (vs_bits, bits) in in_each_register(RASEMU | TRETINH, RASEMU | TRETINH) {
                let mut start = machine(source, on);
                start.registers.vsctrctl |= vs_bits;
                start.registers.mctrctl |= bits;
                let shown = if on.contains(&target) { CTRTARGET } else { 0 };
                let expected = if vs_bits == 0 && on.contains(&source) {
                    recorded(&start, target, entry(CTRSOURCE, shown, 3))
                } else {
                    nothing(&start, target)
                };
                assert_eq!(outcome(&start, trap_return(target)), expected);
            }
        }
    }
}

/// RASEMU, EXCINH and INTRINH in each register or not, both sides on or off, without external bits.
#[test]
fn traps_out_of_a_guest_go_by_vsctrctl() {
    let fields = RASEMU | EXCINH | INTRINH;
    for (source, target) in GUEST_EXITS {
        for on in [&[][..], &[source], &[target], &[source, target]] {
            for (vs_bits, bits) in in_each_register(fields, fields) {
                let mut start = machine(source, on);
                start.registers.vsctrctl |= vs_bits;
                start.registers.mctrctl |= bits;
                let ctrsource = if on.contains(&source) { CTRSOURCE } else { 1 };
                for (event, number, inhibit) in [
                    (exception(target), 1, EXCINH),
                    (interrupt(target), 2, INTRINH),
                ] {
                    let expected = if vs_bits & (RASEMU | inhibit) == 0 && on.contains(&target) {
                        recorded(&start, target, entry(ctrsource, CTRTARGET, number))
                    } else {
                        nothing(&start, target)
                    };
                    assert_eq!(outcome(&start, event), expected);
                }
            }
        }
    }
}

/// STE and MTE stay those of mctrctl and VSTE that of vsctrctl, whichever register has RASEMU; that
/// of vsctrctl alone is asked. All inhibits are set in one register or the other, and not asked.
#[test]
fn external_traps_out_of_a_guest_have_bits_in_both_registers() {
    let is_exit = |source, target| GUEST_EXITS.contains(&(source, target));
    let exits = EXTERNAL_TRAPS
        .into_iter()
        .filter(|(source, target, ..)| is_exit(*source, *target));
    for (source, target, vs_needed, needed) in exits {
        for (vs_bits, bits) in in_each_register(STE | RASEMU, STE | MTE | RASEMU) {
            for inhibited in [M, VS] {
                let mut start = machine(source, &[source]);
                start.registers.vsctrctl |= vs_bits;
                start.registers.mctrctl |= bits;
                *control(&mut start, inhibited) |= ALL_INHIBITS;
                let is_enough = vs_bits & vs_needed == vs_needed && bits & needed == needed;
                let expected = if is_enough && vs_bits & RASEMU == 0 {
                    recorded(&start, target, entry(CTRSOURCE, 0, 1))
                } else {
                    nothing(&start, target)
                };
                assert_eq!(outcome(&start, exception(target)), expected);
            }
        }
    }
}

/// BPFRZ and LCOFIFRZ stay those of mctrctl, whichever register has RASEMU. A trap that doesn't
/// freeze is recorded unless vsctrctl has RASEMU.
#[test]
fn traps_out_of_a_guest_freeze_by_mctrctl_alone() {
    let fields = BPFRZ | LCOFIFRZ | RASEMU;
    for (source, target) in GUEST_EXITS {
        for (vs_bits, bits) in in_each_register(fields, fields) {
            let mut start = machine(source, &Mode::ALL);
            start.registers.vsctrctl |= vs_bits;
            start.registers.mctrctl |= bits;
            for (event, number, freezing) in [
                (trap(target, false, 3), 1, BPFRZ),
                (trap(target, true, 13), 2, LCOFIFRZ),
            ] {
                let expected = if bits & freezing != 0 {
                    frozen(&start, target)
                } else if vs_bits & RASEMU != 0 {
                    nothing(&start, target)
                } else {
                    recorded(&start, target, entry(CTRSOURCE, CTRTARGET, number))
                };
                assert_eq!(outcome(&start, event), expected);
            }
        }
    }
}

/// RASEMU of vsctrctl alone governs the guest and both edges, and nothing else.
#[test]
fn a_round_through_a_guest_under_rasemu() {
    let mut machine = machine(S, &Mode::ALL);
    machine.registers.vsctrctl |= RASEMU;
    let events = [
        (retired(BRANCH, true), 1),
        (trap_return(VU), 0),
        (retired(BRANCH, true), 0),
        (retired(DIRECT_CALL, true), 1),
        (retired(RETURN, true), 2),
        (exception(S), 0),
        (trap_return(U), 1),
        (exception(S), 1),
    ];
    for (event, expected) in events {
        let (value, after) = outcome(&machine, event);
        assert_eq!(value, expected, "{event:x?}");
        machine = after;
    }
}

/// A write of ctrsource; `csr` is sireg or vsireg, `selections` are siselect and vsiselect.
fn check_reached(
    depth_code: u64,
    logical: usize,
    (mode, csr): (Mode, u64),
    selections: (u64, u64),
) {
    let mut start = machine(mode, &[]);
    start.registers.depth_code = depth_code;
    start.registers.mstateen0_ctr = true;
    start.registers.hstateen0_ctr = true;
    (start.registers.siselect, start.registers.vsiselect) = selections;
    let access = Access {
        operation: Operation::Write,
        csr,
        operand: 0xABCD,
    };
    let (depth, mut old, mut expected) = (16 << depth_code, 0, start.clone());
    if logical < depth {
        let place = (4 + depth - 1 - logical) % depth;
        old = start.entries[place].ctrsource;
        expected.entries[place].ctrsource = 0xABCD;
    }
    assert_eq!(outcome(&start, Event::Access(access)), (old, expected));
}

/// At each depth an access reaches the entry that it selects, counted back from WRPTR, and no
/// other; from VS vsiselect counts.
#[test]
fn accesses_reach_the_selected_entry() {
    for depth_code in 0..5 {
        for logical in 0..256 {
            let selection = 0x200 + logical as u64;
            check_reached(depth_code, logical, (M, 0x151), (selection, 0x201));
            check_reached(depth_code, logical, (M, 0x251), (0x201, selection));
            check_reached(depth_code, logical, (VS, 0x151), (0x201, selection));
        }
    }
}

/// More calls than there are entries, each from a pc of its own: the newest 256 are read through
/// selections 0x200 to 0x2FF, newest first.
#[test]
fn at_depth_256_the_newest_256_records_are_read() {
    let mut machine = Machine::reset(false);
    write(&mut machine, 0x34E, 4);
    write(&mut machine, 0x15F, 7);
    for call in 0..300 {
        let event = Event::Retired(Retired {
            word: DIRECT_CALL,
            pc: 0x1000 + 4 * call,
            target: 0x8000 + 4 * call,
            taken: true,
            mispredicted: false,
            cycles: 0,
        });
        let (value, after) = outcome(&machine, event);
        assert_eq!(value, 1);
        machine = after;
    }
    assert_eq!(read(&mut machine, 0x14F), 300 - 256);
    for logical in 0..256 {
        write(&mut machine, 0x150, 0x200 + logical);
        let call = 299 - logical;
        assert_eq!(read(&mut machine, 0x151), 0x1001 + 4 * call);
        assert_eq!(read(&mut machine, 0x152), 0x8000 + 4 * call);
        assert_eq!(read(&mut machine, 0x153), 0x8009);
    }
}

/// From depth 256 down to each and up again: entries beyond the smaller depth can't be read or
/// written meanwhile, and come back.
#[test]
fn entries_stay_while_the_depth_changes() {
    for (depth_code, last) in LAST_ENTRIES {
        let depth = last as u64 + 1;
        let mut machine = machine(M, &[]);
        machine.registers.depth_code = 4;
        machine.registers.wrptr = 0xC3;
        let entries = machine.entries;

        assert_eq!(write(&mut machine, 0x15F, depth_code), 4);
        assert_eq!(machine.registers.wrptr, 0xC3 % depth);
        assert_eq!(machine.entries, entries);
        for logical in depth..256 {
            write(&mut machine, 0x150, 0x200 + logical);
            assert_eq!(write(&mut machine, 0x151, u64::MAX), 0);
            assert_eq!(machine.entries, entries);
        }

        assert_eq!(write(&mut machine, 0x15F, 4), depth_code);
        assert_eq!(machine.registers.wrptr, 0xC3 % depth);
        assert_eq!(machine.entries, entries);
        for logical in 0..256 {
            write(&mut machine, 0x150, 0x200 + logical);
            let place = (0xC3 % depth + 255 - logical) % 256;
            assert_eq!(read(&mut machine, 0x151), 0x10_0001 + 16 * place);
        }
    }
}

/// At each depth also those beyond it.
#[test]
fn sctrclr_zeroes_all_entries_and_nothing_else() {
    for (depth_code, last) in LAST_ENTRIES {
        for wrptr in [0, 4, last as u64] {
            let mut start = machine(M, &Mode::ALL);
            start.registers.depth_code = depth_code;
            start.registers.wrptr = wrptr;
            start.registers.frozen = true;
            let (value, after) = outcome(&start, Event::Sctrclr);
            assert_eq!((value, after.registers), (0, start.registers));
            assert_eq!(after.entries, [entry(0, 0, 0); 256]);

            let mut refused = in_mode(&start, S);
            let before = refused.clone();
            assert_eq!(refused.step(Event::Sctrclr).number, 1);
            assert_eq!(refused, before);
        }
    }
}
