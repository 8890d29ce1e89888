//! MISP, bit 0 of ctrtarget: what records and swaps give it, and what leaves it. No cycles are spent
//! here.

mod support;

use model::access::Operation;
use model::recorder::{Event, Machine, Retired, Trap, TrapReturn};
use model::registers::csr::*;
use model::registers::{Entry, Mode};

use support::{
    access, entry, outcome, switch_on, with_bits, ALL_INHIBITS, BPFRZ, BRANCH, DIRECT_CALL,
    INDIRECT_CALL, LCOFIFRZ, MTE, NTBREN, OTHER_WORDS, POSSIBLE_RETURNS, POSSIBLE_TRAPS, RASEMU,
    RETURN, STE, SWAP,
};
use Mode::*;

/// A word of each type, with taken or not: word, taken, type. A jump told not to be taken is one all
/// the same.
const TRANSFERS: [(u32, bool, u64); 11] = [
    (BRANCH, false, 4),
    (BRANCH, true, 5),
    (INDIRECT_CALL, true, 8),
    (DIRECT_CALL, true, 9),
    (DIRECT_CALL, false, 9),
    (0x0003_0067, true, 10),
    (0x0000_006F, true, 11),
    (SWAP, true, 12),
    (RETURN, true, 13),
    (0x0003_8367, true, 14),
    (0x0000_036F, true, 15),
];

/// Targets with bit 0 clear and set, beside some, none and all of the other bits.
const TARGETS: [u64; 6] = [0x2000, 0x2001, 0, 1, !1, u64::MAX];

const FLAGS: [bool; 2] = [false, true];

/// In `machine`, the place of the next record and that of logical entry 0.
const NEXT: usize = 4;
const NEWEST: usize = 3;

fn retired(word: u32, taken: bool, target: u64, mispredicted: bool) -> Event {
    Event::Retired(Retired {
        word,
        pc: 0x1000,
        target,
        taken,
        mispredicted,
        cycles: 0,
    })
}

fn trap(target_mode: Mode, is_interrupt: bool, cause: u64, handler: u64) -> Event {
    Event::Trap(Trap {
        target_mode,
        is_interrupt,
        cause,
        epc: 0x3000,
        handler,
        cycles: 0,
    })
}

/// An exception and an interrupt that don't freeze, with their types.
fn traps(target: Mode, handler: u64) -> [(Event, u64); 2] {
    [
        (trap(target, false, 8, handler), 1),
        (trap(target, true, 5, handler), 2),
    ]
}

fn trap_return(target_mode: Mode, target: u64) -> Event {
    Event::TrapReturn(TrapReturn {
        target_mode,
        pc: 0x5000,
        target,
        cycles: 0,
    })
}

/// What ctrtarget holds of an address and a flag.
fn ctrtarget(address: u64, mispredicted: bool) -> u64 {
    match (address % 2, mispredicted) {
        (0, false) | (1, true) => address,
        (0, true) => address + 1,
        _ => address - 1,
    }
}

/// Depth 16, WRPTR 4, both state enables, and valid entries of their own, which all have this MISP.
fn machine(mode: Mode, on: &[Mode], misp: bool) -> Machine {
    let mut machine = Machine::reset(false);
    let registers = &mut machine.registers;
    registers.mode = mode;
    registers.wrptr = NEXT as u64;
    registers.mstateen0_ctr = true;
    registers.hstateen0_ctr = true;
    switch_on(registers, on);
    for (i, place) in (0..).zip(&mut machine.entries) {
        let address = 0x20_0000 + 16 * i;
        *place = entry(0x10_0001 + 16 * i, ctrtarget(address, misp), i % 16);
    }
    machine
}

/// The state after an event that changed nothing but the mode.
fn nothing(start: &Machine, mode: Mode) -> (u64, Machine) {
    let mut after = start.clone();
    after.registers.mode = mode;
    (0, after)
}

/// The state after a record in `start` under RASEMU.
fn pushed(start: &Machine, record: Entry) -> (u64, Machine) {
    let mut after = start.clone();
    after.entries[NEXT] = record;
    after.registers.wrptr = NEXT as u64 + 1;
    (1, after)
}

/// The state after an ordinary record in `start`, with the mode that it leads to. The next one has
/// CCV 1.
fn recorded(start: &Machine, mode: Mode, record: Entry) -> (u64, Machine) {
    let (value, mut after) = pushed(start, record);
    after.registers.mode = mode;
    after.registers.ccv = true;
    (value, after)
}

/// Over entries with MISP 0 and 1; bit 0 of the target has no part in it.
#[test]
fn words_are_recorded_with_their_flag() {
    for mode in Mode::ALL {
        for misp in FLAGS {
            let start = with_bits(machine(mode, &[mode], misp), NTBREN);
            for (word, taken, number) in TRANSFERS {
                for target in TARGETS {
                    for flag in FLAGS {
                        let event = retired(word, taken, target, flag);
                        let record = entry(0x1001, ctrtarget(target, flag), number);
                        let expected = recorded(&start, mode, record);
                        assert_eq!(outcome(&start, event), expected);
                    }
                }
            }
        }
    }
}

/// The four cases written out.
#[test]
fn misp_is_the_flag_and_not_bit_0_of_the_target() {
    let start = machine(M, &[M], false);
    for (target, flag, expected) in [
        (0x2000, false, 0x2000),
        (0x2001, false, 0x2000),
        (0x2000, true, 0x2001),
        (0x2001, true, 0x2001),
    ] {
        let (value, after) = outcome(&start, retired(DIRECT_CALL, true, target, flag));
        assert_eq!((value, after.entries[NEXT].ctrtarget), (1, expected));
    }
}

/// Neither words of a mode that is off, with RASEMU or not, nor words of no type, nor inhibited or
/// frozen ones.
#[test]
fn the_flag_of_a_word_that_is_not_recorded_does_nothing() {
    for mode in Mode::ALL {
        let others: Vec<Mode> = Mode::ALL.into_iter().filter(|m| *m != mode).collect();
        for misp in FLAGS {
            let on = machine(mode, &[mode], misp);
            let off = with_bits(machine(mode, &others, misp), NTBREN);
            let mut frozen = with_bits(on.clone(), NTBREN);
            frozen.registers.frozen = true;
            let frozen_stack = with_bits(frozen.clone(), RASEMU);
            let inhibited = with_bits(on.clone(), ALL_INHIBITS);
            let off_stack = with_bits(off.clone(), RASEMU);
            for start in [&off, &off_stack, &frozen, &frozen_stack, &inhibited] {
                for (word, taken, _) in TRANSFERS {
                    check_nothing(start, word, taken);
                }
            }
            for start in [&on, &with_bits(on.clone(), RASEMU), &off] {
                for word in OTHER_WORDS {
                    check_nothing(start, word, true);
                }
            }
        }
    }
}

/// With each flag and with both kinds of target.
fn check_nothing(start: &Machine, word: u32, taken: bool) {
    for flag in FLAGS {
        for target in TARGETS {
            let result = outcome(start, retired(word, taken, target, flag));
            assert_eq!(result, nothing(start, start.registers.mode));
        }
    }
}

/// Where RASEMU leaves the count out, the flag is there.
#[test]
fn calls_under_rasemu_have_their_flag() {
    for mode in Mode::ALL {
        for misp in FLAGS {
            let start = with_bits(machine(mode, &[mode], misp), RASEMU | ALL_INHIBITS);
            for (word, number) in [(INDIRECT_CALL, 8), (DIRECT_CALL, 9)] {
                for target in TARGETS {
                    for flag in FLAGS {
                        let event = retired(word, true, target, flag);
                        let record = entry(0x1001, ctrtarget(target, flag), number);
                        assert_eq!(outcome(&start, event), pushed(&start, record));
                    }
                }
            }
        }
    }
}

/// Whatever MISP was there, in an entry that is valid or not.
#[test]
fn a_swap_gives_misp_its_own_flag() {
    for mode in Mode::ALL {
        for misp in FLAGS {
            for v in [0, 1] {
                let mut start = with_bits(machine(mode, &[mode], misp), RASEMU);
                start.entries[NEWEST].ctrsource = 0x30 | v;
                for target in TARGETS {
                    for flag in FLAGS {
                        let mut expected = start.clone();
                        expected.entries[NEWEST] = entry(0x1001, ctrtarget(target, flag), 12);
                        let result = outcome(&start, retired(SWAP, true, target, flag));
                        assert_eq!(result, (3, expected));
                    }
                }
            }
        }
    }
}

/// MISP stays whatever the flag of the return is, in an entry that is valid or not.
#[test]
fn a_pop_leaves_misp() {
    for mode in Mode::ALL {
        for misp in FLAGS {
            for v in [0, 1] {
                let mut start = with_bits(machine(mode, &[mode], misp), RASEMU);
                start.entries[NEWEST].ctrsource = 0x30 | v;
                let mut expected = start.clone();
                expected.entries[NEWEST].ctrsource = 0x30;
                expected.registers.wrptr = NEWEST as u64;
                let kept = expected.entries[NEWEST].ctrtarget;
                assert_eq!(kept, 0x20_0030 | u64::from(misp));
                for target in TARGETS {
                    for flag in FLAGS {
                        let result = outcome(&start, retired(RETURN, true, target, flag));
                        assert_eq!(result, (2, expected.clone()));
                    }
                }
            }
        }
    }
}

#[test]
fn other_words_under_rasemu_do_nothing_with_their_flag() {
    for mode in Mode::ALL {
        for misp in FLAGS {
            let start = with_bits(machine(mode, &[mode], misp), RASEMU | NTBREN);
            for (word, taken, number) in TRANSFERS {
                if !matches!(number, 8 | 9 | 12 | 13) {
                    check_nothing(&start, word, taken);
                }
            }
        }
    }
}

/// A mispredicted call, a swap without a flag over it, a mispredicted swap, its pop, and a call
/// without a flag in the same place.
#[test]
fn a_stack_of_calls_with_and_without_flags() {
    let mut machine = with_bits(machine(U, &[U], false), RASEMU);
    let events = [
        // word, flag, value, ctrsource and ctrtarget at the place of the first call
        (DIRECT_CALL, true, 1, 0x1001, 0x2001),
        (SWAP, false, 3, 0x1001, 0x2000),
        (SWAP, true, 3, 0x1001, 0x2001),
        (RETURN, false, 2, 0x1000, 0x2001),
        (INDIRECT_CALL, false, 1, 0x1001, 0x2000),
        (RETURN, true, 2, 0x1000, 0x2000),
    ];
    for (word, flag, expected, source, target) in events {
        let (value, after) = outcome(&machine, retired(word, true, 0x2000, flag));
        assert_eq!(value, expected);
        let Entry {
            ctrsource,
            ctrtarget,
            ..
        } = after.entries[NEXT];
        assert_eq!((ctrsource, ctrtarget), (source, target), "{word:#x}");
        machine = after;
    }
}

/// Over entries with MISP 1 too, and with handlers that have bit 0 set too.
#[test]
fn traps_have_misp_0() {
    for (source, target) in POSSIBLE_TRAPS {
        for misp in FLAGS {
            let both_on = machine(source, &[source, target], misp);
            for handler in TARGETS {
                for (event, number) in traps(target, handler) {
                    let record = entry(0x3001, ctrtarget(handler, false), number);
                    let expected = recorded(&both_on, target, record);
                    assert_eq!(outcome(&both_on, event), expected);
                }
            }
        }
    }
}

#[test]
fn traps_from_an_off_mode_have_misp_0() {
    for (source, target) in POSSIBLE_TRAPS.into_iter().filter(|(a, b)| a != b) {
        for misp in FLAGS {
            let start = machine(source, &[target], misp);
            for handler in TARGETS {
                for (event, number) in traps(target, handler) {
                    let record = entry(1, ctrtarget(handler, false), number);
                    let expected = recorded(&start, target, record);
                    assert_eq!(outcome(&start, event), expected);
                }
            }
        }
    }
}

/// Bit 0 of the handler doesn't show either.
#[test]
fn external_traps_have_a_ctrtarget_of_0_whole() {
    for (source, target) in POSSIBLE_TRAPS.into_iter().filter(|(a, b)| a != b) {
        for misp in FLAGS {
            let start = with_bits(machine(source, &[source], misp), STE | MTE);
            for handler in TARGETS {
                for (event, number) in traps(target, handler) {
                    let expected = recorded(&start, target, entry(0x3001, 0, number));
                    assert_eq!(outcome(&start, event), expected);
                }
            }
        }
    }
}

#[test]
fn freezing_traps_leave_misp() {
    for (source, target) in POSSIBLE_TRAPS {
        for misp in FLAGS {
            let on = machine(source, &[source, target], misp);
            let start = with_bits(on, BPFRZ | LCOFIFRZ);
            for handler in TARGETS {
                for event in [
                    trap(target, false, 3, handler),
                    trap(target, true, 13, handler),
                ] {
                    let (_, mut expected) = nothing(&start, target);
                    expected.registers.frozen = true;
                    assert_eq!(outcome(&start, event), (4, expected));
                }
            }
        }
    }
}

/// Over entries with MISP 1 too, and to targets that have bit 0 set too.
#[test]
fn returns_have_misp_0() {
    for (source, target) in POSSIBLE_RETURNS {
        for misp in FLAGS {
            let start = machine(source, &[source, target], misp);
            for address in TARGETS {
                let record = entry(0x5001, ctrtarget(address, false), 3);
                let expected = recorded(&start, target, record);
                assert_eq!(outcome(&start, trap_return(target, address)), expected);
            }
        }
    }
}

/// Bit 0 of the target doesn't show either.
#[test]
fn returns_into_an_off_mode_have_a_ctrtarget_of_0_whole() {
    for (source, target) in POSSIBLE_RETURNS.into_iter().filter(|(a, b)| a != b) {
        for misp in FLAGS {
            let start = machine(source, &[source], misp);
            for address in TARGETS {
                let expected = recorded(&start, target, entry(0x5001, 0, 3));
                assert_eq!(outcome(&start, trap_return(target, address)), expected);
            }
        }
    }
}

/// The modes and the CSR numbers through which ctrtarget is reached.
const CTRTARGETS: [(Mode, u64); 5] = [
    (S, SIREG2),
    (M, SIREG2),
    (VS, SIREG2),
    (S, VSIREG2),
    (M, VSIREG2),
];

/// The machine with both selections at logical entry 0.
fn selecting_newest(mut machine: Machine) -> Machine {
    machine.registers.siselect = 0x200;
    machine.registers.vsiselect = 0x200;
    machine
}

#[test]
fn misp_of_a_record_is_read() {
    for (mode, csr) in CTRTARGETS {
        for misp in FLAGS {
            for flag in FLAGS {
                let start = selecting_newest(machine(mode, &[mode], misp));
                let (_, after) = outcome(&start, retired(BRANCH, true, 0x2001, flag));
                let result = outcome(&after, access(Operation::Read, csr, u64::MAX));
                assert_eq!(result, (0x2000 | u64::from(flag), after));
            }
        }
    }
}

/// Each operation on MISP 0 and 1 of logical entry 0: the old reading is answered, and nothing else
/// changes.
#[test]
fn misp_is_written_set_and_cleared() {
    let cases = [
        // operation, operand, ctrtarget after it if MISP was 0, and if it was 1
        (Operation::Write, 0x7000, 0x7000, 0x7000),
        (Operation::Write, 0x7001, 0x7001, 0x7001),
        (Operation::Set, 0, 0x20_0030, 0x20_0031),
        (Operation::Set, 1, 0x20_0031, 0x20_0031),
        (Operation::Clear, 0, 0x20_0030, 0x20_0031),
        (Operation::Clear, 1, 0x20_0030, 0x20_0030),
    ];
    for (mode, csr) in CTRTARGETS {
        for (operation, operand, if_0, if_1) in cases {
            for (misp, after) in [(false, if_0), (true, if_1)] {
                let start = selecting_newest(machine(mode, &[], misp));
                let old = start.entries[NEWEST].ctrtarget;
                let mut expected = start.clone();
                expected.entries[NEWEST].ctrtarget = after;
                let result = outcome(&start, access(operation, csr, operand));
                assert_eq!(result, (old, expected), "{mode:?} {operation:?}");
            }
        }
    }
}

/// At depth 16 selection 0x210 is no entry: MISP reads 0 there and can't be set.
#[test]
fn there_is_no_misp_beyond_the_depth() {
    for (mode, csr) in CTRTARGETS {
        let mut start = machine(mode, &[], true);
        start.registers.siselect = 0x210;
        start.registers.vsiselect = 0x210;
        for operation in Operation::ALL {
            let result = outcome(&start, access(operation, csr, 1));
            assert_eq!(result, (0, start.clone()));
        }
    }
}

#[test]
fn the_iregs_of_ctrsource_and_ctrdata_leave_misp() {
    for csr in [SIREG, SIREG3, SIREG4, SIREG5, SIREG6] {
        for misp in FLAGS {
            for operand in [0, u64::MAX] {
                let start = selecting_newest(machine(M, &[], misp));
                let (_, after) = outcome(&start, access(Operation::Write, csr, operand));
                let kept = after.entries[NEWEST].ctrtarget;
                assert_eq!(kept, start.entries[NEWEST].ctrtarget);
            }
        }
    }
}

#[test]
fn sctrclr_clears_misp() {
    let (value, after) = outcome(&machine(S, &[], true), Event::Sctrclr);
    assert_eq!(value, 0);
    assert!(after.entries.iter().all(|entry| entry.ctrtarget == 0));
}
