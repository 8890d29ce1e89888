//! The switch of table jumps and pop-returns: with it on the recorder takes their words as the jumps,
//! calls and returns that they are, with it off as words of no type.

mod support;

use model::classifier::transfer_type;
use model::recorder::{Event, Machine, Retired};
use model::registers::{Entry, Mode};
use model::run::Outcome;

use support::{
    entry, outcome, switch_on, with_bits, ALL_INHIBITS, DIRECT_CALL, MTE, NOP, NTBREN, RASEMU,
    RETURN, STE,
};
use Mode::*;

const DIRJMPINH: u64 = 1 << 43;
const DIRCALLINH: u64 = 1 << 41;
const RETINH: u64 = 1 << 45;

/// Word, type, and the bit that inhibits it.
const WORDS: [(u32, u64, u64); 12] = [
    (0xA002, 11, DIRJMPINH),      // cm.jt 0
    (0xA07E, 11, DIRJMPINH),      // cm.jt 31
    (0xA082, 9, DIRCALLINH),      // cm.jalt 32
    (0xA3FE, 9, DIRCALLINH),      // cm.jalt 255
    (0xBE42, 13, RETINH),         // cm.popret {ra}, 16
    (0xBEFE, 13, RETINH),         // cm.popret {ra, s0-s11}, 160
    (0xBC42, 13, RETINH),         // cm.popretz {ra}, 16
    (0xBCFE, 13, RETINH),         // cm.popretz {ra, s0-s11}, 160
    (0xFFFF_A00E, 11, DIRJMPINH), // the upper half is ignored
    (0x006F_A0AE, 9, DIRCALLINH),
    (0x8082_BE42, 13, RETINH),
    (0x00EF_BC42, 13, RETINH),
];

const CM_JALT: u32 = 0xA082;
const CM_POPRET: u32 = 0xBE42;
const CM_POPRETZ: u32 = 0xBC42;

/// Words in the same place that are none: CM.PUSH, CM.POP, CM.MVSA01, CM.MVA01S, pop-returns with
/// rlist 3, and codes that are reserved.
const OTHER_WORDS: [u32; 8] = [
    0xB842, 0xBA42, 0xACA2, 0xACE2, 0xBE32, 0xBC32, 0xA402, 0xBFFE,
];

const FLAGS: [bool; 2] = [false, true];

/// In `machine`, the place of the next record and that of logical entry 0.
const NEXT: usize = 4;
const NEWEST: usize = 3;

fn retired(word: u32) -> Event {
    retired_with(word, true, false, 0)
}

fn retired_with(word: u32, taken: bool, mispredicted: bool, cycles: u32) -> Event {
    Event::Retired(Retired {
        word,
        pc: 0x1000,
        target: 0x2000,
        taken,
        mispredicted,
        cycles,
    })
}

/// Depth 16, WRPTR 4, and valid entries of their own.
fn machine(zc: bool, mode: Mode, on: &[Mode]) -> Machine {
    let mut machine = Machine::reset(zc);
    machine.registers.mode = mode;
    machine.registers.wrptr = NEXT as u64;
    switch_on(&mut machine.registers, on);
    for (i, place) in (0..).zip(&mut machine.entries) {
        *place = entry(0x10_0001 + 16 * i, 0x20_0000 + 16 * i, i % 16);
    }
    machine
}

/// The state after a record in `start` under RASEMU.
fn pushed(start: &Machine, record: Entry) -> (u64, Machine) {
    let mut after = start.clone();
    after.entries[NEXT] = record;
    after.registers.wrptr = NEXT as u64 + 1;
    (1, after)
}

/// The state after an ordinary record in `start`. The next one has CCV 1.
fn recorded(start: &Machine, record: Entry) -> (u64, Machine) {
    let (value, mut after) = pushed(start, record);
    after.registers.ccv = true;
    (value, after)
}

/// The state after a return in `start` under RASEMU.
fn popped(start: &Machine) -> (u64, Machine) {
    let mut after = start.clone();
    after.entries[NEWEST].ctrsource &= !1;
    after.registers.wrptr = NEWEST as u64;
    (2, after)
}

fn assert_nothing(start: &Machine, word: u32) {
    for taken in FLAGS {
        for mispredicted in FLAGS {
            let result = outcome(start, retired_with(word, taken, mispredicted, 0));
            assert_eq!(result, (0, start.clone()), "{word:#x}");
        }
    }
}

/// Told to be taken or not, and mispredicted or not.
#[test]
fn words_are_recorded_with_their_type_if_the_switch_is_on() {
    for mode in Mode::ALL {
        let start = machine(true, mode, &[mode]);
        for (word, number, _) in WORDS {
            for taken in FLAGS {
                for misp in FLAGS {
                    let record = entry(0x1001, 0x2000 | u64::from(misp), number);
                    let result = outcome(&start, retired_with(word, taken, misp, 0));
                    assert_eq!(result, recorded(&start, record), "{word:#x}");
                }
            }
        }
    }
}

/// Neither in history nor under RASEMU.
#[test]
fn words_do_nothing_if_the_switch_is_off() {
    for mode in Mode::ALL {
        let start = with_bits(machine(false, mode, &Mode::ALL), NTBREN | STE | MTE);
        for start in [&start, &with_bits(start.clone(), RASEMU)] {
            for (word, ..) in WORDS {
                assert_nothing(start, word);
            }
        }
    }
}

#[test]
fn their_neighbours_do_nothing() {
    for zc in FLAGS {
        for mode in Mode::ALL {
            let start = with_bits(machine(zc, mode, &Mode::ALL), NTBREN);
            for start in [&start, &with_bits(start.clone(), RASEMU)] {
                for word in OTHER_WORDS {
                    assert_nothing(start, word);
                }
            }
        }
    }
}

/// Each by the bit of its type and by no other.
#[test]
fn words_are_inhibited_as_others_of_their_type() {
    for mode in Mode::ALL {
        let on = machine(true, mode, &[mode]);
        for (word, number, inhibit) in WORDS {
            assert_nothing(&with_bits(on.clone(), inhibit), word);
            assert_nothing(&with_bits(on.clone(), ALL_INHIBITS), word);
            let start = with_bits(on.clone(), ALL_INHIBITS & !inhibit);
            let expected = recorded(&start, entry(0x1001, 0x2000, number));
            assert_eq!(outcome(&start, retired(word)), expected, "{word:#x}");
        }
    }
}

#[test]
fn words_of_an_off_mode_and_frozen_ones_do_nothing() {
    for mode in Mode::ALL {
        let others: Vec<Mode> = Mode::ALL.into_iter().filter(|m| *m != mode).collect();
        let off = machine(true, mode, &others);
        let mut frozen = machine(true, mode, &[mode]);
        frozen.registers.frozen = true;
        for start in [off, frozen] {
            for start in [&start, &with_bits(start.clone(), RASEMU)] {
                for (word, ..) in WORDS {
                    assert_nothing(start, word);
                }
            }
        }
    }
}

/// Table jumps with a link call, those without do nothing, and pop-returns pop. Inhibits are not asked.
#[test]
fn words_under_rasemu_call_and_return() {
    for mode in Mode::ALL {
        let start = with_bits(machine(true, mode, &[mode]), RASEMU | ALL_INHIBITS);
        for (word, number, _) in WORDS {
            let expected = match number {
                9 => pushed(&start, entry(0x1001, 0x2000, 9)),
                13 => popped(&start),
                _ => (0, start.clone()),
            };
            assert_eq!(outcome(&start, retired(word)), expected, "{word:#x}");
        }
    }
}

/// Calls and returns of both kinds go with each other.
#[test]
fn a_stack_of_calls_through_the_table() {
    let mut machine = with_bits(Machine::reset(true), RASEMU);
    switch_on(&mut machine.registers, &[M]);
    let events = [
        // word, value, WRPTR
        (CM_JALT, 1, 1),
        (DIRECT_CALL, 1, 2),
        (CM_POPRET, 2, 1),
        (CM_JALT, 1, 2),
        (RETURN, 2, 1),
        (CM_POPRETZ, 2, 0),
        (CM_POPRETZ, 2, 15),
    ];
    for (word, expected, wrptr) in events {
        let (value, after) = outcome(&machine, retired(word));
        assert_eq!((value, after.registers.wrptr), (expected, wrptr));
        machine = after;
    }
    assert!(machine.entries.iter().all(|entry| entry.ctrsource & 1 == 0));
}

/// Of every word where C.FSDSP lies, the record has the type that the classifier gives it, under any
/// upper half.
#[test]
fn all_words_in_place_of_c_fsdsp_are_recorded_as_classified() {
    for zc in FLAGS {
        let start = machine(zc, U, &[U]);
        let mut count = 0;
        for code in 0..1 << 11 {
            for upper in [0, 0xFFFF_0000, 0x0067_0000] {
                let word = upper | 0xA002 | code << 2;
                let expected = match transfer_type(word, true, zc) {
                    0 => (0, start.clone()),
                    number => recorded(&start, entry(0x1001, 0x2000, number.into())),
                };
                let result = outcome(&start, retired(word));
                assert_eq!(result, expected, "{word:#x}");
                count += result.0;
            }
        }
        assert_eq!(count, if zc { 3 * 352 } else { 0 });
    }
}

fn after_cycles(start: &Machine, word: u32, cycles: u32) -> Machine {
    outcome(start, retired_with(word, true, false, cycles)).1
}

/// They are retired words of a mode that is on, of a type or not.
#[test]
fn cycles_of_words_that_are_not_recorded_count() {
    for (word, _, inhibit) in WORDS {
        let off = machine(false, S, &[S]);
        let inhibited = with_bits(machine(true, S, &[S]), inhibit);
        for start in [off, inhibited] {
            let mut expected = start.clone();
            expected.registers.cycles = 7;
            assert_eq!(after_cycles(&start, word, 7), expected);
        }
    }
}

#[test]
fn cycles_of_words_that_are_recorded_are_in_the_record() {
    for (word, number, _) in WORDS {
        let start = after_cycles(&machine(true, S, &[S]), NOP, 5);
        let after = after_cycles(&start, word, 7);
        assert_eq!(after.entries[NEXT].ctrdata, 12 << 16 | number);
        assert_eq!((after.registers.cycles, after.registers.ccv), (0, true));
    }
}

/// Each of the words as a row, behind the one that turns M on.
#[test]
fn a_run_over_rows_goes_by_the_switch() {
    let words = WORDS.map(|(word, ..)| [0, word.into(), 0x1000, 0x2000]);
    let rows = [&[[0x103, 0x34E, 4, 0]], &words[..]].concat().concat();
    let whole = Outcome {
        number: 0,
        count: 13,
    };
    for zc in FLAGS {
        let (mut machine, mut answers) = (Machine::reset(zc), [9; 26]);
        assert_eq!(machine.run(&rows, &mut answers), whole);
        assert_eq!(answers[..2], [0, 0]);
        assert_eq!(answers[2..], [0, u64::from(zc)].repeat(12));
        assert_eq!(machine.registers.wrptr, if zc { 12 } else { 0 });
        assert_eq!(machine.registers.zc, zc);
    }
}
