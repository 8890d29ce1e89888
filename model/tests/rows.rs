//! The row format: what each kind of event is as a row, and which rows are malformed.

use model::access::{Access, Operation};
use model::recorder::{Event, Retired, Trap, TrapReturn};
use model::registers::Mode;
use model::replay::{bytes_of, decode, encode, row_of, Row, ROW_BYTES};

const RETIRED: u64 = 0;
const TRAP: u64 = 1;
const TRAP_RETURN: u64 = 2;
const ACCESS: u64 = 3;
const SCTRCLR: u64 = 4;
const HOST: u64 = 5;

const CALL: Retired = Retired {
    word: 0x0000_00ef,
    pc: 0x1000,
    target: 0x2000,
    taken: false,
    mispredicted: false,
    cycles: 0,
};

const EXCEPTION: Trap = Trap {
    target_mode: Mode::S,
    is_interrupt: false,
    cause: u64::MAX,
    epc: 0x3000,
    handler: 0x4000,
    cycles: 0,
};

const RETURN: TrapReturn = TrapReturn {
    target_mode: Mode::VU,
    pc: 0x5000,
    target: 0x6000,
    cycles: 0,
};

/// Rows written out by hand, beside their events.
fn samples() -> Vec<(Row, Event)> {
    let taken = Retired {
        taken: true,
        ..CALL
    };
    let mispredicted = Retired {
        mispredicted: true,
        ..CALL
    };
    let both = Retired {
        mispredicted: true,
        ..taken
    };
    let interrupt = Trap {
        target_mode: Mode::VS,
        is_interrupt: true,
        ..EXCEPTION
    };
    vec![
        ([0x000, 0xef, 0x1000, 0x2000], Event::Retired(CALL)),
        ([0x100, 0xef, 0x1000, 0x2000], Event::Retired(taken)),
        ([0x200, 0xef, 0x1000, 0x2000], Event::Retired(mispredicted)),
        ([0x300, 0xef, 0x1000, 0x2000], Event::Retired(both)),
        ([0x101, u64::MAX, 0x3000, 0x4000], Event::Trap(EXCEPTION)),
        ([0xC01, u64::MAX, 0x3000, 0x4000], Event::Trap(interrupt)),
        ([0x302, 0, 0x5000, 0x6000], Event::TrapReturn(RETURN)),
        ([0x003, 0x34E, u64::MAX, 0], access_event(Operation::Read)),
        ([0x103, 0x34E, u64::MAX, 0], access_event(Operation::Write)),
        ([0x203, 0x34E, u64::MAX, 0], access_event(Operation::Set)),
        ([0x303, 0x34E, u64::MAX, 0], access_event(Operation::Clear)),
        ([0x004, 0, 0, 0], Event::Sctrclr),
        ([0x005, 0, 0, 0], host_event(false, false)),
        ([0x105, 0, 0, 0], host_event(true, false)),
        ([0x205, 0, 0, 0], host_event(false, true)),
        ([0x305, 0, 0, 0], host_event(true, true)),
    ]
}

fn access_event(operation: Operation) -> Event {
    Event::Access(Access {
        operation,
        csr: 0x34E,
        operand: u64::MAX,
    })
}

fn host_event(mstateen0_ctr: bool, hstateen0_ctr: bool) -> Event {
    Event::Host {
        mstateen0_ctr,
        hstateen0_ctr,
    }
}

#[test]
fn rows_and_events_stand_for_each_other() {
    for (row, event) in samples() {
        assert_eq!(decode(row), Ok(event));
        assert_eq!(encode(event), row);
    }
}

/// Beside the other fields of word 0, with each bit that cycles have.
#[test]
fn cycles_are_the_upper_half_of_word_0() {
    let powers = (0..32).map(|place| 1 << place);
    for cycles in powers.chain([0, 0x1234_5678, u32::MAX]) {
        let retired = Event::Retired(Retired {
            taken: true,
            cycles,
            ..CALL
        });
        let trap = Event::Trap(Trap {
            is_interrupt: true,
            cycles,
            ..EXCEPTION
        });
        let trap_return = Event::TrapReturn(TrapReturn { cycles, ..RETURN });
        let upper = u64::from(cycles) << 32;
        for (row, event) in [
            ([upper | 0x100, 0xef, 0x1000, 0x2000], retired),
            ([upper | 0x901, u64::MAX, 0x3000, 0x4000], trap),
            ([upper | 0x302, 0, 0x5000, 0x6000], trap_return),
        ] {
            assert_eq!(decode(row), Ok(event));
            assert_eq!(encode(event), row);
        }
    }
}

/// Bits 8 and 9, each without the other and with it, below any cycles and beside any addresses:
/// bit 0 of these is no flag.
#[test]
fn taken_and_mispredicted_are_flags_of_their_own() {
    for cycles in [0, 1, 0x1234_5678, u32::MAX] {
        for (flags, taken, mispredicted) in [
            (0x000, false, false),
            (0x100, true, false),
            (0x200, false, true),
            (0x300, true, true),
        ] {
            for address in [0, 1, 0x2000, 0x2001, u64::MAX] {
                let event = Event::Retired(Retired {
                    word: 0xFFFF_FFFF,
                    pc: address,
                    target: address,
                    taken,
                    mispredicted,
                    cycles,
                });
                let head = u64::from(cycles) << 32 | flags | RETIRED;
                let row = [head, 0xFFFF_FFFF, address, address];
                assert_eq!(decode(row), Ok(event));
                assert_eq!(encode(event), row);
            }
        }
    }
}

/// A part of a mode's code or of an operation's, the host's bit for hstateen0, or malformed.
#[test]
fn bit_9_is_something_else_in_other_kinds() {
    let trap = Trap {
        target_mode: Mode::M,
        cause: 0,
        epc: 0,
        handler: 0,
        ..EXCEPTION
    };
    let trap_return = TrapReturn {
        target_mode: Mode::M,
        pc: 0,
        target: 0,
        ..RETURN
    };
    let set = Access {
        operation: Operation::Set,
        csr: 0,
        operand: 0,
    };
    for (kind, expected) in [
        (TRAP, Ok(Event::Trap(trap))),
        (TRAP_RETURN, Ok(Event::TrapReturn(trap_return))),
        (ACCESS, Ok(Event::Access(set))),
        (SCTRCLR, Err(0)),
        (HOST, Ok(host_event(false, true))),
    ] {
        assert_eq!(decode([1 << 9 | kind, 0, 0, 0]), expected, "kind {kind}");
    }
}

#[test]
fn modes_go_by_their_codes() {
    for (code, mode) in (0..).zip([Mode::U, Mode::S, Mode::M, Mode::VU, Mode::VS]) {
        let trap = Event::Trap(Trap {
            target_mode: mode,
            ..EXCEPTION
        });
        let row = [code << 8 | TRAP, u64::MAX, 0x3000, 0x4000];
        assert_eq!(decode(row), Ok(trap));
        assert_eq!(encode(trap), row);
    }
}

#[test]
fn there_are_no_other_kinds() {
    for kind in 6..=0xFF {
        assert_eq!(decode([kind, 0, 0, 0]), Err(0));
    }
}

#[test]
fn there_are_no_other_mode_codes() {
    for code in 5..=7 {
        for (kind, fields) in [(TRAP, code), (TRAP, code | 8), (TRAP_RETURN, code)] {
            assert_eq!(decode([kind | fields << 8, 0, 0, 0]), Err(0));
            assert_eq!(decode([kind | fields << 8 | 1 << 32, 0, 0, 0]), Err(0));
        }
    }
}

/// Word 0 of each kind has as many bits above the kind as are given here. Three kinds have cycles
/// from bit 32 up.
#[test]
fn there_are_no_other_bits_in_word_0() {
    for (kind, bits, end) in [
        (RETIRED, 2, 32),
        (TRAP, 4, 32),
        (TRAP_RETURN, 3, 32),
        (ACCESS, 2, 64),
        (SCTRCLR, 0, 64),
        (HOST, 2, 64),
    ] {
        for place in 8 + bits..end {
            assert_eq!(decode([kind | 1 << place, 0, 0, 0]), Err(0), "bit {place}");
        }
        assert!(decode([kind, 0, 0, 0]).is_ok());
    }
}

#[test]
fn flags_of_a_retired_word_do_not_make_up_for_other_bits() {
    for flags in [0x000, 0x100, 0x200, 0x300] {
        for place in 10..32 {
            let head = 1 << place | flags | RETIRED;
            assert_eq!(decode([head, 0xef, 0x1000, 0x2000]), Err(0), "bit {place}");
        }
    }
}

/// Nor do cycles make up for what is wrong below them.
#[test]
fn cycles_have_no_part_in_the_other_rules() {
    let cycles = 0xFFFF_FFFF << 32;
    for head in [0x400, 1 << 31, 0x1001, 1 << 31 | 1, 0x802, 1 << 31 | 2, 6] {
        assert_eq!(decode([cycles | head, 0, 0, 0]), Err(0), "{head:#x}");
    }
    assert_eq!(decode([cycles | RETIRED, 1 << 32, 0, 0]), Err(1));
    assert_eq!(decode([cycles | TRAP_RETURN, 1, 0, 0]), Err(1));
}

#[test]
fn unused_words_are_zero() {
    let unused = [
        (TRAP_RETURN, 1),
        (ACCESS, 3),
        (SCTRCLR, 1),
        (SCTRCLR, 2),
        (SCTRCLR, 3),
        (HOST, 1),
        (HOST, 2),
        (HOST, 3),
    ];
    for (kind, word) in unused {
        for value in [1, 1 << 63] {
            let mut row = [kind, 0, 0, 0];
            row[word] = value;
            assert_eq!(decode(row), Err(word), "kind {kind}");
        }
    }
}

#[test]
fn instructions_have_32_bits_and_csr_numbers_12() {
    assert!(decode([RETIRED, 0xFFFF_FFFF, 0, 0]).is_ok());
    assert_eq!(decode([RETIRED, 0x1_0000_0000, 0, 0]), Err(1));
    assert!(decode([ACCESS, 4095, 0, 0]).is_ok());
    assert_eq!(decode([ACCESS, 4096, 0, 0]), Err(1));
}

#[test]
fn the_first_broken_word_is_named() {
    assert_eq!(decode([4 << 8 | RETIRED, u64::MAX, 0, 0]), Err(0));
    assert_eq!(decode([2 << 8 | RETIRED, u64::MAX, 0, 0]), Err(1));
    assert_eq!(decode([5 << 8 | TRAP_RETURN, 1, 0, 0]), Err(0));
    assert_eq!(decode([4 << 8 | ACCESS, 4096, 0, 1]), Err(0));
    assert_eq!(decode([ACCESS, 4096, 0, 1]), Err(1));
    assert_eq!(decode([SCTRCLR, 0, 1, 1]), Err(2));
    assert_eq!(decode([HOST, 1, 1, 1]), Err(1));
}

#[test]
fn words_of_rows_are_little_endian() {
    let row = [0x0807_0605_0403_0201, 0, 0xFF, 1 << 63];
    let bytes = bytes_of([row]);
    assert_eq!(bytes[..8], [1, 2, 3, 4, 5, 6, 7, 8]);
    assert_eq!(bytes[24..], [0, 0, 0, 0, 0, 0, 0, 0x80]);
    assert_eq!(row_of(bytes[..].try_into().expect("a row")), row);
    assert_eq!(bytes_of([row, row]).len(), 2 * ROW_BYTES);
}
