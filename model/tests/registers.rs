//! What registers and entries read, and what writes make of them, where the access is granted
//! (docs/RULES.md).

use model::access::{Access, Answer, Operation};
use model::digest::{xorshift64, SEED};
use model::registers::csr::{
    self, MCTRCTL, SCTRCTL, SCTRDEPTH, SCTRSTATUS, SISELECT, VSCTRCTL, VSISELECT,
};
use model::registers::{Entry, Mode, Registers};

const SIREG: [u64; 6] = [
    csr::SIREG,
    csr::SIREG2,
    csr::SIREG3,
    csr::SIREG4,
    csr::SIREG5,
    csr::SIREG6,
];
const VSIREG: [u64; 6] = [
    csr::VSIREG,
    csr::VSIREG2,
    csr::VSIREG3,
    csr::VSIREG4,
    csr::VSIREG5,
    csr::VSIREG6,
];

/// The depth codes and what they stand for, said here once more.
const DEPTHS: [(u64, u64); 5] = [(0, 16), (1, 32), (2, 64), (3, 128), (4, 256)];

/// Both state enables are set, and all else is as after a reset.
fn registers(mode: Mode) -> Registers {
    Registers {
        mode,
        mstateen0_ctr: true,
        hstateen0_ctr: true,
        ..Registers::reset(false)
    }
}

/// The value of a granted access.
fn value(
    registers: &mut Registers,
    entry: &mut Entry,
    operation: Operation,
    csr: u64,
    operand: u64,
) -> u64 {
    let access = Access {
        operation,
        csr,
        operand,
    };
    let Answer { number, value } = registers.access(entry, access);
    assert_eq!(number, 0, "access {access:x?} in {registers:x?}");
    value
}

/// Reads a register that is no ireg.
fn read(registers: &mut Registers, csr: u64) -> u64 {
    let read = Operation::Read;
    value(registers, &mut Entry::default(), read, csr, u64::MAX)
}

/// Writes a register that is no ireg.
fn write(registers: &mut Registers, csr: u64, operand: u64) -> u64 {
    let write = Operation::Write;
    value(registers, &mut Entry::default(), write, csr, operand)
}

#[test]
fn mctrctl_and_its_window_sctrctl() {
    let mut registers = registers(Mode::M);
    assert_eq!(write(&mut registers, MCTRCTL, u64::MAX), 0);
    assert_eq!(read(&mut registers, MCTRCTL), 0x0000_FF3E_0000_1B87);
    registers.mode = Mode::S;
    assert_eq!(read(&mut registers, SCTRCTL), 0x0000_FF3E_0000_1983);
    write(&mut registers, SCTRCTL, 0);
    assert_eq!(registers.mctrctl, 0x204);
    assert_eq!(registers.vsctrctl, 0);
}

/// sctrctl is the window in M too, and M and MTE are not to be had through it.
#[test]
fn sctrctl_from_m_keeps_m_and_mte() {
    for mode in [Mode::S, Mode::M] {
        let mut registers = registers(mode);
        registers.mctrctl = 0x004;
        assert_eq!(write(&mut registers, SCTRCTL, u64::MAX), 0);
        assert_eq!(registers.mctrctl, 0x0000_FF3E_0000_1987);
    }
}

#[test]
fn vsctrctl_has_the_mask_of_sctrctl() {
    for mode in [Mode::S, Mode::M] {
        let mut registers = registers(mode);
        assert_eq!(write(&mut registers, VSCTRCTL, u64::MAX), 0);
        assert_eq!(read(&mut registers, VSCTRCTL), 0x0000_FF3E_0000_1983);
        assert_eq!(registers.mctrctl, 0);
    }
}

#[test]
fn sctrctl_in_vs_is_vsctrctl() {
    let mut registers = registers(Mode::VS);
    registers.mctrctl = 0x206;
    assert_eq!(write(&mut registers, SCTRCTL, u64::MAX), 0);
    assert_eq!(registers.vsctrctl, 0x0000_FF3E_0000_1983);
    assert_eq!(registers.mctrctl, 0x206);
    assert_eq!(read(&mut registers, SCTRCTL), 0x0000_FF3E_0000_1983);
}

#[test]
fn sctrstatus_holds_wrptr_and_frozen() {
    let cases = [
        // depth code, written, read
        (0, 0x8000_001F, 0x8000_000F),
        (0, 0x0000_0010, 0),
        (1, 0x8000_003F, 0x8000_001F),
        (3, 0x0000_00FF, 0x0000_007F),
        (3, 0x0000_0180, 0),
        (3, 0xFFFF_FFFF_7FFF_FF05, 0x0000_0005),
        (3, u64::MAX, 0x8000_007F),
        (4, 0x0000_00FF, 0x0000_00FF),
        (4, 0x8000_0080, 0x8000_0080),
        (4, 0x0000_0100, 0),
        (4, 0xFFFF_FFFF_7FFF_FFFF, 0x0000_00FF),
        (4, u64::MAX, 0x8000_00FF),
    ];
    for (depth_code, written, expected) in cases {
        let mut registers = Registers {
            depth_code,
            ..registers(Mode::M)
        };
        assert_eq!(write(&mut registers, SCTRSTATUS, written), 0);
        assert_eq!(read(&mut registers, SCTRSTATUS), expected);
        assert_eq!(registers.wrptr, expected & 0xFF);
        assert_eq!(registers.frozen, expected >> 31 == 1);
    }
}

/// There is one sctrstatus: VS reaches it too.
#[test]
fn sctrstatus_from_vs_is_the_same() {
    let mut registers = registers(Mode::VS);
    write(&mut registers, SCTRSTATUS, 0x8000_0003);
    assert_eq!((registers.wrptr, registers.frozen), (3, true));
}

#[test]
fn sctrdepth_takes_three_bits_and_at_most_4() {
    let cases = [(0, 0), (1, 1), (2, 2), (3, 3), (4, 4), (5, 4), (6, 4)];
    let more = [(7, 4), (8, 0), (9, 1), (12, 4), (u64::MAX, 4), (1 << 32, 0)];
    for (written, expected) in cases.into_iter().chain(more) {
        let mut registers = registers(Mode::S);
        assert_eq!(write(&mut registers, SCTRDEPTH, written), 0);
        assert_eq!(read(&mut registers, SCTRDEPTH), expected);
    }
}

#[test]
fn codes_0_to_4_are_the_depths_from_16_to_256() {
    for (depth_code, depth) in DEPTHS {
        let mut registers = registers(Mode::M);
        write(&mut registers, SCTRDEPTH, depth_code);
        assert_eq!(registers.depth(), depth);
    }
}

#[test]
fn sctrdepth_takes_wrptr_along() {
    let cases = [(0, 0x0D), (1, 0x1D), (2, 0x3D), (3, 0x7D), (4, 0xFD)];
    for (written, wrptr) in cases.into_iter().chain([(7, 0xFD), (8, 0x0D)]) {
        let mut registers = Registers {
            depth_code: 4,
            wrptr: 0xFD,
            frozen: true,
            ..registers(Mode::M)
        };
        assert_eq!(write(&mut registers, SCTRDEPTH, written), 4);
        assert_eq!(registers.wrptr, wrptr);
        assert!(registers.frozen);
    }
}

#[test]
fn wrptr_stays_as_the_depth_grows() {
    for (depth_code, depth) in DEPTHS {
        for written in depth_code..8 {
            let mut registers = Registers {
                depth_code,
                wrptr: depth - 1,
                ..registers(Mode::M)
            };
            assert_eq!(write(&mut registers, SCTRDEPTH, written), depth_code);
            assert_eq!(registers.depth_code, written.min(4));
            assert_eq!(registers.wrptr, depth - 1);
        }
    }
}

#[test]
fn set_and_clear_work_on_the_old_reading() {
    let start = Registers {
        mctrctl: 0x206,
        vsctrctl: 0x101,
        depth_code: 2,
        wrptr: 0x15,
        frozen: true,
        ..registers(Mode::M)
    };
    let cases = [
        // number, old reading, operand, reading after set, reading after clear
        (MCTRCTL, 0x206, 0x403, 0x207, 0x204),
        (SCTRCTL, 0x002, 0x207, 0x003, 0x000),
        (VSCTRCTL, 0x101, 0x303, 0x103, 0x000),
        (SCTRSTATUS, 0x8000_0015, 0xC1, 0x8000_0015, 0x8000_0014),
        (SCTRSTATUS, 0x8000_0015, 1 << 31, 0x8000_0015, 0x0000_0015),
        (SCTRDEPTH, 2, 1, 3, 2),
        (SCTRDEPTH, 2, 4, 4, 2),
        (SCTRDEPTH, 2, 5, 4, 2),
        (SCTRDEPTH, 2, 2, 2, 0),
    ];
    for (csr, old, operand, set, cleared) in cases {
        for (operation, new) in [(Operation::Set, set), (Operation::Clear, cleared)] {
            let mut registers = start;
            let entry = &mut Entry::default();
            assert_eq!(value(&mut registers, entry, operation, csr, operand), old);
            assert_eq!(read(&mut registers, csr), new, "{operation:?} {csr:#x}");
        }
    }
}

/// Code 4 with more bits is still 4, and without its own bit it is 0.
#[test]
fn set_and_clear_at_the_largest_depth() {
    let cases = [
        // depth code, operand, reading after set, reading after clear
        (3, 4, 4, 3),
        (0, 5, 4, 0),
        (1, 12, 4, 1),
        (4, 0, 4, 4),
        (4, 3, 4, 4),
        (4, 4, 4, 0),
        (4, 7, 4, 0),
        (4, 8, 4, 4),
        (4, u64::MAX, 4, 0),
    ];
    for (depth_code, operand, set, cleared) in cases {
        for (operation, new) in [(Operation::Set, set), (Operation::Clear, cleared)] {
            let wrptr = (16 << depth_code) - 1;
            let mut registers = Registers {
                depth_code,
                wrptr,
                ..registers(Mode::S)
            };
            let entry = &mut Entry::default();
            let old = value(&mut registers, entry, operation, SCTRDEPTH, operand);
            assert_eq!((old, registers.depth_code), (depth_code, new));
            assert_eq!(registers.wrptr, wrptr % (16 << new));
        }
    }
}

#[test]
fn set_and_clear_through_sctrctl_keep_m_and_mte() {
    for operation in [Operation::Set, Operation::Clear] {
        let mut registers = registers(Mode::S);
        registers.mctrctl = 0x204;
        let entry = &mut Entry::default();
        value(&mut registers, entry, operation, SCTRCTL, 0x204);
        assert_eq!(registers.mctrctl, 0x204);
    }
}

#[test]
fn select_registers_hold_64_bits() {
    for mode in [Mode::S, Mode::M] {
        let mut registers = registers(mode);
        write(&mut registers, SISELECT, 0xFEDC_BA98_7654_3210);
        write(&mut registers, VSISELECT, 0x0123_4567_89AB_CDEF);
        assert_eq!(read(&mut registers, SISELECT), 0xFEDC_BA98_7654_3210);
        assert_eq!(read(&mut registers, VSISELECT), 0x0123_4567_89AB_CDEF);
        assert_eq!(registers.siselect, 0xFEDC_BA98_7654_3210);
        assert_eq!(registers.vsiselect, 0x0123_4567_89AB_CDEF);
    }
}

#[test]
fn siselect_in_vs_is_vsiselect() {
    let mut registers = registers(Mode::VS);
    registers.siselect = 5;
    assert_eq!(write(&mut registers, SISELECT, u64::MAX), 0);
    assert_eq!(read(&mut registers, SISELECT), u64::MAX);
    assert_eq!((registers.siselect, registers.vsiselect), (5, u64::MAX));
}

const fn entry(ctrsource: u64, ctrtarget: u64, ctrdata: u64) -> Entry {
    Entry {
        ctrsource,
        ctrtarget,
        ctrdata,
    }
}

/// All bits are set, undefined ones too.
const FULL: Entry = entry(u64::MAX, u64::MAX, u64::MAX);

/// All bits are set but undefined ones.
const DEFINED: Entry = entry(u64::MAX, u64::MAX, 0xFFFF_800F);

/// Logical entry 0 is selected, whatever the mode and the ireg.
fn selecting(mode: Mode) -> Registers {
    Registers {
        siselect: 0x200,
        vsiselect: 0x200,
        ..registers(mode)
    }
}

/// Of an entry with all bits set, ireg by ireg: what is read, and the words after a write of 0.
const IREGS: [(u64, Entry); 6] = [
    (u64::MAX, entry(0, u64::MAX, u64::MAX)),
    (u64::MAX, entry(u64::MAX, 0, u64::MAX)),
    (0xFFFF_800F, entry(u64::MAX, u64::MAX, 0)),
    (0, FULL),
    (0, FULL),
    (0, FULL),
];

#[test]
fn iregs_reach_the_words_of_an_entry() {
    let sireg = [Mode::S, Mode::M, Mode::VS].map(|mode| (mode, SIREG));
    let vsireg = [Mode::S, Mode::M].map(|mode| (mode, VSIREG));
    for (mode, numbers) in sireg.into_iter().chain(vsireg) {
        for (csr, (reading, zeroed)) in numbers.into_iter().zip(IREGS) {
            let mut registers = selecting(mode);
            let mut entry = FULL;
            let read = value(&mut registers, &mut entry, Operation::Read, csr, 0);
            assert_eq!((read, entry), (reading, FULL), "{mode:?} {csr:#x}");
            let old = value(&mut registers, &mut entry, Operation::Write, csr, 0);
            assert_eq!((old, entry), (reading, zeroed), "{mode:?} {csr:#x}");
            assert_eq!(registers, selecting(mode));
        }
    }
}

/// The modes and the CSR numbers through which ctrtarget is reached.
const CTRTARGETS: [(Mode, u64); 5] = [
    (Mode::S, csr::SIREG2),
    (Mode::M, csr::SIREG2),
    (Mode::VS, csr::SIREG2),
    (Mode::S, csr::VSIREG2),
    (Mode::M, csr::VSIREG2),
];

/// Bit 0, MISP, as well as those of the address.
#[test]
fn each_bit_of_ctrtarget_is_written_and_read() {
    for (mode, csr) in CTRTARGETS {
        for bit in 0..64 {
            let mut registers = selecting(mode);
            let mut kept = Entry::default();
            let write = Operation::Write;
            value(&mut registers, &mut kept, write, csr, 1 << bit);
            assert_eq!(kept, entry(0, 1 << bit, 0), "{mode:?} {csr:#x} bit {bit}");
            let read = value(&mut registers, &mut kept, Operation::Read, csr, 0);
            assert_eq!((read, kept), (1 << bit, entry(0, 1 << bit, 0)));
        }
    }
}

/// Each operation with MISP in its operand or not, on ctrtarget with MISP or not. Of the address
/// only writes change anything here.
#[test]
fn misp_is_written_set_and_cleared() {
    let cases = [
        // operation, operand, ctrtarget before and after
        (Operation::Read, 1, 0x2000, 0x2000),
        (Operation::Read, 1, 0x2001, 0x2001),
        (Operation::Write, 0x3000, 0x2000, 0x3000),
        (Operation::Write, 0x3000, 0x2001, 0x3000),
        (Operation::Write, 0x3001, 0x2000, 0x3001),
        (Operation::Write, 0x3001, 0x2001, 0x3001),
        (Operation::Write, 0, 0x2001, 0),
        (Operation::Write, 1, 0x2000, 1),
        (Operation::Set, 0, 0x2000, 0x2000),
        (Operation::Set, 0, 0x2001, 0x2001),
        (Operation::Set, 1, 0x2000, 0x2001),
        (Operation::Set, 1, 0x2001, 0x2001),
        (Operation::Clear, 0, 0x2000, 0x2000),
        (Operation::Clear, 0, 0x2001, 0x2001),
        (Operation::Clear, 1, 0x2000, 0x2000),
        (Operation::Clear, 1, 0x2001, 0x2000),
    ];
    for (mode, csr) in CTRTARGETS {
        for (operation, operand, before, after) in cases {
            let mut registers = selecting(mode);
            let mut changed = entry(0x1000, before, 9);
            let old = value(&mut registers, &mut changed, operation, csr, operand);
            assert_eq!(old, before, "{mode:?} {csr:#x} {operation:?}");
            assert_eq!(changed, entry(0x1000, after, 9), "{mode:?} {csr:#x}");
            assert_eq!(registers, selecting(mode));
        }
    }
}

/// CCE, CCM, CCV and TYPE are written and read, and no other bit is.
#[test]
fn each_bit_of_ctrdata_is_kept_or_not() {
    for bit in 0..64 {
        let mut registers = selecting(Mode::S);
        let mut entry = Entry::default();
        let write = Operation::Write;
        value(&mut registers, &mut entry, write, SIREG[2], 1 << bit);
        let is_kept = matches!(bit, 0..=3 | 15 | 16..=31);
        let expected = u64::from(is_kept) << bit;
        assert_eq!(entry.ctrdata, expected, "bit {bit}");
        entry.ctrdata = 1 << bit;
        let read = value(&mut registers, &mut entry, Operation::Read, SIREG[2], 0);
        assert_eq!((read, entry.ctrdata), (expected, 1 << bit), "bit {bit}");
    }
}

#[test]
fn a_written_entry_has_no_undefined_bits() {
    let mut registers = selecting(Mode::S);
    let mut entry = Entry::default();
    for csr in SIREG {
        let old = value(&mut registers, &mut entry, Operation::Write, csr, u64::MAX);
        assert_eq!(old, 0);
    }
    assert_eq!(entry, DEFINED);
}

/// With operand 0 too: the word becomes what was read of it.
#[test]
fn set_and_clear_drop_undefined_bits_of_an_entry() {
    for operation in [Operation::Set, Operation::Clear] {
        let mut registers = selecting(Mode::S);
        let mut entry = FULL;
        for csr in SIREG {
            value(&mut registers, &mut entry, operation, csr, 0);
        }
        assert_eq!(entry, DEFINED);
    }
}

/// The last selection that is an entry, and the next one, which reads 0 and is not changed by the
/// writes that are granted. At depth 256 all selections of the window are entries.
#[test]
fn entries_from_depth_on_read_0() {
    for (depth_code, last) in [(0, 0x20F), (1, 0x21F), (2, 0x23F), (3, 0x27F)] {
        for (selection, is_entry) in [(0x200, true), (last, true), (last + 1, false)] {
            check_selection(depth_code, selection, is_entry);
        }
        check_selection(depth_code, 0x2FF, false);
    }
    for selection in [0x200, 0x27F, 0x280, 0x2FF] {
        check_selection(4, selection, true);
    }
}

fn check_selection(depth_code: u64, selection: u64, is_entry: bool) {
    let mut registers = Registers {
        depth_code,
        siselect: selection,
        ..registers(Mode::S)
    };
    let mut entry = FULL;
    let set = value(&mut registers, &mut entry, Operation::Set, SIREG[0], 0);
    let old = value(&mut registers, &mut entry, Operation::Write, SIREG[0], 1);
    let expected = if is_entry { u64::MAX } else { 0 };
    assert_eq!((set, old), (expected, expected), "{selection:#x}");
    assert_eq!(entry.ctrsource, if is_entry { 1 } else { u64::MAX });
}

/// sireg* go by siselect with V=0 and by vsiselect with V=1; vsireg* go by vsiselect.
#[test]
fn the_selection_that_counts() {
    for (mode, csr, goes_by_vsiselect) in [
        (Mode::S, SIREG[0], false),
        (Mode::M, SIREG[0], false),
        (Mode::VS, SIREG[0], true),
        (Mode::S, VSIREG[0], true),
        (Mode::M, VSIREG[0], true),
    ] {
        for (siselect, vsiselect) in [(0x200, 0x2FF), (0x2FF, 0x200)] {
            let mut registers = Registers {
                siselect,
                vsiselect,
                ..registers(mode)
            };
            let counts = if goes_by_vsiselect {
                vsiselect
            } else {
                siselect
            };
            let read = value(&mut registers, &mut FULL.clone(), Operation::Read, csr, 0);
            assert_eq!(read != 0, counts == 0x200, "{mode:?} {csr:#x}");
        }
    }
}

#[test]
fn bad_states() {
    let bad = |change: fn(&mut Registers)| {
        let mut registers = registers(Mode::M);
        change(&mut registers);
        registers.is_bad()
    };
    assert!(!bad(|_| {}));
    assert!(!bad(|r| r.depth_code = 4));
    assert!(bad(|r| r.depth_code = 5));
    assert!(bad(|r| r.depth_code = 7));
    assert!(bad(|r| r.depth_code = 8));
    assert!(bad(|r| r.depth_code = 1 << 32 | 4));
    assert!(bad(|r| r.depth_code = u64::MAX));
    assert!(bad(|r| r.wrptr = 16));
    assert!(bad(|r| r.wrptr = u64::MAX));
    assert!(!bad(|r| (r.depth_code, r.wrptr) = (1, 31)));
    assert!(bad(|r| (r.depth_code, r.wrptr) = (1, 32)));
    assert!(!bad(|r| (r.depth_code, r.wrptr) = (3, 127)));
    assert!(bad(|r| (r.depth_code, r.wrptr) = (3, 128)));
    assert!(!bad(|r| (r.depth_code, r.wrptr) = (4, 128)));
    assert!(!bad(|r| (r.depth_code, r.wrptr) = (4, 255)));
    assert!(bad(|r| (r.depth_code, r.wrptr) = (4, 256)));
    assert!(bad(|r| (r.depth_code, r.wrptr) = (4, u64::MAX)));
    assert!(!bad(|r| r.mctrctl = 0x0000_FF3E_0000_1B87));
    assert!(!bad(|r| r.vsctrctl = 0x0000_FF3E_0000_1983));
    assert!(!bad(|r| (r.siselect, r.vsiselect) = (u64::MAX, u64::MAX)));
    assert!(!bad(|r| r.mstateen0_ctr = false));
    assert!(!bad(|r| (r.cycles, r.ccv) = ((1 << 27) - 1, true)));
    assert!(bad(|r| r.cycles = 1 << 27));
    assert!(bad(|r| r.cycles = 1 << 32));
    assert!(bad(|r| r.cycles = u64::MAX));
}

#[test]
fn every_control_bit_outside_its_mask_is_bad() {
    for bit in 0..64 {
        let mut registers = registers(Mode::M);
        registers.mctrctl = 1 << bit;
        let is_bad = 0x0000_FF3E_0000_1B87_u64 >> bit & 1 == 0;
        assert_eq!(registers.is_bad(), is_bad, "bit {bit} of mctrctl");
        (registers.mctrctl, registers.vsctrctl) = (0, 1 << bit);
        let is_bad = 0x0000_FF3E_0000_1983_u64 >> bit & 1 == 0;
        assert_eq!(registers.is_bad(), is_bad, "bit {bit} of vsctrctl");
    }
}

/// Counted down from WRPTR, step by step.
#[test]
fn logical_entries_go_back_from_wrptr() {
    for (depth_code, depth) in DEPTHS {
        for wrptr in 0..depth {
            let registers = Registers {
                depth_code,
                wrptr,
                ..Registers::reset(false)
            };
            let mut place = wrptr;
            for i in 0..depth {
                place = if place == 0 { depth - 1 } else { place - 1 };
                assert_eq!(registers.physical_entry(i), place);
            }
        }
    }
}

/// A good state, and an entry, out of pseudo-random numbers.
fn random_state(next: &mut impl FnMut() -> u64) -> (Registers, Entry) {
    let depth_code = next() % 5;
    let registers = Registers {
        mode: Mode::ALL[next() as usize % 5],
        mctrctl: next() & 0x0000_FF3E_0000_1B87,
        vsctrctl: next() & 0x0000_FF3E_0000_1983,
        depth_code,
        wrptr: next() % (16 << depth_code),
        frozen: next() % 2 == 1,
        siselect: 0x1F0 + next() % 0x120,
        vsiselect: 0x1F0 + next() % 0x120,
        mstateen0_ctr: next() % 4 < 3,
        hstateen0_ctr: next() % 4 < 3,
        cycles: next() % (1 << 27),
        ccv: next() % 2 == 1,
        zc: next() % 2 == 1,
    };
    (registers, entry(next(), next(), next()))
}

/// In good states of all modes: a read changes nothing, the other operations have its value, and
/// set and clear do what a write of the number computed from it does.
#[test]
fn operations_agree_in_random_states() {
    let others = [
        SCTRCTL, SCTRSTATUS, SISELECT, SCTRDEPTH, VSCTRCTL, VSISELECT, MCTRCTL,
    ];
    let numbers = [&others[..], &SIREG, &VSIREG].concat();
    let mut x = SEED;
    let mut next = || {
        x = xorshift64(x);
        x
    };
    for _ in 0..20_000 {
        let state = random_state(&mut next);
        let csr = numbers[next() as usize % numbers.len()];
        check_operations(state, csr, next());
    }
}

fn check_operations(state: (Registers, Entry), csr: u64, operand: u64) {
    let outcome = |operation, operand| {
        let (mut registers, mut entry) = state;
        let access = Access {
            operation,
            csr,
            operand,
        };
        let answer = registers.access(&mut entry, access);
        (answer, (registers, entry))
    };
    let (answer, after) = outcome(Operation::Read, operand);
    assert_eq!(after, state);
    let old = answer.value;
    let set = outcome(Operation::Set, operand);
    let cleared = outcome(Operation::Clear, operand);
    assert_eq!(set, outcome(Operation::Write, old | operand));
    assert_eq!(cleared, outcome(Operation::Write, old & !operand));
    assert_eq!((set.0, cleared.0), (answer, answer));
}
