//! Who may access what: the access steps one by one, then all of them told mode by mode
//! (docs/RULES.md).

use model::access::{Access, Answer, Operation};
use model::digest::{xorshift64, SEED};
use model::registers::csr::*;
use model::registers::{Entry, Mode, Registers};

use Mode::*;

/// The numbers themselves, said here once more.
const LISTED: [u64; 19] = [
    0x14E, 0x14F, 0x15F, 0x24E, 0x34E, 0x150, 0x151, 0x152, 0x153, 0x155, 0x156, 0x157, 0x250,
    0x251, 0x252, 0x253, 0x255, 0x256, 0x257,
];

/// Numbers next to listed ones, numbers of other registers, and listed ones with a high bit set.
const UNLISTED: [u64; 16] = [
    0x000,
    0x14D,
    0x154,
    0x158,
    0x15E,
    0x160,
    0x180,
    0x24D,
    0x24F,
    0x254,
    0x258,
    0x25F,
    0x34F,
    0x350,
    0x114E,
    0x1_0000_014E,
];

/// A selection in the window and one outside it.
const IN: u64 = 0x205;
const OUT: u64 = 0x300;

const ENTRY: Entry = Entry {
    ctrsource: 0x1001,
    ctrtarget: 0x2000,
    ctrdata: 9,
};

/// `enables` are the CTR bits of mstateen0 and hstateen0, `selections` siselect and vsiselect.
fn registers(mode: Mode, enables: (u8, u8), selections: (u64, u64)) -> Registers {
    Registers {
        mode,
        siselect: selections.0,
        vsiselect: selections.1,
        mstateen0_ctr: enables.0 == 1,
        hstateen0_ctr: enables.1 == 1,
        cycles: 0x123,
        ccv: true,
        ..Registers::reset(false)
    }
}

/// The number that all four operations answer; a refusal must have the value 0.
fn number(start: Registers, csr: u64) -> u8 {
    let numbers = Operation::ALL.map(|operation| {
        let access = Access {
            operation,
            csr,
            operand: 1,
        };
        let answer = start.clone().access(&mut ENTRY.clone(), access);
        assert!(answer.number == 0 || answer.value == 0);
        answer.number
    });
    assert!(numbers.iter().all(|number| *number == numbers[0]));
    numbers[0]
}

/// The number that SCTRCLR answers; the entry and the cycle counter must be zero if it is granted
/// and stay otherwise.
fn sctrclr(start: Registers) -> u8 {
    let (mut registers, mut entry) = (start, ENTRY);
    let answer = registers.sctrclr(&mut entry);
    assert_eq!(answer.value, 0);
    let expected = if answer.number == 0 {
        let restarted = Registers {
            cycles: 0,
            ccv: false,
            ..start
        };
        (restarted, Entry::default())
    } else {
        (start, ENTRY)
    };
    assert_eq!((registers, entry), expected);
    answer.number
}

const ENABLES: [(u8, u8); 4] = [(0, 0), (1, 0), (0, 1), (1, 1)];

#[test]
fn number_5_comes_before_all_steps() {
    let bad: [fn(&mut Registers); 6] = [
        |r| r.depth_code = 5,
        |r| r.wrptr = 16,
        |r| (r.depth_code, r.wrptr) = (4, 256),
        |r| r.mctrctl = 1 << 3,
        |r| r.vsctrctl = 1 << 2,
        |r| r.cycles = 1 << 27,
    ];
    for change in bad {
        for mode in Mode::ALL {
            let mut registers = registers(mode, (1, 1), (IN, IN));
            change(&mut registers);
            for csr in LISTED.into_iter().chain(UNLISTED) {
                assert_eq!(number(registers, csr), 5, "{mode:?} {csr:#x}");
            }
            assert_eq!(sctrclr(registers), 5);
            let mut after = registers;
            let answer = after.set_state_enables(false, false);
            let expected = Answer {
                number: 5,
                value: 0,
            };
            assert_eq!((answer, after), (expected, registers));
        }
    }
}

/// Step 1.
#[test]
fn unlisted_numbers_answer_3_in_every_mode() {
    for mode in Mode::ALL {
        for enables in ENABLES {
            for csr in UNLISTED {
                let registers = registers(mode, enables, (IN, IN));
                assert_eq!(number(registers, csr), 3, "{mode:?} {csr:#x}");
            }
        }
    }
}

/// Step 2.
#[test]
fn mctrctl_is_for_m_alone() {
    for (mode, expected) in [(U, 1), (S, 1), (M, 0), (VU, 1), (VS, 1)] {
        for enables in ENABLES {
            let registers = registers(mode, enables, (IN, IN));
            assert_eq!(number(registers, MCTRCTL), expected, "{mode:?}");
        }
    }
}

/// Step 2.
#[test]
fn u_is_refused_everything() {
    for enables in ENABLES {
        for selections in [(IN, IN), (OUT, OUT)] {
            let registers = registers(U, enables, selections);
            for csr in LISTED {
                assert_eq!(number(registers, csr), 1, "{csr:#x}");
            }
            assert_eq!(sctrclr(registers), 1);
        }
    }
}

/// Step 3, without hstateen0.CTR and with it.
#[test]
fn mstateen0_shuts_all_modes_below_m() {
    let cases = [
        // number, then in S, M, VU and VS
        (SCTRCTL, [1, 0, 1, 1]),
        (VSCTRCTL, [1, 0, 1, 1]),
        (SCTRDEPTH, [1, 0, 1, 1]),
        (SCTRSTATUS, [1, 0, 1, 1]),
        (SIREG, [1, 0, 1, 1]),
        (SIREG6, [1, 0, 1, 1]),
        (VSIREG, [1, 0, 1, 1]),
        (VSIREG6, [1, 0, 1, 1]),
        (SISELECT, [0, 0, 2, 0]),
        (VSISELECT, [0, 0, 2, 2]),
    ];
    for (csr, expected) in cases {
        for enables in [(0, 0), (0, 1)] {
            let numbers = [S, M, VU, VS].map(|m| number(registers(m, enables, (IN, IN)), csr));
            assert_eq!(numbers, expected, "{csr:#x}");
        }
    }
}

/// Step 3: the selection that counts is that of the mode and the register.
#[test]
fn mstateen0_shuts_iregs_by_their_own_selection() {
    let cases = [
        // mode, number, siselect in and vsiselect out, siselect out and vsiselect in
        (S, SIREG, 1, 3),
        (S, VSIREG, 3, 1),
        (M, SIREG, 0, 3),
        (M, VSIREG, 3, 0),
        (VU, SIREG, 2, 1),
        (VU, VSIREG, 2, 1),
        (VS, SIREG, 3, 1),
        (VS, VSIREG, 2, 1),
    ];
    for (mode, csr, siselect_in, vsiselect_in) in cases {
        let numbers = [(IN, OUT), (OUT, IN)].map(|s| number(registers(mode, (0, 1), s), csr));
        assert_eq!(numbers, [siselect_in, vsiselect_in], "{mode:?} {csr:#x}");
    }
}

/// Step 4.
#[test]
fn vu_is_refused_what_the_steps_before_left() {
    for enables in [(1, 0), (1, 1)] {
        for selections in [(IN, IN), (IN, OUT), (OUT, IN), (OUT, OUT)] {
            let registers = registers(VU, enables, selections);
            for csr in LISTED.into_iter().filter(|csr| *csr != MCTRCTL) {
                assert_eq!(number(registers, csr), 2, "{csr:#x}");
            }
            assert_eq!(sctrclr(registers), 2);
        }
    }
}

/// Step 5: the VS numbers and sctrdepth, whatever hstateen0 says and vsiselect selects.
#[test]
fn numbers_that_vs_is_refused() {
    let numbers = [
        VSCTRCTL, SCTRDEPTH, VSISELECT, VSIREG, VSIREG3, VSIREG4, VSIREG6,
    ];
    for csr in numbers {
        for enables in [(1, 0), (1, 1)] {
            for selections in [(OUT, IN), (IN, OUT)] {
                let registers = registers(VS, enables, selections);
                assert_eq!(number(registers, csr), 2, "{csr:#x}");
            }
        }
    }
}

/// Step 5: what hstateen0.CTR opens to VS, and to nobody else.
#[test]
fn hstateen0_shuts_vs() {
    let cases = [
        // number, then in S, M and VS
        (SCTRCTL, [0, 0, 2]),
        (SCTRSTATUS, [0, 0, 2]),
        (SIREG, [0, 0, 2]),
        (SIREG3, [0, 0, 2]),
        (SIREG4, [0, 0, 2]),
        (SIREG6, [0, 0, 2]),
        (SISELECT, [0, 0, 0]),
        (VSCTRCTL, [0, 0, 2]),
        (VSIREG, [0, 0, 2]),
        (VSISELECT, [0, 0, 2]),
    ];
    for (csr, expected) in cases {
        let shut = [S, M, VS].map(|m| number(registers(m, (1, 0), (IN, IN)), csr));
        assert_eq!(shut, expected, "{csr:#x}");
    }
    for csr in [SCTRCTL, SCTRSTATUS, SIREG, SIREG3, SIREG4, SIREG6, SISELECT] {
        assert_eq!(number(registers(VS, (1, 1), (OUT, IN)), csr), 0);
    }
}

/// Step 6: an ireg goes by all 64 bits of its selection, at each depth.
#[test]
fn selections_outside_the_window_answer_3() {
    let cases = [
        (0, 3),
        (0x1FF, 3),
        (0x200, 0),
        (0x20F, 0),
        (0x210, 0),
        (0x280, 0),
        (0x2FF, 0),
        (0x300, 3),
        (0x1200, 3),
        (0x1_0000_0200, 3),
        (0x8000_0000_0000_0200, 3),
        (u64::MAX, 3),
    ];
    for (selection, expected) in cases {
        for depth_code in 0..5 {
            check_window(depth_code, selection, expected);
        }
    }
}

fn check_window(depth_code: u64, selection: u64, expected: u8) {
    let check = |start: Registers, csr| {
        let start = Registers {
            depth_code,
            ..start
        };
        assert_eq!(number(start, csr), expected, "{csr:#x} {start:x?}");
    };
    for csr in [SIREG, SIREG3, SIREG4, SIREG6] {
        for mode in [S, M] {
            check(registers(mode, (1, 0), (selection, IN)), csr);
        }
        check(registers(VS, (1, 1), (IN, selection)), csr);
    }
    for csr in [VSIREG, VSIREG3, VSIREG4, VSIREG6] {
        for mode in [S, M] {
            check(registers(mode, (1, 0), (IN, selection)), csr);
        }
    }
}

/// Step 6 holds whatever the state enables say, as the steps before ask them in the window only.
#[test]
fn outside_the_window_state_enables_are_not_asked() {
    for enables in ENABLES {
        for mode in [S, M, VS] {
            assert_eq!(number(registers(mode, enables, (OUT, OUT)), SIREG), 3);
        }
    }
}

#[test]
fn sctrclr_goes_by_the_steps() {
    let cases = [
        // mode, then with (0, 0), (1, 0), (0, 1) and (1, 1) in mstateen0 and hstateen0
        (U, [1, 1, 1, 1]),
        (S, [1, 0, 1, 0]),
        (M, [0, 0, 0, 0]),
        (VU, [1, 2, 1, 2]),
        (VS, [1, 2, 1, 0]),
    ];
    for (mode, expected) in cases {
        for selections in [(IN, IN), (OUT, OUT)] {
            let numbers = ENABLES.map(|enables| sctrclr(registers(mode, enables, selections)));
            assert_eq!(numbers, expected, "{mode:?}");
        }
    }
}

/// From every mode; hstateen0.CTR may be 1 alone.
#[test]
fn the_host_sets_both_bits_as_given() {
    for mode in Mode::ALL {
        for before in ENABLES {
            for (mstateen0, hstateen0) in ENABLES {
                let mut changed = registers(mode, before, (IN, OUT));
                let answer = changed.set_state_enables(mstateen0 == 1, hstateen0 == 1);
                let granted = Answer {
                    number: 0,
                    value: 0,
                };
                let expected = registers(mode, (mstateen0, hstateen0), (IN, OUT));
                assert_eq!((answer, changed), (granted, expected));
            }
        }
    }
}

#[test]
fn published_answers() {
    for (enables, expected) in [((1, 1), 2), ((1, 0), 2), ((0, 1), 1), ((0, 0), 1)] {
        assert_eq!(
            number(registers(VS, enables, (IN, IN)), SCTRDEPTH),
            expected
        );
    }
    let cases = [
        // depth code, selection, number and value
        (3, 0x27F, (0, 0x1001)),
        (3, 0x280, (0, 0)),
        (3, 0x2FF, (0, 0)),
        (3, 0x300, (3, 0)),
        (4, 0x27F, (0, 0x1001)),
        (4, 0x280, (0, 0x1001)),
        (4, 0x2FF, (0, 0x1001)),
        (4, 0x300, (3, 0)),
    ];
    for (depth_code, selection, expected) in cases {
        let mut registers = Registers {
            depth_code,
            ..registers(S, (1, 0), (selection, 0))
        };
        let access = Access {
            operation: Operation::Read,
            csr: SIREG,
            operand: 0,
        };
        let answer = registers.access(&mut ENTRY.clone(), access);
        assert_eq!((answer.number, answer.value), expected, "{selection:#x}");
    }
}

fn is_ireg(csr: u64) -> bool {
    matches!(csr & !0x300, 0x51..=0x53 | 0x55..=0x57)
}

/// The number of an access to a listed register, told mode by mode.
fn number_by_mode(registers: &Registers, csr: u64) -> u8 {
    let counts = if csr < 0x200 && matches!(registers.mode, S | M) {
        registers.siselect
    } else {
        registers.vsiselect
    };
    let is_outside = is_ireg(csr) && counts >> 8 != 2;
    let is_select = csr == SISELECT || csr == VSISELECT;
    let is_enabled_state = csr != MCTRCTL && !is_select && !is_outside;
    let is_shut = is_enabled_state && !registers.mstateen0_ctr;
    match registers.mode {
        U => 1,
        M if is_outside => 3,
        M => 0,
        _ if csr == MCTRCTL || is_shut => 1,
        S if is_outside => 3,
        S => 0,
        VU => 2,
        VS if csr >= 0x200 || csr == SCTRDEPTH => 2,
        VS if is_outside => 3,
        VS if is_enabled_state && !registers.hstateen0_ctr => 2,
        VS => 0,
    }
}

#[test]
fn all_numbers_answer_as_told_mode_by_mode() {
    const SELECTIONS: [u64; 5] = [0x1FF, 0x200, 0x2FF, 0x300, 0x8000_0000_0000_0200];
    for mode in Mode::ALL {
        for enables in ENABLES {
            for siselect in SELECTIONS {
                for vsiselect in SELECTIONS {
                    check_all_numbers(&registers(mode, enables, (siselect, vsiselect)));
                }
            }
        }
    }
}

fn check_all_numbers(registers: &Registers) {
    for csr in 0..0x1000 {
        let expected = if LISTED.contains(&csr) {
            number_by_mode(registers, csr)
        } else {
            3
        };
        assert_eq!(number(*registers, csr), expected, "{csr:#x} {registers:x?}");
    }
}

/// The last pseudo-random number that was drawn.
struct Random(u64);

impl Random {
    fn below(&mut self, bound: u64) -> u64 {
        self.word() % bound
    }

    fn bit(&mut self) -> bool {
        self.below(2) == 1
    }

    fn word(&mut self) -> u64 {
        self.0 = xorshift64(self.0);
        self.0
    }

    fn one_of<T: Copy>(&mut self, list: &[T]) -> T {
        list[self.below(list.len() as u64) as usize]
    }

    /// Bad in about half of the cases.
    fn registers(&mut self) -> Registers {
        let stray = self.word() & self.word() & self.one_of(&[0, 0, u64::MAX]);
        Registers {
            mode: self.one_of(&Mode::ALL),
            mctrctl: self.word() & 0x0000_FF3E_0000_1B87 | stray,
            vsctrctl: self.word() & 0x0000_FF3E_0000_1983,
            depth_code: self.below(6),
            wrptr: self.below(24),
            frozen: self.bit(),
            siselect: 0x180 + self.below(0x200),
            vsiselect: 0x180 + self.below(0x200),
            mstateen0_ctr: self.bit(),
            hstateen0_ctr: self.bit(),
            cycles: self.one_of(&[0, 1, 0x7FF_FFFF, 0x7FF_FFFF, 0x800_0000]),
            ccv: self.bit(),
            zc: self.bit(),
        }
    }

    fn entry(&mut self) -> Entry {
        Entry {
            ctrsource: self.word(),
            ctrtarget: self.word(),
            ctrdata: self.word(),
        }
    }

    fn access(&mut self) -> Access {
        let csr = match self.below(8) {
            0 => self.below(0x1000),
            _ => self.one_of(&LISTED),
        };
        Access {
            operation: self.one_of(&Operation::ALL),
            csr,
            operand: self.word(),
        }
    }

    /// Any event, most often an access.
    fn event(&mut self, registers: &mut Registers, entry: &mut Entry) -> Answer {
        match self.below(16) {
            0 => registers.sctrclr(entry),
            1 => registers.set_state_enables(self.bit(), self.bit()),
            _ => registers.access(entry, self.access()),
        }
    }
}

/// Granted or refused.
#[test]
fn no_event_changes_the_switch() {
    let mut random = Random(SEED);
    for _ in 0..200_000 {
        let before = random.registers();
        let (mut registers, mut entry) = (before, random.entry());
        random.event(&mut registers, &mut entry);
        assert_eq!(registers.zc, before.zc);
    }
}

#[test]
fn refusals_change_nothing() {
    let mut random = Random(SEED);
    let mut counts = [0; 6];
    for _ in 0..200_000 {
        let before = (random.registers(), random.entry());
        let (mut registers, mut entry) = before;
        let answer = random.event(&mut registers, &mut entry);
        if answer.number != 0 {
            assert_eq!((answer.value, (registers, entry)), (0, before));
        }
        assert_eq!(answer.number == 5, before.0.is_bad());
        assert_eq!(registers.is_bad(), before.0.is_bad());
        counts[usize::from(answer.number)] += 1;
    }
    assert!(
        [0, 1, 2, 3, 5].iter().all(|n| counts[*n] > 5_000),
        "{counts:?}"
    );
    assert_eq!(counts[4], 0);
}
