//! Random events in random states: what holds of every event (docs/RULES.md).

use std::mem;

use model::access::{Access, Operation};
use model::cycles::decoded;
use model::digest::{xorshift64, SEED};
use model::recorder::{Event, Machine, Retired, Trap, TrapReturn};
use model::registers::{Entry, Mode, Registers, MCTRCTL_MASK, SCTRCTL_MASK};

use Mode::*;

/// EXCINH to TRETINH, TKBRINH, INDCALLINH to DIRLJMPINH.
const ALL_INHIBITS: u64 = 0xFF2E << 32;

/// Where the cycle counter stays.
const TOP: u64 = 0x7FF_FFFF;

/// A branch, jumps of types 10, 11, 14 and 15, and calls, returns and swaps; then CM.JT, CM.JALT,
/// CM.POPRET and CM.POPRETZ.
const TRANSFERS: [u32; 13] = [
    0x0000_0063,
    0x0003_0067,
    0x0000_006F,
    0x0003_8367,
    0x0000_036F,
    0x0000_00EF,
    0x0000_80E7,
    0x0000_8067,
    0x0002_80E7,
    0x0000_A07E,
    0x0000_A082,
    0x0000_BE42,
    0x0000_BC42,
];

/// The last pseudo-random number that was drawn.
struct Random(u64);

impl Random {
    fn word(&mut self) -> u64 {
        self.0 = xorshift64(self.0);
        self.0
    }

    fn below(&mut self, bound: u64) -> u64 {
        self.word() % bound
    }

    fn bit(&mut self) -> bool {
        self.below(2) == 1
    }

    fn one_of<T: Copy>(&mut self, list: &[T]) -> T {
        list[self.below(list.len() as u64) as usize]
    }

    /// From 0 to the top, often near it, and sometimes above it.
    fn counter(&mut self) -> u64 {
        match self.below(32) {
            0 => self.one_of(&[TOP + 1, TOP + 2, 1 << 32, u64::MAX]),
            1..=4 => TOP - self.below(8),
            _ => self.below(TOP + 1) >> self.below(27),
        }
    }

    /// Few or many.
    fn cycles(&mut self) -> u32 {
        self.word() as u32 >> self.below(32)
    }

    /// Bad in about one of four cases.
    fn registers(&mut self) -> Registers {
        let stray = self.word() & self.one_of(&[0, 0, 0, 0, 0, 0, 0, u64::MAX]);
        let inhibits = self.one_of(&[0, ALL_INHIBITS]);
        let depth_code = self.one_of(&[0, 1, 2, 3, 4, 0, 1, 2, 3, 4, 5]);
        let bound = (16 << depth_code) + self.one_of(&[0, 0, 8]);
        Registers {
            mode: self.one_of(&Mode::ALL),
            mctrctl: self.word() & MCTRCTL_MASK & !inhibits | stray,
            vsctrctl: self.word() & SCTRCTL_MASK & !inhibits | stray & 1 << 2,
            depth_code,
            wrptr: self.below(bound),
            frozen: self.below(4) == 0,
            siselect: 0x1F0 + self.below(0x120),
            vsiselect: 0x1F0 + self.below(0x120),
            mstateen0_ctr: self.bit(),
            hstateen0_ctr: self.bit(),
            cycles: self.counter(),
            ccv: self.bit(),
            zc: self.bit(),
        }
    }

    fn machine(&mut self) -> Machine {
        let mut machine = Machine::reset(false);
        machine.registers = self.registers();
        for place in &mut machine.entries {
            *place = Entry {
                ctrsource: self.word(),
                ctrtarget: self.word(),
                ctrdata: self.word(),
            };
        }
        machine
    }

    fn retired_word(&mut self) -> Event {
        let word = match self.below(8) {
            0 => self.word() as u32,
            _ => self.one_of(&TRANSFERS),
        };
        Event::Retired(Retired {
            word,
            pc: self.word(),
            target: self.word(),
            taken: self.bit(),
            mispredicted: self.bit(),
            cycles: self.cycles(),
        })
    }

    fn access(&mut self) -> Event {
        let csr = match self.below(4) {
            0 => self.below(0x400),
            1 => self.one_of(&[0x14E, 0x14F, 0x15F, 0x24E, 0x34E]),
            _ => self.one_of(&[0x150, 0x250]) + self.below(8),
        };
        Event::Access(Access {
            operation: self.one_of(&Operation::ALL),
            csr,
            operand: self.word(),
        })
    }

    fn event(&mut self) -> Event {
        match self.below(10) {
            0..=2 => self.retired_word(),
            3..=5 => Event::Trap(Trap {
                target_mode: self.one_of(&Mode::ALL),
                is_interrupt: self.bit(),
                cause: self.one_of(&[3, 13, 5, 8]),
                epc: self.word(),
                handler: self.word(),
                cycles: self.cycles(),
            }),
            6 | 7 => Event::TrapReturn(TrapReturn {
                target_mode: self.one_of(&Mode::ALL),
                pc: self.word(),
                target: self.word(),
                cycles: self.cycles(),
            }),
            8 => self.access(),
            _ if self.bit() => Event::Sctrclr,
            _ => Event::Host {
                mstateen0_ctr: self.bit(),
                hstateen0_ctr: self.bit(),
            },
        }
    }
}

fn is_on(registers: &Registers, mode: Mode) -> bool {
    let switches = match mode {
        U => registers.mctrctl,
        S => registers.mctrctl >> 1,
        M => registers.mctrctl >> 2,
        VU => registers.vsctrctl,
        VS => registers.vsctrctl >> 1,
    };
    switches & 1 == 1
}

#[derive(Clone, Copy, PartialEq)]
enum Side {
    Source,
    Target,
}

/// The event with another address on one side, if it has addresses.
fn with_address(mut event: Event, side: Side, change: impl Fn(u64) -> u64) -> Event {
    let (source, target) = match &mut event {
        Event::Retired(retired) => (&mut retired.pc, &mut retired.target),
        Event::Trap(trap) => (&mut trap.epc, &mut trap.handler),
        Event::TrapReturn(trap_return) => (&mut trap_return.pc, &mut trap_return.target),
        _ => return event,
    };
    let address = if side == Side::Source { source } else { target };
    *address = change(*address);
    event
}

const ROUNDS: u32 = 200_000;

#[test]
fn refusals_change_nothing_and_good_states_stay_good() {
    let mut random = Random(SEED);
    let mut counts = [0; 6];
    for _ in 0..ROUNDS {
        let (before, event) = (random.machine(), random.event());
        let mut after = before.clone();
        let answer = after.step(event);
        if answer.number != 0 {
            assert_eq!((answer.value, &after), (0, &before));
        }
        assert_eq!(answer.number == 5, before.registers.is_bad());
        assert_eq!(after.registers.is_bad(), before.registers.is_bad());
        counts[usize::from(answer.number)] += 1;
    }
    assert!(counts.iter().all(|count| *count > 1_000), "{counts:?}");
}

/// In good states and bad ones.
#[test]
fn no_event_changes_the_switch() {
    let mut random = Random(SEED);
    for _ in 0..ROUNDS {
        let (before, event) = (random.machine(), random.event());
        let mut after = before.clone();
        after.step(event);
        assert_eq!(after.registers.zc, before.registers.zc);
    }
}

/// Whether it is a word where C.FSDSP lies.
fn is_c_fsdsp(event: Event) -> bool {
    matches!(event, Event::Retired(retired) if retired.word & 0xE003 == 0xA002)
}

/// In machines that differ in the switch alone, all other events have the same answer and make the
/// same of the state.
#[test]
fn the_switch_matters_only_to_words_in_place_of_c_fsdsp() {
    let mut random = Random(SEED);
    let mut counts = [0; 2];
    for _ in 0..ROUNDS {
        let (mut off, event) = (random.machine(), random.event());
        off.registers.zc = false;
        let mut on = off.clone();
        on.registers.zc = true;
        let is_same_answer = on.step(event) == off.step(event);
        on.registers.zc = false;
        let is_same = is_same_answer && on == off;
        assert!(is_same || is_c_fsdsp(event), "{event:x?}");
        counts[usize::from(is_same)] += 1;
    }
    assert!(counts.iter().all(|count| *count > 1_000), "{counts:?}");
}

fn is_transfer(event: Event) -> bool {
    matches!(
        event,
        Event::Retired(_) | Event::Trap(_) | Event::TrapReturn(_)
    )
}

/// The mode that a possible event leads to.
fn mode_after(before: Mode, event: Event) -> Mode {
    match event {
        Event::Trap(trap) => trap.target_mode,
        Event::TrapReturn(trap_return) => trap_return.target_mode,
        _ => before,
    }
}

/// The cycles that the event has, if it has any.
fn cycles_of(event: &mut Event) -> Option<&mut u32> {
    match event {
        Event::Retired(retired) => Some(&mut retired.cycles),
        Event::Trap(trap) => Some(&mut trap.cycles),
        Event::TrapReturn(trap_return) => Some(&mut trap_return.cycles),
        _ => None,
    }
}

/// Whether the cycles of a transfer count.
fn is_counted(registers: &Registers) -> bool {
    is_on(registers, registers.mode) && !registers.frozen
}

/// Whether RASEMU governs a transfer. With V=1 before or after, it is that of vsctrctl.
fn is_emulated(registers: &Registers, event: Event) -> bool {
    let modes = [registers.mode, mode_after(registers.mode, event)];
    let control = if modes.iter().any(|mode| mode.is_virtual()) {
        registers.vsctrctl
    } else {
        registers.mctrctl
    };
    control >> 7 & 1 == 1
}

/// The counter with the cycles of a transfer, if they count.
fn counter_at(registers: &Registers, mut event: Event) -> u64 {
    let cycles = cycles_of(&mut event).map_or(0, |cycles| u64::from(*cycles));
    if is_counted(registers) {
        TOP.min(registers.cycles + cycles)
    } else {
        registers.cycles
    }
}

/// CC and CCV in ctrdata, by the index of the counter's top bit.
fn cycle_fields(counter: u64, ccv: bool) -> u64 {
    let index = counter.checked_ilog2().unwrap_or(0);
    let cce = index.saturating_sub(11);
    let ccm = counter >> cce.saturating_sub(1) & 0xFFF;
    u64::from(cce) << 28 | ccm << 16 | u64::from(ccv) << 15
}

/// The flag of a retired word; traps and returns have none.
fn is_mispredicted(event: Event) -> bool {
    matches!(event, Event::Retired(retired) if retired.mispredicted)
}

/// A record sets V, gives MISP the event's flag and holds a type, beside the count if RASEMU doesn't
/// govern it; a pop clears V; a swap leaves WRPTR. All other entries and registers stay, but for
/// the mode, the cycle counter and the next CCV.
#[test]
fn values_tell_what_has_changed() {
    let mut random = Random(SEED);
    let mut counts = [0; 5];
    for _ in 0..ROUNDS {
        let (before, event) = (random.machine(), random.event());
        let mut after = before.clone();
        let answer = after.step(event);
        if answer.number != 0 || !is_transfer(event) {
            continue;
        }
        let depth = before.registers.depth();
        let wrptr = before.registers.wrptr;
        let below = (wrptr + depth - 1) % depth;
        let counter = counter_at(&before.registers, event);
        let is_emulated = is_emulated(&before.registers, event);
        let fields = if is_emulated {
            0
        } else {
            cycle_fields(counter, before.registers.ccv)
        };
        let misp = is_mispredicted(event);
        let mut expected = before.clone();
        expected.registers.mode = mode_after(before.registers.mode, event);
        expected.registers.cycles = counter;
        if is_emulated && is_counted(&before.registers) {
            (expected.registers.cycles, expected.registers.ccv) = (0, false);
        } else if answer.value == 1 {
            (expected.registers.cycles, expected.registers.ccv) = (0, true);
        }
        match answer.value {
            1 => {
                expected.registers.wrptr = (wrptr + 1) % depth;
                expected.entries[wrptr as usize] = after.entries[wrptr as usize];
                assert!(is_record(&after.entries[wrptr as usize], misp, fields));
            }
            2 => {
                expected.registers.wrptr = below;
                expected.entries[below as usize].ctrsource &= !1;
            }
            3 => {
                expected.entries[below as usize] = after.entries[below as usize];
                assert!(is_record(&after.entries[below as usize], misp, fields));
            }
            4 => expected.registers.frozen = true,
            _ => {}
        }
        assert_eq!(after, expected);
        counts[answer.value as usize] += 1;
    }
    assert!(counts.iter().all(|count| *count > 500), "{counts:?}");
}

/// `fields` are those of ctrdata beside TYPE.
fn is_record(entry: &Entry, misp: bool, fields: u64) -> bool {
    entry.ctrsource & 1 == 1
        && entry.ctrtarget & 1 == u64::from(misp)
        && entry.ctrdata & !0xF == fields
        && matches!(entry.ctrdata & 0xF, 1..=5 | 8..=15)
}

/// What is decoded of an ordinary record is at most the counter, and short of it by less than a
/// step.
#[test]
fn decoded_counts_are_near_the_counter() {
    let mut random = Random(SEED);
    let mut counts = [0; 16];
    for _ in 0..ROUNDS {
        let (before, event) = (random.machine(), random.event());
        let mut after = before.clone();
        let answer = after.step(event);
        let is_record = answer.number == 0 && is_transfer(event) && answer.value == 1;
        if !is_record || is_emulated(&before.registers, event) {
            continue;
        }
        let counter = counter_at(&before.registers, event);
        let ctrdata = after.entries[before.registers.wrptr as usize].ctrdata;
        let count = decoded(ctrdata);
        assert!(count <= counter);
        match ctrdata >> 28 {
            0 => assert_eq!(count, counter),
            cce => assert!(counter - count < 1 << (cce - 1)),
        }
        counts[(ctrdata >> 28) as usize] += 1;
    }
    assert!(counts.iter().all(|count| *count > 50), "{counts:?}");
}

/// Of the other events, SCTRCLR and all accesses to control registers but reads, if they are
/// granted.
#[test]
fn the_counter_restarts_at_sctrclr_and_at_control_writes() {
    let mut random = Random(SEED);
    let mut counts = [0; 2];
    for _ in 0..ROUNDS {
        let (before, event) = (random.machine(), random.event());
        if is_transfer(event) {
            continue;
        }
        let mut after = before.clone();
        let answer = after.step(event);
        let is_restarting = match event {
            Event::Access(access) => {
                access.operation != Operation::Read && matches!(access.csr, 0x14E | 0x24E | 0x34E)
            }
            event => event == Event::Sctrclr,
        };
        let restarts = is_restarting && answer.number == 0;
        let expected = if restarts {
            (0, false)
        } else {
            (before.registers.cycles, before.registers.ccv)
        };
        assert_eq!((after.registers.cycles, after.registers.ccv), expected);
        counts[usize::from(restarts)] += 1;
    }
    assert!(counts.iter().all(|count| *count > 1_000), "{counts:?}");
}

/// Also in bad states, which answer 5.
#[test]
fn words_retired_in_a_mode_that_is_off_change_nothing() {
    let mut random = Random(SEED);
    let mut count = 0;
    for _ in 0..ROUNDS {
        let (before, event) = (random.machine(), random.retired_word());
        if is_on(&before.registers, before.registers.mode) {
            continue;
        }
        let mut after = before.clone();
        let answer = after.step(event);
        assert_eq!((answer.value, &after), (0, &before));
        count += 1;
    }
    assert!(count > ROUNDS / 4);
}

/// Traps and returns, possible or not, in good states and bad ones: another address on the side of
/// a mode that is off, and other cycles spent in it, give the same answer and the same state.
#[test]
fn addresses_on_the_side_of_an_off_mode_and_its_cycles_never_show() {
    let mut random = Random(SEED);
    let (mut count, mut differing) = (0, 0);
    for _ in 0..ROUNDS {
        let (before, event) = (random.machine(), random.event());
        if !matches!(event, Event::Trap(_) | Event::TrapReturn(_)) {
            continue;
        }
        let mut other = event;
        let source = before.registers.mode;
        let sides = [
            (Side::Source, source),
            (Side::Target, mode_after(source, event)),
        ];
        for (side, _) in sides
            .iter()
            .filter(|(_, mode)| !is_on(&before.registers, *mode))
        {
            let address = random.word();
            other = with_address(other, *side, |_| address);
        }
        if !is_on(&before.registers, source) {
            let cycles = cycles_of(&mut other).expect("a trap or a return");
            let mine = mem::replace(cycles, random.cycles());
            differing += u32::from(*cycles != mine);
        }
        let (mut one, mut two) = (before.clone(), before);
        assert_eq!(one.step(event), two.step(other));
        assert_eq!(one, two);
        count += u32::from(other != event);
    }
    assert!(count > ROUNDS / 4 && differing > ROUNDS / 8);
}

/// RASEMU, the inhibits and NTBREN.
const GOVERNING_FIELDS: u64 = 1 << 7 | ALL_INHIBITS | 1 << 36;

/// Where these fields differ in the register that doesn't govern a transfer, it does the same; in
/// the one that governs, often not. With V=1 before or after, that is vsctrctl.
#[test]
fn one_register_governs_a_transfer() {
    let mut random = Random(SEED);
    let mut counts = [0; 2];
    for _ in 0..ROUNDS {
        let (before, event) = (random.machine(), random.event());
        if !is_transfer(event) {
            continue;
        }
        let is_virtual = before.registers.mode.is_virtual();
        let is_virtual_after = mode_after(before.registers.mode, event).is_virtual();
        let change = random.word() & GOVERNING_FIELDS;
        for is_vsctrctl in [false, true] {
            let changed = |mut machine: Machine| {
                let registers = &mut machine.registers;
                if is_vsctrctl {
                    registers.vsctrctl ^= change;
                } else {
                    registers.mctrctl ^= change;
                }
                machine
            };
            let (mut one, mut two) = (before.clone(), changed(before.clone()));
            let is_same = one.step(event) == two.step(event) && changed(one) == two;
            if is_vsctrctl != (is_virtual || is_virtual_after) {
                assert!(is_same, "{event:x?} in {:x?}", before.registers);
            } else if !is_same {
                counts[usize::from(is_virtual != is_virtual_after)] += 1;
            }
        }
    }
    assert!(counts.iter().all(|count| *count > 1_000), "{counts:?}");
}

#[test]
fn bit_0_of_addresses_is_ignored() {
    let mut random = Random(SEED);
    for _ in 0..ROUNDS {
        let (before, event) = (random.machine(), random.event());
        for side in [Side::Source, Side::Target] {
            let other = with_address(event, side, |address| address ^ 1);
            let (mut one, mut two) = (before.clone(), before.clone());
            assert_eq!(one.step(event), two.step(other));
            assert_eq!(one, two);
        }
    }
}

/// The same word mispredicted or not: the answers are equal, and so are the states, but for MISP of
/// what was recorded or swapped. Also in bad states.
#[test]
fn a_flag_changes_misp_of_its_own_record_and_nothing_else() {
    let mut random = Random(SEED);
    let mut counts = [0; 4];
    for _ in 0..ROUNDS {
        let (before, mut event) = (random.machine(), random.retired_word());
        let mut outcome = |flag| {
            if let Event::Retired(retired) = &mut event {
                retired.mispredicted = flag;
            }
            let mut after = before.clone();
            (after.step(event), after)
        };
        let ((answer, mut without), (other, with)) = (outcome(false), outcome(true));
        assert_eq!(answer, other);
        let place = match answer.value {
            1 => Some(before.registers.wrptr),
            3 => Some(before.registers.physical_entry(0)),
            _ => None,
        };
        if let Some(place) = place {
            let ctrtarget = &mut without.entries[place as usize].ctrtarget;
            assert_eq!(*ctrtarget & 1, 0);
            *ctrtarget |= 1;
        }
        assert_eq!(without, with);
        counts[answer.value as usize] += 1;
    }
    assert!(counts.iter().all(|count| *count > 1_000), "{counts:?}");
}
