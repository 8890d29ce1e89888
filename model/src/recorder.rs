//! The recorder as a whole: its registers, its entries, and what each event makes of them
//! (docs/RULES.md).

mod qualifying;

use self::qualifying::{
    is_emulating, is_inhibited, is_possible_return, is_possible_trap, EXCEPTION, INTERRUPT,
    TRAP_RETURN,
};
use crate::access::{granted, refused, Access, Answer, BAD_STATE, GRANTED};
use crate::classifier::{transfer_type, DIRECT_CALL, INDIRECT_CALL, NONE, RETURN, SWAP};
use crate::registers::{Entry, Mode, Registers};

/// The number of physical entries, in use or not.
pub const ENTRIES: usize = 256;

/// The number answered if the mode change is not possible.
const NOT_POSSIBLE: u8 = 4;

// The values of retired words, traps and trap returns.
const NOTHING: u64 = 0;
const RECORDED: u64 = 1;
const POPPED: u64 = 2;
const SWAPPED: u64 = 3;
const FROZEN_BY_TRAP: u64 = 4;

// Bit 0 of ctrsource is V and that of ctrtarget MISP; bit 0 of a pc is ignored.
const V: u64 = 1;
const MISP: u64 = 1;

/// The PC that is shown in place of one of a mode that is off.
const NO_PC: u64 = 0;

/// All of the recorder's state.
#[derive(Clone, Debug, PartialEq, Eq)]
pub struct Machine {
    pub registers: Registers,
    pub entries: [Entry; ENTRIES],
}

/// A retired word; `taken` matters to branches only. Here and in traps and trap returns, `cycles`
/// are those spent since the event before.
#[derive(Clone, Copy, Debug, PartialEq, Eq)]
pub struct Retired {
    pub word: u32,
    pub pc: u64,
    pub target: u64,
    pub taken: bool,
    /// Whether its target, or that it is taken or not, was mispredicted.
    pub mispredicted: bool,
    pub cycles: u32,
}

/// An interrupt or an exception, taken in the current mode.
#[derive(Clone, Copy, Debug, PartialEq, Eq)]
pub struct Trap {
    pub target_mode: Mode,
    pub is_interrupt: bool,
    pub cause: u64,
    pub epc: u64,
    pub handler: u64,
    pub cycles: u32,
}

/// A return from a trap handler that runs in the current mode.
#[derive(Clone, Copy, Debug, PartialEq, Eq)]
pub struct TrapReturn {
    pub target_mode: Mode,
    pub pc: u64,
    pub target: u64,
    pub cycles: u32,
}

#[derive(Clone, Copy, Debug, PartialEq, Eq)]
pub enum Event {
    Retired(Retired),
    Trap(Trap),
    TrapReturn(TrapReturn),
    Access(Access),
    Sctrclr,
    /// The host sets the CTR bits of mstateen0 and hstateen0.
    Host {
        mstateen0_ctr: bool,
        hstateen0_ctr: bool,
    },
}

impl Event {
    /// Whether the value answered tells what was recorded. Those of accesses are readings.
    pub(crate) fn is_transfer(&self) -> bool {
        matches!(
            self,
            Event::Retired(_) | Event::Trap(_) | Event::TrapReturn(_)
        )
    }
}

impl Machine {
    /// The registers' reset, with `zc` as given, and all entries 0.
    pub fn reset(zc: bool) -> Machine {
        Machine {
            registers: Registers::reset(zc),
            entries: [Entry::default(); ENTRIES],
        }
    }

    /// What is answered to the event; the machine is then in the state after it.
    pub fn step(&mut self, event: Event) -> Answer {
        if self.registers.is_bad() {
            return refused(BAD_STATE);
        }
        match event {
            Event::Retired(retired) => granted(self.retire(&retired)),
            Event::Trap(trap) => self.trap(&trap),
            Event::TrapReturn(trap_return) => self.trap_return(&trap_return),
            Event::Access(access) => self.access(access),
            Event::Sctrclr => self.sctrclr(),
            Event::Host {
                mstateen0_ctr,
                hstateen0_ctr,
            } => self
                .registers
                .set_state_enables(mstateen0_ctr, hstateen0_ctr),
        }
    }

    fn retire(&mut self, retired: &Retired) -> u64 {
        let number = transfer_type(retired.word, retired.taken, self.registers.zc);
        let mode = self.registers.mode;
        self.count(mode, retired.cycles);
        if number == NONE || self.registers.frozen || !self.registers.is_on(mode) {
            return NOTHING;
        }
        let mut record = record(retired.pc, retired.target, number);
        if retired.mispredicted {
            record.ctrtarget |= MISP;
        }
        let control = self.registers.governing_control(mode, mode);
        if is_emulating(control) {
            self.emulate(record, number)
        } else if is_inhibited(control, number) {
            NOTHING
        } else {
            self.enter_with_count(record)
        }
    }

    fn trap(&mut self, trap: &Trap) -> Answer {
        if !is_possible_trap(self.registers.mode, trap.target_mode) {
            return refused(NOT_POSSIBLE);
        }
        self.count(trap.target_mode, trap.cycles);
        let value = if self.registers.is_freezing(trap) {
            self.registers.frozen = true;
            FROZEN_BY_TRAP
        } else {
            self.enter_if_any(self.trap_record(trap))
        };
        self.registers.mode = trap.target_mode;
        granted(value)
    }

    /// What is recorded of a possible trap that doesn't freeze. A trap from a mode that is on to
    /// one that is off is external: it has bits of its own, and no inhibit is asked.
    fn trap_record(&self, trap: &Trap) -> Option<Entry> {
        let registers = &self.registers;
        let (source, target) = (registers.mode, trap.target_mode);
        let control = registers.governing_control(source, target);
        if registers.frozen || is_emulating(control) {
            return None;
        }
        let number = if trap.is_interrupt {
            INTERRUPT
        } else {
            EXCEPTION
        };
        let is_inhibited = is_inhibited(control, number);
        match (registers.is_on(source), registers.is_on(target)) {
            (true, true) if !is_inhibited => Some(record(trap.epc, trap.handler, number)),
            (false, true) if !is_inhibited => Some(record(NO_PC, trap.handler, number)),
            (true, false) if registers.shows_external_trap(source, target) => {
                Some(record(trap.epc, NO_PC, number))
            }
            _ => None,
        }
    }

    fn trap_return(&mut self, trap_return: &TrapReturn) -> Answer {
        if !is_possible_return(self.registers.mode, trap_return.target_mode) {
            return refused(NOT_POSSIBLE);
        }
        self.count(trap_return.target_mode, trap_return.cycles);
        let value = self.enter_if_any(self.return_record(trap_return));
        self.registers.mode = trap_return.target_mode;
        granted(value)
    }

    /// What is recorded of a possible trap return.
    fn return_record(&self, trap_return: &TrapReturn) -> Option<Entry> {
        let registers = &self.registers;
        let (source, target) = (registers.mode, trap_return.target_mode);
        let control = registers.governing_control(source, target);
        if registers.frozen
            || is_emulating(control)
            || !registers.is_on(source)
            || is_inhibited(control, TRAP_RETURN)
        {
            return None;
        }
        let shown = if registers.is_on(target) {
            trap_return.target
        } else {
            NO_PC
        };
        Some(record(trap_return.pc, shown, TRAP_RETURN))
    }

    fn access(&mut self, access: Access) -> Answer {
        match self.registers.selected_entry(access.csr) {
            Some(place) => {
                let entry = &mut self.entries[place as usize];
                self.registers.access(entry, access)
            }
            None => self.registers.access(&mut Entry::default(), access),
        }
    }

    /// All entries are cleared, also those beyond the depth.
    fn sctrclr(&mut self) -> Answer {
        let answer = self.registers.sctrclr(&mut self.entries[0]);
        if answer.number == GRANTED {
            self.entries = [Entry::default(); ENTRIES];
        }
        answer
    }

    /// The cycles of a possible event from the current mode, before anything is recorded or frozen:
    /// they count if the mode is on and FROZEN is 0. Where RASEMU governs the event, nothing is
    /// left in the counter, and the next ordinary record has CCV 0.
    fn count(&mut self, target: Mode, cycles: u32) {
        let registers = &mut self.registers;
        let source = registers.mode;
        if registers.frozen || !registers.is_on(source) {
            return;
        }
        if is_emulating(registers.governing_control(source, target)) {
            registers.restart_cycles(false);
        } else {
            registers.add_cycles(cycles);
        }
    }

    fn enter_if_any(&mut self, record: Option<Entry>) -> u64 {
        record.map_or(NOTHING, |record| self.enter_with_count(record))
    }

    /// Enters an ordinary record, which has the count since the last restart. The next one has the
    /// count since this one.
    fn enter_with_count(&mut self, mut record: Entry) -> u64 {
        record.ctrdata |= self.registers.cycle_fields();
        self.registers.restart_cycles(true);
        self.enter(record)
    }

    fn enter(&mut self, record: Entry) -> u64 {
        let wrptr = self.registers.wrptr;
        self.entries[wrptr as usize] = record;
        self.registers.wrptr = (wrptr + 1) % self.registers.depth();
        RECORDED
    }

    /// A transfer of type `number` under RASEMU, where records have no count. The place of logical
    /// entry 0 is one below WRPTR.
    fn emulate(&mut self, record: Entry, number: u8) -> u64 {
        let newest = self.registers.physical_entry(0);
        match number {
            INDIRECT_CALL | DIRECT_CALL => self.enter(record),
            RETURN => {
                self.entries[newest as usize].ctrsource &= !V;
                self.registers.wrptr = newest;
                POPPED
            }
            SWAP => {
                self.entries[newest as usize] = record;
                SWAPPED
            }
            _ => NOTHING,
        }
    }
}

/// A valid entry. MISP is 0, and ctrdata is the type alone, without a count.
fn record(pc: u64, target: u64, number: u8) -> Entry {
    Entry {
        ctrsource: pc | V,
        ctrtarget: target & !MISP,
        ctrdata: number.into(),
    }
}
