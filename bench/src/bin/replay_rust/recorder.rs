//! The recorder's state, and what retired words, traps and trap returns make of it. From reset no
//! state is bad, as all that is written keeps to the masks, the depths and the ring.

use super::classifier::{
    transfer_type, DIRECT_CALL, INDIRECT_CALL, NONE, NOT_TAKEN_BRANCH, RETURN, SWAP,
};
use super::cycles::{coded, TOP};

const EXCEPTION: u32 = 1;
const INTERRUPT: u32 = 2;
const TRAP_RETURN: u32 = 3;

const BREAKPOINT: u64 = 3;
const COUNTER_OVERFLOW: u64 = 13;

// Bits of the control registers. In vsctrctl STE is VSTE.
const RASEMU: u64 = 1 << 7;
const STE: u64 = 1 << 8;
const MTE: u64 = 1 << 9;
const BPFRZ: u64 = 1 << 11;
const LCOFIFRZ: u64 = 1 << 12;

/// The inhibit of a type is this many places above the type's number.
const INHIBITS: u32 = 32;

const TRETINH: u64 = 1 << (INHIBITS + TRAP_RETURN);

/// The types that RASEMU is about, a bit each.
const CALL_STACK: u32 = 1 << INDIRECT_CALL | 1 << DIRECT_CALL | 1 << SWAP | 1 << RETURN;

/// A bit above those of the types, so that some bit is set where all types are inhibited.
const LIVE: u32 = 1 << 16;

/// Bit 0 of ctrsource.
pub const V: u64 = 1;

/// Bit 0 of ctrtarget.
pub const MISP: u64 = 1;

/// The number of physical entries.
pub const ENTRIES: usize = 256;

#[derive(Clone, Copy, Debug, PartialEq)]
pub enum Mode {
    U,
    S,
    M,
    VU,
    VS,
}

// The modes as bits.
const U: u32 = 1 << Mode::U as u32;
const S: u32 = 1 << Mode::S as u32;
const M: u32 = 1 << Mode::M as u32;
const VU: u32 = 1 << Mode::VU as u32;
const VS: u32 = 1 << Mode::VS as u32;

// The modes that traps and trap returns may lead to, by the mode that they come from.
const TRAPS: [u32; 5] = [S | M, S | M, M, VS | S | M, VS | S | M];
const TRAP_RETURNS: [u32; 5] = [0, U | S | VU | VS, U | S | M | VU | VS, 0, VU | VS];

impl Mode {
    pub fn of(code: u64) -> Option<Mode> {
        Some(match code {
            0 => Mode::U,
            1 => Mode::S,
            2 => Mode::M,
            3 => Mode::VU,
            4 => Mode::VS,
            _ => return None,
        })
    }

    pub fn is_virtual(self) -> bool {
        matches!(self, Mode::VU | Mode::VS)
    }

    fn is_among(self, modes: u32) -> bool {
        modes >> self as u32 & 1 == 1
    }

    /// The place of the mode's switch in its control register.
    fn switch(self) -> u32 {
        match self {
            Mode::U | Mode::VU => 0,
            Mode::S | Mode::VS => 1,
            Mode::M => 2,
        }
    }
}

/// What became of a transfer.
#[derive(Clone, Copy)]
pub enum Value {
    Nothing,
    Recorded,
    Popped,
    Swapped,
    Frozen,
}

/// The words of an entry, which have defined bits only.
#[derive(Clone, Copy)]
pub struct Entry {
    pub source: u64,
    pub target: u64,
    pub data: u64,
}

pub const NO_ENTRY: Entry = Entry {
    source: 0,
    target: 0,
    data: 0,
};

pub struct Recorder {
    pub zc: bool,
    pub mode: Mode,
    pub frozen: bool,
    pub mstateen0_ctr: bool,
    pub hstateen0_ctr: bool,
    pub mctrctl: u64,
    pub vsctrctl: u64,
    pub siselect: u64,
    pub vsiselect: u64,
    pub wrptr: usize,
    /// The depth less one: the greatest index in use, and the mask of indices.
    pub last: usize,
    /// The cycles counted since the last restart, up to `TOP`.
    pub counter: u64,
    /// The CCV that an ordinary record would now get.
    pub ccv: bool,
    /// Whether RASEMU governs the words retired in the current mode.
    is_emulating: bool,
    /// The types of these words that are not passed over, a bit each, and `LIVE`. No bit is set if
    /// the mode is off or FROZEN is 1, where nothing becomes of words and no cycles count.
    wanted: u32,
    pub entries: [Entry; ENTRIES],
}

impl Recorder {
    pub fn reset(zc: bool) -> Recorder {
        Recorder {
            zc,
            mode: Mode::M,
            frozen: false,
            mstateen0_ctr: false,
            hstateen0_ctr: false,
            mctrctl: 0,
            vsctrctl: 0,
            siselect: 0,
            vsiselect: 0,
            wrptr: 0,
            last: 15,
            counter: 0,
            ccv: false,
            is_emulating: false,
            wanted: 0,
            entries: [NO_ENTRY; ENTRIES],
        }
    }

    /// To be called after every change of the mode, FROZEN or a control register.
    #[inline(always)]
    pub fn update_wanted(&mut self) {
        let control = self.control(self.mode);
        self.is_emulating = control & RASEMU != 0;
        self.wanted = if self.frozen || !self.is_on(self.mode) {
            0
        } else if self.is_emulating {
            CALL_STACK | LIVE
        } else {
            // NTBREN, alone among the inhibits, lets its type in.
            let inhibited = (control >> INHIBITS) as u32 ^ 1 << NOT_TAKEN_BRANCH;
            !inhibited & !(1 << NONE) | LIVE
        };
    }

    #[inline(always)]
    pub fn retire(
        &mut self,
        word: u32,
        taken: u32,
        misp: u64,
        pc: u64,
        target: u64,
        cycles: u64,
    ) -> Value {
        if self.wanted == 0 {
            return Value::Nothing;
        }
        let number = transfer_type(word, taken, self.zc);
        let is_wanted = self.wanted >> number & 1 == 1;
        self.count(self.is_emulating, cycles);
        let ctrtarget = target & !MISP | misp;
        if !is_wanted {
            Value::Nothing
        } else if self.is_emulating {
            self.emulate(number, pc, ctrtarget)
        } else {
            self.enter_with_count(number, pc, ctrtarget)
        }
    }

    /// The cycles of an event from a mode that is on, with FROZEN 0. Under RASEMU none are kept.
    #[inline(always)]
    fn count(&mut self, is_emulating: bool, cycles: u64) {
        if is_emulating {
            self.restart_count();
        } else {
            self.counter = (self.counter + cycles).min(TOP);
        }
    }

    #[inline(always)]
    pub fn restart_count(&mut self) {
        self.counter = 0;
        self.ccv = false;
    }

    /// A call, a return or a swap under RASEMU, where records have no count.
    fn emulate(&mut self, number: u32, pc: u64, ctrtarget: u64) -> Value {
        let newest = self.physical(0);
        match number {
            RETURN => {
                self.entries[newest].source &= !V;
                self.wrptr = newest;
                Value::Popped
            }
            SWAP => {
                self.entries[newest] = record(number.into(), pc, ctrtarget);
                Value::Swapped
            }
            _ => self.enter(number.into(), pc, ctrtarget),
        }
    }

    /// An ordinary record has the count since the last restart, and the next one that since this.
    #[inline(always)]
    fn enter_with_count(&mut self, number: u32, pc: u64, ctrtarget: u64) -> Value {
        let data = u64::from(number) | coded(self.counter, self.ccv);
        self.counter = 0;
        self.ccv = true;
        self.enter(data, pc, ctrtarget)
    }

    #[inline(always)]
    fn enter(&mut self, data: u64, pc: u64, ctrtarget: u64) -> Value {
        self.entries[self.wrptr % ENTRIES] = record(data, pc, ctrtarget);
        self.wrptr = (self.wrptr + 1) & self.last;
        Value::Recorded
    }

    /// None if the mode change is not possible.
    pub fn trap(
        &mut self,
        to: Mode,
        is_interrupt: bool,
        cause: u64,
        epc: u64,
        handler: u64,
        cycles: u64,
    ) -> Option<Value> {
        if !to.is_among(TRAPS[self.mode as usize]) {
            return None;
        }
        let control = self.governing_control(to);
        self.count_mode_change(control, cycles);
        let (number, freezing_cause, freezing_bit) = if is_interrupt {
            (INTERRUPT, COUNTER_OVERFLOW, LCOFIFRZ)
        } else {
            (EXCEPTION, BREAKPOINT, BPFRZ)
        };
        let value = if cause == freezing_cause && self.control(to) & freezing_bit != 0 {
            self.frozen = true;
            Value::Frozen
        } else {
            self.record_trap(control, to, number, epc, handler)
        };
        self.mode = to;
        self.update_wanted();
        Some(value)
    }

    /// The cycles of a trap or a return that this register governs.
    #[inline(always)]
    fn count_mode_change(&mut self, control: u64, cycles: u64) {
        if self.wanted != 0 {
            self.count(control & RASEMU != 0, cycles);
        }
    }

    /// The address of a mode that is off is recorded as 0, and MISP is 0.
    #[inline(always)]
    fn record_trap(
        &mut self,
        control: u64,
        to: Mode,
        number: u32,
        epc: u64,
        handler: u64,
    ) -> Value {
        if self.frozen || control & RASEMU != 0 {
            return Value::Nothing;
        }
        let is_inhibited = control >> (INHIBITS + number) & 1 == 1;
        match (self.is_on(self.mode), self.is_on(to)) {
            (true, true) if !is_inhibited => self.enter_with_count(number, epc, handler & !MISP),
            (false, true) if !is_inhibited => self.enter_with_count(number, 0, handler & !MISP),
            (true, false) if self.shows_external_trap(to) => self.enter_with_count(number, epc, 0),
            _ => Value::Nothing,
        }
    }

    /// Whether the external bits of the higher mode that is trapped to, and of those between, are set.
    fn shows_external_trap(&self, to: Mode) -> bool {
        let asked = match (self.mode, to) {
            (_, Mode::VS) => 0,
            (_, Mode::S) => STE,
            (Mode::S, _) => MTE,
            _ => STE | MTE,
        };
        let vs_asked = if self.mode == Mode::VU { STE } else { 0 };
        self.mctrctl & asked == asked && self.vsctrctl & vs_asked == vs_asked
    }

    /// None if the mode change is not possible.
    pub fn trap_return(&mut self, to: Mode, pc: u64, target: u64, cycles: u64) -> Option<Value> {
        if !to.is_among(TRAP_RETURNS[self.mode as usize]) {
            return None;
        }
        let control = self.governing_control(to);
        self.count_mode_change(control, cycles);
        let value = if self.wanted == 0 || control & (RASEMU | TRETINH) != 0 {
            Value::Nothing
        } else {
            let ctrtarget = if self.is_on(to) { target & !MISP } else { 0 };
            self.enter_with_count(TRAP_RETURN, pc, ctrtarget)
        };
        self.mode = to;
        self.update_wanted();
        Some(value)
    }

    /// The physical entry of a logical one in use.
    pub fn physical(&self, logical: usize) -> usize {
        (self.wrptr.wrapping_sub(1 + logical) & self.last) % ENTRIES
    }

    /// The control register of a mode.
    fn control(&self, mode: Mode) -> u64 {
        if mode.is_virtual() {
            self.vsctrctl
        } else {
            self.mctrctl
        }
    }

    /// The control register whose RASEMU and inhibits govern a trap or a return from the current
    /// mode: vsctrctl if V=1 on either side.
    fn governing_control(&self, to: Mode) -> u64 {
        if self.mode.is_virtual() | to.is_virtual() {
            self.vsctrctl
        } else {
            self.mctrctl
        }
    }

    fn is_on(&self, mode: Mode) -> bool {
        self.control(mode) >> mode.switch() & 1 == 1
    }
}

fn record(data: u64, pc: u64, ctrtarget: u64) -> Entry {
    Entry {
        source: pc | V,
        target: ctrtarget,
        data,
    }
}
