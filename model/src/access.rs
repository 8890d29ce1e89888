//! The events that are no transfers: register accesses, SCTRCLR, and the host's setting of the two
//! state-enable bits (docs/RULES.md).

use crate::registers::{listed, Entry, Mode, Register, Registers};

pub(crate) const GRANTED: u8 = 0;
const ILLEGAL_INSTRUCTION: u8 = 1;
const VIRTUAL_INSTRUCTION: u8 = 2;
const NOT_LISTED: u8 = 3;
pub(crate) const BAD_STATE: u8 = 5;

#[derive(Clone, Copy, Debug, PartialEq, Eq)]
pub enum Operation {
    Read,
    Write,
    Set,
    Clear,
}

impl Operation {
    pub const ALL: [Operation; 4] = [
        Operation::Read,
        Operation::Write,
        Operation::Set,
        Operation::Clear,
    ];

    /// The value to be written, if any.
    fn written(self, old: u64, operand: u64) -> Option<u64> {
        match self {
            Operation::Read => None,
            Operation::Write => Some(operand),
            Operation::Set => Some(old | operand),
            Operation::Clear => Some(old & !operand),
        }
    }
}

#[derive(Clone, Copy, Debug, PartialEq, Eq)]
pub struct Access {
    pub operation: Operation,
    pub csr: u64,
    pub operand: u64,
}

/// A number, 0 if nothing speaks against the event, and a value.
#[derive(Clone, Copy, Debug, PartialEq, Eq)]
pub struct Answer {
    pub number: u8,
    pub value: u64,
}

pub(crate) fn granted(value: u64) -> Answer {
    Answer {
        number: GRANTED,
        value,
    }
}

pub(crate) fn refused(number: u8) -> Answer {
    Answer { number, value: 0 }
}

/// What the access steps are asked about.
#[derive(Clone, Copy, PartialEq)]
enum Target {
    Register(Register),
    Sctrclr,
}

/// Whether a step applies in this state to this target.
type Condition = fn(&Registers, Target) -> bool;

/// The access steps but for the first, unlisted numbers. The first that applies refuses, with its
/// number.
const STEPS: [(Condition, u8); 7] = [
    (is_mctrctl_below_m, ILLEGAL_INSTRUCTION),
    (is_from_u, ILLEGAL_INSTRUCTION),
    (is_shut_by_mstateen0, ILLEGAL_INSTRUCTION),
    (is_from_vu, VIRTUAL_INSTRUCTION),
    (is_number_shut_to_vs, VIRTUAL_INSTRUCTION),
    (is_shut_by_hstateen0, VIRTUAL_INSTRUCTION),
    (is_outside_window, NOT_LISTED),
];

fn is_mctrctl_below_m(registers: &Registers, target: Target) -> bool {
    registers.mode != Mode::M && target == Target::Register(Register::Mctrctl)
}

fn is_from_u(registers: &Registers, _: Target) -> bool {
    registers.mode == Mode::U
}

fn is_shut_by_mstateen0(registers: &Registers, target: Target) -> bool {
    registers.mode != Mode::M && !registers.mstateen0_ctr && is_enabled_state(registers, target)
}

fn is_from_vu(registers: &Registers, _: Target) -> bool {
    registers.mode == Mode::VU
}

/// By the number itself: sctrctl, siselect and sireg* from VS are not meant here.
fn is_number_shut_to_vs(registers: &Registers, target: Target) -> bool {
    use Register::*;
    registers.mode == Mode::VS
        && matches!(
            target,
            Target::Register(Vsctrctl | Sctrdepth | Vsiselect | Vsireg(_))
        )
}

fn is_shut_by_hstateen0(registers: &Registers, target: Target) -> bool {
    registers.mode == Mode::VS && !registers.hstateen0_ctr && is_enabled_state(registers, target)
}

fn is_outside_window(registers: &Registers, target: Target) -> bool {
    matches!(target, Target::Register(register) if registers.is_outside_window(register))
}

/// Whether the state-enable bits are asked. They are not for mctrctl, the select registers, and
/// iregs outside the window.
fn is_enabled_state(registers: &Registers, target: Target) -> bool {
    use Register::*;
    match target {
        Target::Register(Sctrctl | Vsctrctl | Sctrdepth | Sctrstatus) | Target::Sctrclr => true,
        Target::Register(register) => registers.is_in_window(register),
    }
}

/// The number of the first step that applies, if any does.
fn refusal(registers: &Registers, target: Target) -> Option<u8> {
    STEPS
        .iter()
        .find(|(applies, _)| applies(registers, target))
        .map(|(_, number)| *number)
}

impl Registers {
    /// An access to a register. `entry` is the one that it selects, if it selects one, and is left
    /// alone otherwise.
    pub fn access(&mut self, entry: &mut Entry, access: Access) -> Answer {
        if self.is_bad() {
            return refused(BAD_STATE);
        }
        let Some(register) = listed(access.csr) else {
            return refused(NOT_LISTED);
        };
        if let Some(number) = refusal(self, Target::Register(register)) {
            return refused(number);
        }
        let old = self.reading(entry, register);
        if let Some(new) = access.operation.written(old, access.operand) {
            self.write(entry, register, new);
        }
        granted(old)
    }

    /// SCTRCLR, as far as one entry is concerned. The cycle counter starts again; WRPTR and FROZEN
    /// stay.
    pub fn sctrclr(&mut self, entry: &mut Entry) -> Answer {
        if self.is_bad() {
            return refused(BAD_STATE);
        }
        if let Some(number) = refusal(self, Target::Sctrclr) {
            return refused(number);
        }
        *entry = Entry::default();
        self.restart_cycles(false);
        granted(0)
    }

    /// The host sets the CTR bits of mstateen0 and hstateen0, each as given.
    pub fn set_state_enables(&mut self, mstateen0_ctr: bool, hstateen0_ctr: bool) -> Answer {
        if self.is_bad() {
            return refused(BAD_STATE);
        }
        self.mstateen0_ctr = mstateen0_ctr;
        self.hstateen0_ctr = hstateen0_ctr;
        granted(0)
    }
}
