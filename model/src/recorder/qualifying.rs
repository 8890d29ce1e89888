//! What the modes and the control registers say of transfers.

use super::Trap;
use crate::classifier::NOT_TAKEN_BRANCH;
use crate::registers::Mode::{self, *};
use crate::registers::Registers;

pub(super) const EXCEPTION: u8 = 1;
pub(super) const INTERRUPT: u8 = 2;
pub(super) const TRAP_RETURN: u8 = 3;

// Bits of the control registers. In vsctrctl STE is VSTE.
const RASEMU: u64 = 1 << 7;
const STE: u64 = 1 << 8;
const MTE: u64 = 1 << 9;
const BPFRZ: u64 = 1 << 11;
const LCOFIFRZ: u64 = 1 << 12;

/// Types and their bits have the same order: that of type 1, EXCINH, is bit 33, and so on. All of
/// them inhibit but that of type 4, NTBREN.
const INHIBITS: u32 = 32;

const BREAKPOINT: u64 = 3;
const COUNTER_OVERFLOW: u64 = 13;

pub(super) fn is_possible_trap(source: Mode, target: Mode) -> bool {
    match source {
        U => matches!(target, S | M),
        VU | VS => matches!(target, VS | S | M),
        S => matches!(target, S | M),
        M => target == M,
    }
}

pub(super) fn is_possible_return(source: Mode, target: Mode) -> bool {
    match source {
        M => true,
        S => target != M,
        VS => matches!(target, VS | VU),
        U | VU => false,
    }
}

/// The modes that traps from this one may pass on their way up, from below.
fn modes_above(mode: Mode) -> &'static [Mode] {
    match mode {
        VU => &[VS, S, M],
        U | VS => &[S, M],
        S => &[M],
        M => &[],
    }
}

/// Whether transfers of this type are kept out. Not-taken branches are, unless NTBREN is set.
pub(super) fn is_inhibited(control: u64, number: u8) -> bool {
    let is_set = control >> (INHIBITS + u32::from(number)) & 1 == 1;
    is_set != (number == NOT_TAKEN_BRANCH)
}

pub(super) fn is_emulating(control: u64) -> bool {
    control & RASEMU != 0
}

impl Registers {
    /// The control register that has a mode's switch and external bit, and the freeze bits for
    /// traps to it.
    fn control(&self, mode: Mode) -> u64 {
        if mode.is_virtual() {
            self.vsctrctl
        } else {
            self.mctrctl
        }
    }

    /// The control register whose other fields, RASEMU, the inhibits and NTBREN, govern a transfer:
    /// between V=0 and V=1 vsctrctl, else that of both modes.
    pub(super) fn governing_control(&self, source: Mode, target: Mode) -> u64 {
        if source.is_virtual() != target.is_virtual() {
            self.vsctrctl
        } else {
            self.control(source)
        }
    }

    /// The switches are the lowest bits.
    pub(crate) fn is_on(&self, mode: Mode) -> bool {
        let place = match mode {
            U | VU => 0,
            S | VS => 1,
            M => 2,
        };
        self.control(mode) >> place & 1 == 1
    }

    /// Whether the external bits of the target and of every mode between are set.
    pub(super) fn shows_external_trap(&self, source: Mode, target: Mode) -> bool {
        let above = modes_above(source);
        let end = above.iter().position(|mode| *mode == target);
        end.is_some_and(|end| {
            above[..=end]
                .iter()
                .all(|mode| self.has_external_bit(*mode))
        })
    }

    /// Traps to U and VU are not possible, so these have no external bit.
    fn has_external_bit(&self, mode: Mode) -> bool {
        let bit = match mode {
            S | VS => STE,
            M => MTE,
            U | VU => return false,
        };
        self.control(mode) & bit != 0
    }

    /// Whether a possible trap sets FROZEN, by the control register of its target mode.
    pub(super) fn is_freezing(&self, trap: &Trap) -> bool {
        let bit = match (trap.is_interrupt, trap.cause) {
            (false, BREAKPOINT) => BPFRZ,
            (true, COUNTER_OVERFLOW) => LCOFIFRZ,
            _ => return false,
        };
        self.control(trap.target_mode) & bit != 0
    }
}
