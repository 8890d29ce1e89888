//! What the sweeps draw from.

use std::array;

use crate::digest::{xorshift64, SEED};
use crate::registers::Entry;

/// The last pseudo-random number that was drawn.
pub(super) struct Random(pub(super) u64);

impl Random {
    pub(super) fn from_seed() -> Random {
        Random(SEED)
    }

    pub(super) fn draw(&mut self) -> u64 {
        self.0 = xorshift64(self.0);
        self.0
    }

    /// As many numbers as are asked for, in the order in which they are drawn.
    pub(super) fn draw_all<const N: usize>(&mut self) -> [u64; N] {
        array::from_fn(|_| self.draw())
    }

    pub(super) fn entry(&mut self) -> Entry {
        let [ctrsource, ctrtarget, ctrdata] = self.draw_all();
        Entry {
            ctrsource,
            ctrtarget,
            ctrdata,
        }
    }
}
