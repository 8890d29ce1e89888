//! How often each depth was met and each change of it, what only the largest depth has, and how many
//! entries came back.

use crate::recorder::Machine;
use crate::registers::{Registers, DEPTHS};

/// The largest depth.
const FULL: u64 = 256;

/// By the depth before an event and the one after it; how many events met WRPTR in the upper half of
/// all entries; how many records and pops went around at the largest depth; and how many valid entries
/// came into use again.
#[derive(Default)]
pub(super) struct Depths {
    pub(super) changes: [[u32; DEPTHS.len()]; DEPTHS.len()],
    pub(super) upper: u32,
    pub(super) wraps_up: u32,
    pub(super) wraps_down: u32,
    pub(super) back: u32,
}

impl Depths {
    /// A step from good registers. `value` is that of a transfer that was answered, and `deepest` the
    /// largest depth that the list had been at.
    pub(super) fn add(
        &mut self,
        before: &Registers,
        after: &Machine,
        value: Option<u64>,
        deepest: u64,
    ) {
        let (old, new) = (before.depth(), after.registers.depth());
        self.changes[before.depth_code as usize][after.registers.depth_code as usize] += 1;
        self.upper += u32::from(before.wrptr >= FULL / 2);
        match (value, before.wrptr) {
            (Some(1), 255) => self.wraps_up += 1,
            (Some(2), 0) if old == FULL => self.wraps_down += 1,
            _ => {}
        }
        if old < new && new <= deepest {
            let again = &after.entries[old as usize..new as usize];
            let valid = again.iter().filter(|entry| entry.ctrsource & 1 == 1);
            self.back += valid.count() as u32;
        }
    }

    pub(super) fn lines(&self) -> String {
        let mut text = "  depths, by the one before an event and the one after it\n".to_string();
        for (depth, counts) in DEPTHS.iter().zip(&self.changes) {
            text += &format!("    {depth}");
            for count in counts {
                text += &format!(" {count}");
            }
            text += "\n";
        }
        text += &format!("  WRPTR from 128 up {}\n", self.upper);
        text += &format!("  records at WRPTR 255 {}\n", self.wraps_up);
        text += &format!("  pops at WRPTR 0 and depth 256 {}\n", self.wraps_down);
        text + &format!("  entries in use again {}\n", self.back)
    }
}
