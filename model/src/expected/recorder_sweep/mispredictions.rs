//! What MISP met: the transfers that were recorded, popped or swapped, and the accesses to ctrtarget.

#[cfg(test)]
use super::any_is_0;
use super::rows_under;
use crate::recorder::{Event, Machine};
use crate::registers::csr::{SIREG2, VSIREG2};
use crate::registers::Entry;

/// Cells of a row: eight, by three bits.
type Row = [u32; 8];

#[derive(Default)]
pub(super) struct Mispredictions {
    /// Of words, by the flag, bit 0 of the target and MISP of the entry before.
    records: Row,
    pops: Row,
    swaps: Row,
    /// Records of traps and returns, by whether the target mode is on in place of the flag.
    crossings: Row,
    /// Granted accesses to ctrtarget, by the operation, MISP as it was read and bit 0 of the operand.
    accesses: [u32; 16],
}

impl Mispredictions {
    /// An event that was answered with this value, from a good state.
    pub(super) fn add(&mut self, event: Event, before: &Machine, value: u64) {
        let registers = &before.registers;
        let at_wrptr = before.entries[registers.wrptr as usize];
        let newest = before.entries[registers.physical_entry(0) as usize];
        match event {
            Event::Retired(retired) => {
                let (row, old) = match value {
                    1 => (&mut self.records, at_wrptr),
                    2 => (&mut self.pops, newest),
                    3 => (&mut self.swaps, newest),
                    _ => return,
                };
                row[cell(retired.mispredicted, retired.target, old)] += 1;
            }
            Event::Trap(trap) if value == 1 => {
                let is_on = registers.is_on(trap.target_mode);
                self.crossings[cell(is_on, trap.handler, at_wrptr)] += 1;
            }
            Event::TrapReturn(trap_return) if value == 1 => {
                let is_on = registers.is_on(trap_return.target_mode);
                self.crossings[cell(is_on, trap_return.target, at_wrptr)] += 1;
            }
            Event::Access(access) if [SIREG2, VSIREG2].contains(&access.csr) => {
                let index = access.operation as u64 * 4 + value % 2 * 2 + access.operand % 2;
                self.accesses[index as usize] += 1;
            }
            _ => {}
        }
    }

    fn rows(&self) -> [(&'static str, &[u32]); 5] {
        [
            ("    records", &self.records),
            ("    pops", &self.pops),
            ("    swaps", &self.swaps),
            (
                "    traps and returns, by the target mode in place of the flag",
                &self.crossings,
            ),
            (
                "  accesses to ctrtarget, by operation, MISP and bit 0 of the operand",
                &self.accesses,
            ),
        ]
    }

    pub(super) fn lines(&self) -> String {
        rows_under(
            "  MISP, by the flag, bit 0 of the target and MISP before\n",
            &self.rows(),
        )
    }

    #[cfg(test)]
    pub(super) fn has_none(&self) -> bool {
        any_is_0(&self.rows())
    }
}

fn cell(is_set: bool, target: u64, old: Entry) -> usize {
    usize::from(is_set) + (target % 2 * 2 + old.ctrtarget % 2 * 4) as usize
}
