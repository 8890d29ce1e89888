//! How often each edge between V=0 and V=1 was met where it matters which control register gives its
//! RASEMU and TRETINH.

use crate::registers::Mode::{self, *};
use crate::registers::Registers;

/// Returns into a guest and traps out of one, as they are printed.
const EDGES: [(Mode, Mode); 8] = [
    (S, VS),
    (S, VU),
    (M, VS),
    (M, VU),
    (VS, S),
    (VS, M),
    (VU, S),
    (VU, M),
];

pub(super) const RASEMU: u64 = 1 << 7;
pub(super) const TRETINH: u64 = 1 << 35;

/// Of each edge, by RASEMU and TRETINH of vsctrctl, of which mctrctl has the other, and by whether the source mode is on and
/// the target mode is.
#[derive(Default)]
pub(super) struct Edges(pub(super) [[u32; 16]; 8]);

impl Edges {
    /// A step from these registers that ended in a mode. The mode changes only where a trap or a return was possible.
    pub(super) fn add(&mut self, before: &Registers, after: Mode) {
        let differ = before.mctrctl ^ before.vsctrctl;
        if before.frozen || differ & RASEMU == 0 || differ & TRETINH == 0 {
            return;
        }
        let edge = EDGES.iter().position(|edge| *edge == (before.mode, after));
        if let Some(edge) = edge {
            let cell = [
                before.vsctrctl & RASEMU != 0,
                before.vsctrctl & TRETINH != 0,
                before.is_on(before.mode),
                before.is_on(after),
            ];
            let cell = cell.iter().fold(0, |n, bit| 2 * n + usize::from(*bit));
            self.0[edge][cell] += 1;
        }
    }

    pub(super) fn lines(&self) -> String {
        let mut text =
            "  edges where RASEMU and TRETINH differ, by those of vsctrctl and by the switches\n"
                .to_string();
        for ((source, target), counts) in EDGES.iter().zip(&self.0) {
            text += &format!("    {source:?} to {target:?}");
            for count in counts {
                text += &format!(" {count}");
            }
            text += "\n";
        }
        text
    }
}
