//! What the switch met: words with a code of C.FSDSP, by what they are with it on.

#[cfg(test)]
use super::any_is_0;
use super::rows_under;
use crate::recorder::{Event, Machine};

/// CM.JT, CM.JALT, CM.POPRET, CM.POPRETZ, and other codes.
type Kinds = [u32; 5];

#[derive(Default)]
pub(super) struct Switched {
    off: Kinds,
    nothing: Kinds,
    records: [u32; 4],
    pops: [u32; 2],
}

impl Switched {
    /// An event that was answered with this value, from a good state.
    pub(super) fn add(&mut self, event: Event, before: &Machine, value: u64) {
        let Event::Retired(retired) = event else {
            return;
        };
        let Some(kind) = kind(retired.word as u16) else {
            return;
        };
        match (before.registers.zc, value) {
            (false, 0) => self.off[kind] += 1,
            (true, 0) => self.nothing[kind] += 1,
            (true, 1) => self.records[kind] += 1,
            (true, 2) => self.pops[kind - 2] += 1,
            _ => panic!("{retired:?} is answered with {value}"),
        }
    }

    fn rows(&self) -> [(&'static str, &[u32]); 4] {
        [
            ("    switch off", &self.off),
            ("    switch on, nothing", &self.nothing),
            ("    switch on, records", &self.records),
            ("    switch on, pops", &self.pops),
        ]
    }

    pub(super) fn lines(&self) -> String {
        rows_under(
            "  codes of C.FSDSP: CM.JT, CM.JALT, CM.POPRET, CM.POPRETZ, others\n",
            &self.rows(),
        )
    }

    #[cfg(test)]
    pub(super) fn has_none(&self) -> bool {
        any_is_0(&self.rows())
    }
}

/// By the low half of a word, if it has a code of C.FSDSP.
fn kind(low: u16) -> Option<usize> {
    let rlist = low >> 4 & 0xf;
    match (low & 0xe003, low >> 8) {
        (0xa002, 0xa0) if low & 0x80 == 0 => Some(0),
        (0xa002, 0xa0..=0xa3) => Some(1),
        (0xa002, 0xbe) if rlist >= 4 => Some(2),
        (0xa002, 0xbc) if rlist >= 4 => Some(3),
        (0xa002, _) => Some(4),
        _ => None,
    }
}
