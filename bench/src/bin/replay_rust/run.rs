//! The rows of a trace, run one after the other, and how often each answer was given.

use super::access::{Change, CSR_NUMBERS};
use super::recorder::{Mode, Recorder, Value};

pub const ROW_BYTES: usize = 32;

// The kinds of event, in the lowest byte of word 0, where other fields are above them. Cycles, of the
// first three kinds only, are its upper half.
const RETIRED: u64 = 0;
const TRAP: u64 = 1;
const TRAP_RETURN: u64 = 2;
const ACCESS: u64 = 3;
const SCTRCLR: u64 = 4;
const HOST: u64 = 5;

/// The number of a refused mode change.
const NOT_POSSIBLE: u8 = 4;

#[derive(Clone, Copy)]
pub struct Answer {
    pub number: u8,
    pub value: u64,
}

pub struct Run {
    pub recorder: Recorder,
    /// How often each value was answered to a transfer.
    pub values: [u64; 5],
    /// How often each number but 0 was answered. 5 never is.
    pub refusals: [u64; 5],
    /// How often 0 was answered to another event than a transfer.
    pub others: u64,
}

impl Run {
    pub fn from_reset(zc: bool) -> Run {
        Run {
            recorder: Recorder::reset(zc),
            values: [0; 5],
            refusals: [0; 5],
            others: 0,
        }
    }

    /// The answer to the row's event, or none if the row is malformed.
    #[inline(always)]
    pub fn step(&mut self, row: &[u8; ROW_BYTES]) -> Option<Answer> {
        let [head, a, b, c] = words(row);
        let (low, cycles) = (head % (1 << 32), head >> 32);
        let (kind, fields) = (low % 256, low >> 8);
        // Most rows are of this kind, so it is asked for first.
        if kind == RETIRED && fields < 4 && a >> 32 == 0 {
            let (taken, misp) = (fields as u32 % 2, fields >> 1);
            let value = self.recorder.retire(a as u32, taken, misp, b, c, cycles);
            return Some(self.transfer(value));
        }
        match kind {
            TRAP if fields < 16 => {
                let to = Mode::of(fields % 8)?;
                let value = self.recorder.trap(to, fields >> 3 == 1, a, b, c, cycles);
                Some(self.mode_change(value))
            }
            TRAP_RETURN if a == 0 => {
                let to = Mode::of(fields)?;
                let value = self.recorder.trap_return(to, b, c, cycles);
                Some(self.mode_change(value))
            }
            ACCESS if a < CSR_NUMBERS && cycles | c == 0 => {
                let reading = self.recorder.access(a, Change::of(fields, b)?);
                Some(self.other(reading))
            }
            SCTRCLR if cycles | fields | a | b | c == 0 => {
                let value = self.recorder.clear();
                Some(self.other(value))
            }
            HOST if fields < 4 && cycles | a | b | c == 0 => {
                self.recorder.mstateen0_ctr = fields & 1 == 1;
                self.recorder.hstateen0_ctr = fields >> 1 == 1;
                Some(self.other(Ok(0)))
            }
            _ => None,
        }
    }

    #[inline(always)]
    fn transfer(&mut self, value: Value) -> Answer {
        self.values[value as usize] += 1;
        Answer {
            number: 0,
            value: value as u64,
        }
    }

    fn mode_change(&mut self, value: Option<Value>) -> Answer {
        match value {
            Some(value) => self.transfer(value),
            None => self.refusal(NOT_POSSIBLE),
        }
    }

    fn other(&mut self, value: Result<u64, u8>) -> Answer {
        match value {
            Ok(value) => {
                self.others += 1;
                Answer { number: 0, value }
            }
            Err(number) => self.refusal(number),
        }
    }

    fn refusal(&mut self, number: u8) -> Answer {
        self.refusals[usize::from(number)] += 1;
        Answer { number, value: 0 }
    }
}

#[inline(always)]
fn words(row: &[u8; ROW_BYTES]) -> [u64; 4] {
    let (words, _) = row.as_chunks();
    [0, 1, 2, 3].map(|index: usize| u64::from_le_bytes(words[index]))
}
