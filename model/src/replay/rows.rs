//! Rows: events as four words each, and as bytes of a file.

use crate::access::{Access, Operation};
use crate::recorder::{Event, Retired, Trap, TrapReturn};
use crate::registers::Mode;

pub type Row = [u64; 4];

/// How many bytes of a file are a row.
pub const ROW_BYTES: usize = 32;

// The kinds of event, in the lowest byte of word 0.
const RETIRED: u64 = 0;
const TRAP: u64 = 1;
const TRAP_RETURN: u64 = 2;
const ACCESS: u64 = 3;
const SCTRCLR: u64 = 4;
const HOST: u64 = 5;

/// Where the other fields of word 0 start.
const FIELDS: u32 = 8;

/// Where, among those fields, the cycles of a retired word, a trap or a return start.
const CYCLES: u32 = 32 - FIELDS;

// Among those fields, the codes of modes and operations are lowest, and so is whether a retired
// word is taken; whether it was mispredicted comes next. A trap has its interrupt bit above the
// code, and of the host's bits that of hstateen0 is the second.
const MISPREDICTED: u32 = 1;
const MODE_CODE: u64 = 7;
const INTERRUPT: u32 = 3;
const HSTATEEN0: u32 = 1;

/// CSR numbers are below this.
const CSR_NUMBERS: u64 = 4096;

/// The index of the first word of a row that breaks a rule.
pub type BrokenWord = usize;

#[inline]
pub fn decode([head, w1, w2, w3]: Row) -> Result<Event, BrokenWord> {
    let (kind, fields) = (head % (1 << FIELDS), head >> FIELDS);
    match kind {
        RETIRED => retired(fields, w1, w2, w3),
        TRAP => trap(fields, w1, w2, w3),
        TRAP_RETURN => trap_return(fields, w1, w2, w3),
        ACCESS => access(fields, w1, w2, w3),
        SCTRCLR => sctrclr(fields, [w1, w2, w3]),
        HOST => host(fields, [w1, w2, w3]),
        _ => Err(0),
    }
}

fn retired(fields: u64, word: u64, pc: u64, target: u64) -> Result<Event, BrokenWord> {
    let (fields, cycles) = split_cycles(fields);
    require(0, fields < 2 << MISPREDICTED)?;
    Ok(Event::Retired(Retired {
        word: u32::try_from(word).map_err(|_| 1_usize)?,
        pc,
        target,
        taken: bit(fields, 0),
        mispredicted: bit(fields, MISPREDICTED),
        cycles,
    }))
}

fn trap(fields: u64, cause: u64, epc: u64, handler: u64) -> Result<Event, BrokenWord> {
    let (fields, cycles) = split_cycles(fields);
    require(0, fields < 2 << INTERRUPT)?;
    Ok(Event::Trap(Trap {
        target_mode: mode(fields & MODE_CODE)?,
        is_interrupt: bit(fields, INTERRUPT),
        cause,
        epc,
        handler,
        cycles,
    }))
}

fn trap_return(fields: u64, zero: u64, pc: u64, target: u64) -> Result<Event, BrokenWord> {
    let (fields, cycles) = split_cycles(fields);
    let target_mode = mode(fields)?;
    require(1, zero == 0)?;
    Ok(Event::TrapReturn(TrapReturn {
        target_mode,
        pc,
        target,
        cycles,
    }))
}

fn access(fields: u64, csr: u64, operand: u64, zero: u64) -> Result<Event, BrokenWord> {
    let operation = *by_code(&Operation::ALL, fields)?;
    require(1, csr < CSR_NUMBERS)?;
    require(3, zero == 0)?;
    Ok(Event::Access(Access {
        operation,
        csr,
        operand,
    }))
}

fn sctrclr(fields: u64, zeros: [u64; 3]) -> Result<Event, BrokenWord> {
    require(0, fields == 0)?;
    require_zeros(zeros)?;
    Ok(Event::Sctrclr)
}

fn host(fields: u64, zeros: [u64; 3]) -> Result<Event, BrokenWord> {
    require(0, fields < 2 << HSTATEEN0)?;
    require_zeros(zeros)?;
    Ok(Event::Host {
        mstateen0_ctr: bit(fields, 0),
        hstateen0_ctr: bit(fields, HSTATEEN0),
    })
}

/// The fields below the cycles, and the cycles.
fn split_cycles(fields: u64) -> (u64, u32) {
    (fields % (1 << CYCLES), (fields >> CYCLES) as u32)
}

fn require(word: BrokenWord, holds: bool) -> Result<(), BrokenWord> {
    if holds {
        Ok(())
    } else {
        Err(word)
    }
}

/// Words 1 to 3 of an event that has no data there.
fn require_zeros(words: [u64; 3]) -> Result<(), BrokenWord> {
    match words.iter().position(|word| *word != 0) {
        Some(index) => Err(index + 1),
        None => Ok(()),
    }
}

fn bit(fields: u64, place: u32) -> bool {
    fields >> place & 1 == 1
}

fn mode(code: u64) -> Result<Mode, BrokenWord> {
    by_code(&Mode::ALL, code).copied()
}

/// The thing of a code in word 0.
fn by_code<T>(things: &[T], code: u64) -> Result<&T, BrokenWord> {
    let index = usize::try_from(code).map_err(|_| 0_usize)?;
    things.get(index).ok_or(0)
}

/// The row of an event; it is malformed if the event has a CSR number that there isn't.
pub fn encode(event: Event) -> Row {
    match event {
        Event::Retired(retired) => {
            let mispredicted = u64::from(retired.mispredicted) << MISPREDICTED;
            let fields = u64::from(retired.taken) | mispredicted;
            [
                head(RETIRED, with_cycles(fields, retired.cycles)),
                retired.word.into(),
                retired.pc,
                retired.target,
            ]
        }
        Event::Trap(trap) => {
            let fields = trap.target_mode as u64 | u64::from(trap.is_interrupt) << INTERRUPT;
            [
                head(TRAP, with_cycles(fields, trap.cycles)),
                trap.cause,
                trap.epc,
                trap.handler,
            ]
        }
        Event::TrapReturn(trap_return) => {
            let fields = trap_return.target_mode as u64;
            [
                head(TRAP_RETURN, with_cycles(fields, trap_return.cycles)),
                0,
                trap_return.pc,
                trap_return.target,
            ]
        }
        Event::Access(access) => [
            head(ACCESS, access.operation as u64),
            access.csr,
            access.operand,
            0,
        ],
        Event::Sctrclr => [head(SCTRCLR, 0), 0, 0, 0],
        Event::Host {
            mstateen0_ctr,
            hstateen0_ctr,
        } => {
            let bits = u64::from(mstateen0_ctr) | u64::from(hstateen0_ctr) << HSTATEEN0;
            [head(HOST, bits), 0, 0, 0]
        }
    }
}

fn head(kind: u64, fields: u64) -> u64 {
    kind | fields << FIELDS
}

fn with_cycles(fields: u64, cycles: u32) -> u64 {
    fields | u64::from(cycles) << CYCLES
}

/// The words that the bytes of a row are.
#[inline]
pub fn row_of(bytes: &[u8; ROW_BYTES]) -> Row {
    let (words, _) = bytes.as_chunks();
    [0, 1, 2, 3].map(|index: usize| u64::from_le_bytes(words[index]))
}

/// The bytes of rows in a file.
pub fn bytes_of(rows: impl IntoIterator<Item = Row>) -> Vec<u8> {
    rows.into_iter()
        .flatten()
        .flat_map(u64::to_le_bytes)
        .collect()
}
