//! What the tests of single rules share: control bits, words, possible mode changes, and a step that
//! is answered. Each of them uses a part of it.
#![allow(dead_code)]

use model::access::{Access, Answer, Operation};
use model::recorder::{Event, Machine};
use model::registers::{Entry, Mode, Registers};

use Mode::*;

pub const RASEMU: u64 = 1 << 7;
pub const STE: u64 = 1 << 8;
pub const MTE: u64 = 1 << 9;
pub const BPFRZ: u64 = 1 << 11;
pub const LCOFIFRZ: u64 = 1 << 12;
pub const NTBREN: u64 = 1 << 36;

/// EXCINH to TRETINH, TKBRINH, INDCALLINH to DIRLJMPINH.
pub const ALL_INHIBITS: u64 = 0xFF2E << 32;

/// BEQ x0,x0; JAL x1; JALR x1,x1; JALR x0,x1; JALR x1,x5.
pub const BRANCH: u32 = 0x0000_0063;
pub const DIRECT_CALL: u32 = 0x0000_00EF;
pub const INDIRECT_CALL: u32 = 0x0000_80E7;
pub const RETURN: u32 = 0x0000_8067;
pub const SWAP: u32 = 0x0002_80E7;

/// ADDI x0,x0,0.
pub const NOP: u32 = 0x0000_0013;

/// Words of no type: NOP, C.EBREAK, SRET, MRET and SCTRCLR.
pub const OTHER_WORDS: [u32; 5] = [NOP, 0x0000_9002, 0x1020_0073, 0x3020_0073, 0x1040_0073];

pub const POSSIBLE_TRAPS: [(Mode, Mode); 11] = [
    (U, S),
    (U, M),
    (VU, VS),
    (VU, S),
    (VU, M),
    (VS, VS),
    (VS, S),
    (VS, M),
    (S, S),
    (S, M),
    (M, M),
];

pub const POSSIBLE_RETURNS: [(Mode, Mode); 11] = [
    (M, U),
    (M, S),
    (M, M),
    (M, VU),
    (M, VS),
    (S, S),
    (S, U),
    (S, VS),
    (S, VU),
    (VS, VS),
    (VS, VU),
];

pub fn access(operation: Operation, csr: u64, operand: u64) -> Event {
    Event::Access(Access {
        operation,
        csr,
        operand,
    })
}

pub const fn entry(ctrsource: u64, ctrtarget: u64, ctrdata: u64) -> Entry {
    Entry {
        ctrsource,
        ctrtarget,
        ctrdata,
    }
}

pub fn switch_on(registers: &mut Registers, modes: &[Mode]) {
    for mode in modes {
        match mode {
            U => registers.mctrctl |= 1,
            S => registers.mctrctl |= 2,
            M => registers.mctrctl |= 4,
            VU => registers.vsctrctl |= 1,
            VS => registers.vsctrctl |= 2,
        }
    }
}

/// The machine with the bits set in both control registers.
pub fn with_bits(mut machine: Machine, bits: u64) -> Machine {
    machine.registers.mctrctl |= bits;
    machine.registers.vsctrctl |= bits & !MTE;
    machine
}

/// The value of an answer with number 0, and the state afterwards.
pub fn outcome(start: &Machine, event: Event) -> (u64, Machine) {
    let mut after = start.clone();
    let Answer { number, value } = after.step(event);
    assert_eq!(number, 0, "{event:x?} in {:x?}", start.registers);
    (value, after)
}
