//! Register accesses and SCTRCLR.

use self::Register::*;
use super::recorder::{Mode, Recorder, ENTRIES, NO_ENTRY};

pub const CSR_NUMBERS: u64 = 4096;

// Numbers that the access steps ask about.
const SCTRSTATUS: u64 = 0x14F;
const SCTRDEPTH: u64 = 0x15F;
const MCTRCTL: u64 = 0x34E;

// The numbers of refusals.
const ILLEGAL_INSTRUCTION: u8 = 1;
const VIRTUAL_INSTRUCTION: u8 = 2;
const NO_SUCH_REGISTER: u8 = 3;

/// The code of the operation that writes nothing.
const READ: u64 = 0;

const MCTRCTL_MASK: u64 = 0x0000_FF3E_0000_1B87;
const SCTRCTL_MASK: u64 = 0x0000_FF3E_0000_1983;
const CTRDATA_MASK: u64 = 0xFFFF_800F;

/// The place of FROZEN in sctrstatus.
const STATUS_FROZEN: u32 = 31;

// The selections of logical entries.
const WINDOW_START: u64 = 0x200;
const WINDOW_SIZE: usize = 256;

/// What an access makes of a reading: the bits that stay, and those that are set then.
#[derive(Clone, Copy)]
pub struct Change {
    kept: u64,
    set: u64,
    is_write: bool,
}

impl Change {
    /// By the operation's code: read, write, set and clear. To write what is read changes nothing but
    /// the count of cycles, so that reads are told apart.
    #[inline(always)]
    pub fn of(operation: u64, operand: u64) -> Option<Change> {
        let (kept, set) = match operation {
            READ => (!0, 0),
            1 => (0, operand),
            2 => (!0, operand),
            3 => (!operand, 0),
            _ => return None,
        };
        Some(Change {
            kept,
            set,
            is_write: operation != READ,
        })
    }

    fn written(self, old: u64) -> u64 {
        old & self.kept | self.set
    }
}

#[derive(Clone, Copy)]
enum Register {
    Mctrctl,
    Sctrctl,
    Vsctrctl,
    Sctrdepth,
    Sctrstatus,
    Siselect,
    Vsiselect,
    Sireg(Part),
    Vsireg(Part),
}

/// What is reached of an entry.
#[derive(Clone, Copy)]
enum Part {
    Source,
    Target,
    Data,
    Zero,
}

/// The listed registers.
static REGISTERS: [Option<Register>; CSR_NUMBERS as usize] = {
    let mut registers = [None; CSR_NUMBERS as usize];
    let mut csr = 0;
    while csr < CSR_NUMBERS {
        registers[csr as usize] = Register::of(csr);
        csr += 1;
    }
    registers
};

impl Register {
    const fn of(csr: u64) -> Option<Register> {
        Some(match csr {
            0x14E => Sctrctl,
            SCTRSTATUS => Sctrstatus,
            0x150 => Siselect,
            0x151 => Sireg(Part::Source),
            0x152 => Sireg(Part::Target),
            0x153 => Sireg(Part::Data),
            0x155..=0x157 => Sireg(Part::Zero),
            SCTRDEPTH => Sctrdepth,
            0x24E => Vsctrctl,
            0x250 => Vsiselect,
            0x251 => Vsireg(Part::Source),
            0x252 => Vsireg(Part::Target),
            0x253 => Vsireg(Part::Data),
            0x255..=0x257 => Vsireg(Part::Zero),
            MCTRCTL => Mctrctl,
            _ => return None,
        })
    }

    /// The register that is meant with V=1.
    fn of_guest(self) -> Register {
        match self {
            Sctrctl => Vsctrctl,
            Siselect => Vsiselect,
            Sireg(part) => Vsireg(part),
            other => other,
        }
    }
}

impl Recorder {
    /// The old reading, or the number of a refusal. The CSR number is below 4096.
    #[inline(never)]
    pub fn access(&mut self, csr: u64, change: Change) -> Result<u64, u8> {
        let mut register = REGISTERS[csr as usize].ok_or(NO_SUCH_REGISTER)?;
        if self.mode.is_virtual() {
            register = register.of_guest();
        }
        match register {
            Sireg(part) => return self.access_entry(csr, self.siselect, part, change),
            Vsireg(part) => return self.access_entry(csr, self.vsiselect, part, change),
            Mctrctl | Siselect | Vsiselect => self.ask(csr, false)?,
            Sctrctl | Vsctrctl | Sctrdepth | Sctrstatus => self.ask(csr, true)?,
        }
        let old = match register {
            Mctrctl => {
                let old = self.mctrctl;
                self.mctrctl = change.written(old) & MCTRCTL_MASK;
                self.restart_count_at(change);
                old
            }
            Sctrctl => {
                let (old, hidden) = (self.mctrctl & SCTRCTL_MASK, self.mctrctl & !SCTRCTL_MASK);
                self.mctrctl = hidden | change.written(old) & SCTRCTL_MASK;
                self.restart_count_at(change);
                old
            }
            Vsctrctl => {
                let old = self.vsctrctl;
                self.vsctrctl = change.written(old) & SCTRCTL_MASK;
                self.restart_count_at(change);
                old
            }
            Sctrdepth => {
                let old = self.depth_code();
                self.last = (16 << (change.written(old) & 7).min(4)) - 1;
                self.wrptr &= self.last;
                old
            }
            Sctrstatus => {
                let old = self.status();
                let new = change.written(old);
                self.wrptr = new as usize & 0xFF & self.last;
                self.frozen = new >> STATUS_FROZEN & 1 == 1;
                old
            }
            Siselect => {
                let old = self.siselect;
                self.siselect = change.written(old);
                old
            }
            Vsiselect => {
                let old = self.vsiselect;
                self.vsiselect = change.written(old);
                old
            }
            Sireg(_) | Vsireg(_) => 0,
        };
        self.update_wanted();
        Ok(old)
    }

    /// Every write of a control register restarts the count, whatever is written.
    #[inline(always)]
    fn restart_count_at(&mut self, change: Change) {
        if change.is_write {
            self.restart_count();
        }
    }

    #[inline(always)]
    fn access_entry(
        &mut self,
        csr: u64,
        selection: u64,
        part: Part,
        change: Change,
    ) -> Result<u64, u8> {
        let logical = selection.wrapping_sub(WINDOW_START) as usize;
        let is_in_window = logical < WINDOW_SIZE;
        self.ask(csr, is_in_window)?;
        if !is_in_window {
            return Err(NO_SUCH_REGISTER);
        }
        if logical > self.last {
            return Ok(0);
        }
        let entry = &mut self.entries[self.physical(logical)];
        let (word, mask) = match part {
            Part::Source => (&mut entry.source, !0),
            Part::Target => (&mut entry.target, !0),
            Part::Data => (&mut entry.data, CTRDATA_MASK),
            Part::Zero => return Ok(0),
        };
        let old = *word;
        *word = change.written(old) & mask;
        Ok(old)
    }

    /// The access steps after unlisted numbers and before selections outside the window. What is
    /// guarded has the state-enable bits asked.
    fn ask(&self, csr: u64, is_guarded: bool) -> Result<(), u8> {
        let is_shut_to_vs = csr >> 8 == 2 || csr == SCTRDEPTH;
        match self.mode {
            Mode::M => Ok(()),
            Mode::U => Err(ILLEGAL_INSTRUCTION),
            _ if csr == MCTRCTL => Err(ILLEGAL_INSTRUCTION),
            _ if is_guarded && !self.mstateen0_ctr => Err(ILLEGAL_INSTRUCTION),
            Mode::S => Ok(()),
            Mode::VU => Err(VIRTUAL_INSTRUCTION),
            Mode::VS if is_shut_to_vs => Err(VIRTUAL_INSTRUCTION),
            Mode::VS if is_guarded && !self.hstateen0_ctr => Err(VIRTUAL_INSTRUCTION),
            Mode::VS => Ok(()),
        }
    }

    pub fn depth_code(&self) -> u64 {
        u64::from((self.last + 1).ilog2() - 4)
    }

    /// What sctrstatus reads.
    pub fn status(&self) -> u64 {
        self.wrptr as u64 | u64::from(self.frozen) << STATUS_FROZEN
    }

    /// SCTRCLR, whose access steps are those of sctrstatus: 0, or the number of a refusal.
    #[inline(never)]
    pub fn clear(&mut self) -> Result<u64, u8> {
        self.ask(SCTRSTATUS, true)?;
        self.entries = [NO_ENTRY; ENTRIES];
        self.restart_count();
        Ok(0)
    }
}
