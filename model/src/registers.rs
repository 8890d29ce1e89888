//! The recorder's registers and one of its entries: any values, what of them is read, and what
//! becomes of a write. Who may read and write is asked elsewhere.

use std::ops::RangeInclusive;

use self::Register::*;
use crate::cycles::TOP;

/// The bits that mctrctl has.
pub const MCTRCTL_MASK: u64 = 0x0000_FF3E_0000_1B87;

/// The bits that sctrctl shows of mctrctl, all but M and MTE; vsctrctl has the same.
pub const SCTRCTL_MASK: u64 = 0x0000_FF3E_0000_1983;

/// The number of entries in use, by depth code.
pub const DEPTHS: [u64; 5] = [16, 32, 64, 128, 256];

/// The code of the largest depth; codes above it become this one when they are written.
const LAST_DEPTH_CODE: u64 = DEPTHS.len() as u64 - 1;

/// The selections that stand for logical entries 0 to 255.
const WINDOW: RangeInclusive<u64> = 0x200..=0x2FF;

/// The bits of sctrstatus that hold WRPTR.
const STATUS_WRPTR: u64 = 0xFF;

/// The position of FROZEN in sctrstatus.
const STATUS_FROZEN: u32 = 31;

/// The fields of ctrdata: CC in bits 31 to 16, CCV in bit 15 and TYPE in bits 3 to 0. Custom is not
/// there.
const CTRDATA_MASK: u64 = 0xFFFF_800F;

/// A privilege mode with its code; V is 1 in the last two.
#[derive(Clone, Copy, Debug, PartialEq, Eq)]
pub enum Mode {
    U = 0,
    S = 1,
    M = 2,
    VU = 3,
    VS = 4,
}

impl Mode {
    pub const ALL: [Mode; 5] = [Mode::U, Mode::S, Mode::M, Mode::VU, Mode::VS];

    pub fn is_virtual(self) -> bool {
        matches!(self, Mode::VU | Mode::VS)
    }
}

/// All of the recorder's state but its entries.
#[derive(Clone, Copy, Debug, PartialEq, Eq)]
pub struct Registers {
    pub mode: Mode,
    pub mctrctl: u64,
    pub vsctrctl: u64,
    pub depth_code: u64,
    pub wrptr: u64,
    pub frozen: bool,
    pub siselect: u64,
    pub vsiselect: u64,
    pub mstateen0_ctr: bool,
    pub hstateen0_ctr: bool,
    /// The cycles counted since the last restart.
    pub cycles: u64,
    /// The CCV that an ordinary record would now get.
    pub ccv: bool,
    /// Whether there are table jumps and pop-returns (Zcmt and Zcmp). Only a reset decides it.
    pub zc: bool,
}

/// The three words of an entry, undefined bits included.
#[derive(Clone, Copy, Debug, Default, PartialEq, Eq)]
pub struct Entry {
    pub ctrsource: u64,
    pub ctrtarget: u64,
    pub ctrdata: u64,
}

/// A register that has a CSR number. `Sireg(1)` is sireg, `Sireg(2)` is sireg2, and so on.
#[derive(Clone, Copy, Debug, PartialEq, Eq)]
pub(crate) enum Register {
    Sctrctl,
    Sctrstatus,
    Sctrdepth,
    Vsctrctl,
    Mctrctl,
    Siselect,
    Sireg(u8),
    Vsiselect,
    Vsireg(u8),
}

impl Register {
    /// Whether this is mctrctl, vsctrctl, or sctrctl, which stands for one of them.
    fn is_control(self) -> bool {
        matches!(self, Sctrctl | Vsctrctl | Mctrctl)
    }
}

/// The CSR numbers that are listed. 0x154 and 0x254 are not among them.
pub mod csr {
    pub const SCTRCTL: u64 = 0x14E;
    pub const SCTRSTATUS: u64 = 0x14F;
    pub const SCTRDEPTH: u64 = 0x15F;
    pub const VSCTRCTL: u64 = 0x24E;
    pub const MCTRCTL: u64 = 0x34E;
    pub const SISELECT: u64 = 0x150;
    pub const SIREG: u64 = 0x151;
    pub const SIREG2: u64 = 0x152;
    pub const SIREG3: u64 = 0x153;
    pub const SIREG4: u64 = 0x155;
    pub const SIREG5: u64 = 0x156;
    pub const SIREG6: u64 = 0x157;
    pub const VSISELECT: u64 = 0x250;
    pub const VSIREG: u64 = 0x251;
    pub const VSIREG2: u64 = 0x252;
    pub const VSIREG3: u64 = 0x253;
    pub const VSIREG4: u64 = 0x255;
    pub const VSIREG5: u64 = 0x256;
    pub const VSIREG6: u64 = 0x257;
}

const LISTED: [(u64, Register); 19] = [
    (csr::SCTRCTL, Sctrctl),
    (csr::SCTRSTATUS, Sctrstatus),
    (csr::SCTRDEPTH, Sctrdepth),
    (csr::VSCTRCTL, Vsctrctl),
    (csr::MCTRCTL, Mctrctl),
    (csr::SISELECT, Siselect),
    (csr::SIREG, Sireg(1)),
    (csr::SIREG2, Sireg(2)),
    (csr::SIREG3, Sireg(3)),
    (csr::SIREG4, Sireg(4)),
    (csr::SIREG5, Sireg(5)),
    (csr::SIREG6, Sireg(6)),
    (csr::VSISELECT, Vsiselect),
    (csr::VSIREG, Vsireg(1)),
    (csr::VSIREG2, Vsireg(2)),
    (csr::VSIREG3, Vsireg(3)),
    (csr::VSIREG4, Vsireg(4)),
    (csr::VSIREG5, Vsireg(5)),
    (csr::VSIREG6, Vsireg(6)),
];

/// The register of a CSR number, if it is listed.
pub(crate) fn listed(csr: u64) -> Option<Register> {
    LISTED
        .iter()
        .find(|(number, _)| *number == csr)
        .map(|(_, register)| *register)
}

impl Registers {
    /// Mode M, `zc` as given, and all else 0.
    pub const fn reset(zc: bool) -> Registers {
        Registers {
            mode: Mode::M,
            mctrctl: 0,
            vsctrctl: 0,
            depth_code: 0,
            wrptr: 0,
            frozen: false,
            siselect: 0,
            vsiselect: 0,
            mstateen0_ctr: false,
            hstateen0_ctr: false,
            cycles: 0,
            ccv: false,
            zc,
        }
    }

    /// All fields as numbers: the mode by its code, bits as 0 and 1.
    pub(crate) fn fields(&self) -> [u64; 13] {
        [
            self.mode as u64,
            self.mctrctl,
            self.vsctrctl,
            self.depth_code,
            self.wrptr,
            self.frozen.into(),
            self.siselect,
            self.vsiselect,
            self.mstateen0_ctr.into(),
            self.hstateen0_ctr.into(),
            self.cycles,
            self.ccv.into(),
            self.zc.into(),
        ]
    }

    /// Whether every event answers 5 here.
    pub fn is_bad(&self) -> bool {
        self.depth_code > LAST_DEPTH_CODE
            || self.wrptr >= self.depth()
            || self.mctrctl & !MCTRCTL_MASK != 0
            || self.vsctrctl & !SCTRCTL_MASK != 0
            || self.cycles > TOP
    }

    /// How many entries are in use. Panics if the depth code is bad.
    pub fn depth(&self) -> u64 {
        DEPTHS[self.depth_code as usize]
    }

    /// The physical entry of logical entry `i`: 0 is the one before WRPTR. Depths are powers of
    /// two, so a difference that wraps at 64 bits has the right remainder.
    pub fn physical_entry(&self, i: u64) -> u64 {
        self.wrptr.wrapping_sub(1).wrapping_sub(i) % self.depth()
    }

    /// The register that is read and written: with V=1, a supervisor register's VS counterpart
    /// if there is one.
    fn meant(&self, register: Register) -> Register {
        match register {
            Sctrctl if self.mode.is_virtual() => Vsctrctl,
            Siselect if self.mode.is_virtual() => Vsiselect,
            Sireg(k) if self.mode.is_virtual() => Vsireg(k),
            other => other,
        }
    }

    /// All 64 bits of the select register that belongs to sireg* or vsireg*; none for others.
    fn selection(&self, register: Register) -> Option<u64> {
        match self.meant(register) {
            Sireg(_) => Some(self.siselect),
            Vsireg(_) => Some(self.vsiselect),
            _ => None,
        }
    }

    /// Whether this is sireg* or vsireg*, and selects one of the logical entries 0 to 255.
    pub(crate) fn is_in_window(&self, register: Register) -> bool {
        self.selection(register)
            .is_some_and(|selection| WINDOW.contains(&selection))
    }

    /// Whether this is sireg* or vsireg*, and selects something else.
    pub(crate) fn is_outside_window(&self, register: Register) -> bool {
        self.selection(register)
            .is_some_and(|selection| !WINDOW.contains(&selection))
    }

    /// The logical entry that sireg* or vsireg* selects, if it is in use.
    fn selected_logical_entry(&self, register: Register) -> Option<u64> {
        self.selection(register)
            .and_then(|selection| selection.checked_sub(*WINDOW.start()))
            .filter(|logical| *logical < self.depth())
    }

    /// Whether this is sireg* or vsireg*, and selects an entry in use.
    fn selects_entry(&self, register: Register) -> bool {
        self.selected_logical_entry(register).is_some()
    }

    /// The physical entry that the register of a CSR number selects, if it selects one.
    pub(crate) fn selected_entry(&self, csr: u64) -> Option<u64> {
        listed(csr)
            .and_then(|register| self.selected_logical_entry(register))
            .map(|logical| self.physical_entry(logical))
    }

    /// What is read; `entry` is the one that the register selects, if it selects one.
    pub(crate) fn reading(&self, entry: &Entry, register: Register) -> u64 {
        match self.meant(register) {
            Sctrctl => self.mctrctl & SCTRCTL_MASK,
            Sctrstatus => self.wrptr | u64::from(self.frozen) << STATUS_FROZEN,
            Sctrdepth => self.depth_code,
            Vsctrctl => self.vsctrctl,
            Mctrctl => self.mctrctl,
            Siselect => self.siselect,
            Vsiselect => self.vsiselect,
            Sireg(k) | Vsireg(k) if self.selects_entry(register) => entry.reading(k),
            Sireg(_) | Vsireg(_) => 0,
        }
    }

    /// Writes; `entry` is the one that the register selects, if it selects one. The cycle counter
    /// starts again at each write of a control register, also if its value stays.
    pub(crate) fn write(&mut self, entry: &mut Entry, register: Register, value: u64) {
        if register.is_control() {
            self.restart_cycles(false);
        }
        match self.meant(register) {
            Sctrctl => {
                self.mctrctl = self.mctrctl & !SCTRCTL_MASK | value & SCTRCTL_MASK;
            }
            Sctrstatus => {
                self.wrptr = (value & STATUS_WRPTR) % self.depth();
                self.frozen = value >> STATUS_FROZEN & 1 == 1;
            }
            Sctrdepth => {
                self.depth_code = (value & 7).min(LAST_DEPTH_CODE);
                self.wrptr %= self.depth();
            }
            Vsctrctl => self.vsctrctl = value & SCTRCTL_MASK,
            Mctrctl => self.mctrctl = value & MCTRCTL_MASK,
            Siselect => self.siselect = value,
            Vsiselect => self.vsiselect = value,
            Sireg(k) | Vsireg(k) if self.selects_entry(register) => entry.write(k, value),
            Sireg(_) | Vsireg(_) => {}
        }
    }
}

impl Entry {
    pub(crate) fn from_words([ctrsource, ctrtarget, ctrdata]: [u64; 3]) -> Entry {
        Entry {
            ctrsource,
            ctrtarget,
            ctrdata,
        }
    }

    pub(crate) fn words(&self) -> [u64; 3] {
        [self.ctrsource, self.ctrtarget, self.ctrdata]
    }

    /// V, which is bit 0 of ctrsource.
    pub(crate) fn is_valid(&self) -> bool {
        self.ctrsource & 1 == 1
    }

    /// MISP, which is bit 0 of ctrtarget.
    pub(crate) fn is_mispredicted(&self) -> bool {
        self.ctrtarget & 1 == 1
    }

    /// Where the transfer comes from, V apart.
    pub(crate) fn source(&self) -> u64 {
        self.ctrsource & !1
    }

    /// Where the transfer goes to, MISP apart.
    pub(crate) fn target(&self) -> u64 {
        self.ctrtarget & !1
    }

    /// TYPE, which is bits 3 to 0 of ctrdata.
    pub(crate) fn transfer_type(&self) -> u8 {
        (self.ctrdata & 0xF) as u8
    }

    /// What sireg `k` reads of the entry. ctrtarget is read and written whole: bit 0 is MISP.
    fn reading(&self, k: u8) -> u64 {
        match k {
            1 => self.ctrsource,
            2 => self.ctrtarget,
            3 => self.ctrdata & CTRDATA_MASK,
            _ => 0,
        }
    }

    /// Writes through sireg `k`.
    fn write(&mut self, k: u8, value: u64) {
        match k {
            1 => self.ctrsource = value,
            2 => self.ctrtarget = value,
            3 => self.ctrdata = value & CTRDATA_MASK,
            _ => {}
        }
    }
}

#[cfg(test)]
mod tests {
    use super::*;

    /// U 0, S 1, RASEMU 7, STE 8, BPFRZ 11, LCOFIFRZ 12, EXCINH 33 to TKBRINH 37, INDCALLINH 40
    /// to DIRLJMPINH 47; and M 2, MTE 9 in mctrctl.
    #[test]
    fn masks_have_the_bits_of_the_fields() {
        let fields = [0, 1, 7, 8, 11, 12]
            .into_iter()
            .chain(33..=37)
            .chain(40..=47);
        let mask = fields.fold(0, |mask, bit| mask | 1_u64 << bit);
        assert_eq!(SCTRCTL_MASK, mask);
        assert_eq!(MCTRCTL_MASK, mask | 1 << 2 | 1 << 9);
    }

    #[test]
    fn fields_come_in_their_order() {
        let registers = Registers {
            mode: Mode::VS,
            mctrctl: 11,
            vsctrctl: 12,
            depth_code: 13,
            wrptr: 14,
            frozen: true,
            siselect: 15,
            vsiselect: 16,
            mstateen0_ctr: true,
            hstateen0_ctr: false,
            cycles: 17,
            ccv: true,
            zc: false,
        };
        let fields = [4, 11, 12, 13, 14, 1, 15, 16, 1, 0, 17, 1, 0];
        assert_eq!(registers.fields(), fields);
    }

    #[test]
    fn zc_is_the_last_field() {
        let mode_m_alone = [2, 0, 0, 0, 0, 0, 0, 0, 0, 0, 0, 0, 0];
        let with_zc = [2, 0, 0, 0, 0, 0, 0, 0, 0, 0, 0, 0, 1];
        assert_eq!(Registers::reset(false).fields(), mode_m_alone);
        assert_eq!(Registers::reset(true).fields(), with_zc);
    }

    #[test]
    fn listed_numbers_are_distinct() {
        for (index, (number, register)) in LISTED.iter().enumerate() {
            let earlier = &LISTED[..index];
            assert!(!earlier.iter().any(|(n, r)| n == number || r == register));
        }
    }
}
