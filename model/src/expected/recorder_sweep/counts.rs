//! What the cycle counter met: records by their CCE, what counted and what did not, and what started it
//! again.

use crate::recorder::{Event, Machine};
use crate::registers::Registers;

/// The counter's top.
const TOP: u64 = (1 << 27) - 1;

#[derive(Default)]
pub(super) struct Counts {
    /// Ordinary records by their CCE, and those with CCV 0 and with CCV 1.
    pub(super) cce: [u32; 16],
    pub(super) invalid: u32,
    pub(super) valid: u32,
    /// Records and swaps under RASEMU.
    pub(super) emulated: u32,
    /// Traps from a mode that is off into one that is on, recorded with a count.
    pub(super) from_off: u32,
    /// Retired words, traps and returns that left the counter at its top, and those that RASEMU made
    /// zero it.
    pub(super) top: u32,
    pub(super) zeroed: u32,
    /// Freezing traps whose own cycles counted.
    pub(super) freezing: u32,
    /// Cycles that did not count: of modes that are off, and of others while FROZEN was set.
    pub(super) off: u32,
    pub(super) frozen: u32,
    /// What started a counter again that had a count or a CCV: writes of control registers, those among
    /// them that changed none, and SCTRCLR.
    pub(super) written: u32,
    pub(super) unchanged: u32,
    pub(super) cleared: u32,
}

impl Counts {
    /// A step from good registers that was answered; `value` is that of a transfer.
    pub(super) fn add(
        &mut self,
        event: Event,
        before: &Registers,
        after: &Machine,
        value: Option<u64>,
    ) {
        let new = &after.registers;
        let was_emptied = !is_empty(before) && is_empty(new);
        match (event, value) {
            (_, Some(value)) => {
                self.add_record(before, after, value);
                self.top += u32::from(new.cycles == TOP);
                self.zeroed += u32::from(value != 1 && was_emptied);
                self.freezing += u32::from(value == 4 && new.cycles > before.cycles);
                if cycles(event) > 0 {
                    let is_off = !before.is_on(before.mode);
                    self.off += u32::from(is_off);
                    self.frozen += u32::from(before.frozen && !is_off);
                }
            }
            (Event::Access(_), None) if was_emptied => {
                let is_same = (before.mctrctl, before.vsctrctl) == (new.mctrctl, new.vsctrctl);
                self.written += 1;
                self.unchanged += u32::from(is_same);
            }
            (Event::Sctrclr, None) if was_emptied => self.cleared += 1,
            _ => {}
        }
    }

    /// After an ordinary record the next one has CCV 1, and after one under RASEMU 0.
    fn add_record(&mut self, before: &Registers, after: &Machine, value: u64) {
        let is_ordinary = value == 1 && after.registers.ccv;
        self.emulated += u32::from(value == 1 && !is_ordinary || value == 3);
        if is_ordinary {
            let record = after.entries[before.wrptr as usize];
            self.cce[(record.ctrdata >> 28) as usize] += 1;
            self.invalid += u32::from(!before.ccv);
            self.valid += u32::from(before.ccv);
            self.from_off += u32::from(!before.is_on(before.mode) && before.cycles > 0);
        }
    }

    fn others(&self) -> [(&'static str, u32); 12] {
        [
            ("records with CCV 0", self.invalid),
            ("records with CCV 1", self.valid),
            ("records and swaps under RASEMU", self.emulated),
            ("records from off to on with a count", self.from_off),
            ("counters at their top", self.top),
            ("counters zeroed by RASEMU", self.zeroed),
            ("freezing traps counted", self.freezing),
            ("cycles of modes that are off", self.off),
            ("cycles while frozen", self.frozen),
            ("restarts by a control write", self.written),
            ("restarts by one that changes nothing", self.unchanged),
            ("restarts by SCTRCLR", self.cleared),
        ]
    }

    pub(super) fn lines(&self) -> String {
        let mut text = "  records by CCE".to_string();
        for count in self.cce {
            text += &format!(" {count}");
        }
        text += "\n";
        for (name, count) in self.others() {
            text += &format!("  {name} {count}\n");
        }
        text
    }

    #[cfg(test)]
    pub(super) fn has_none(&self) -> bool {
        self.cce.contains(&0) || self.others().iter().any(|(_, count)| *count == 0)
    }
}

/// No count, and CCV 0 to come.
fn is_empty(registers: &Registers) -> bool {
    registers.cycles == 0 && !registers.ccv
}

fn cycles(event: Event) -> u32 {
    match event {
        Event::Retired(retired) => retired.cycles,
        Event::Trap(trap) => trap.cycles,
        Event::TrapReturn(trap_return) => trap_return.cycles,
        _ => 0,
    }
}
