//! Random start states and random events.

use std::array;

use crate::access::{Access, Operation};
use crate::expected::random::Random;
use crate::recorder::{Event, Machine, Retired, Trap, TrapReturn};
use crate::registers::csr::{SCTRDEPTH, SCTRSTATUS};
use crate::registers::{Mode, Registers, DEPTHS, MCTRCTL_MASK, SCTRCTL_MASK};

/// Each type by each kind of word that has it, with x1, x5 and a register that is not link as rd
/// and as base; then words that are none; then table jumps and pop-returns at their bounds, one with a
/// reserved rlist, and CM.PUSH.
const WORDS: [u32; 40] = [
    0x0000_8067, // jalr x0, x1
    0x0002_8067, // jalr x0, x5
    0x0003_0067, // jalr x0, x6
    0x0000_80e7, // jalr x1, x1
    0x0002_80e7, // jalr x1, x5
    0x0003_00e7, // jalr x1, x6
    0x0000_82e7, // jalr x5, x1
    0x0002_82e7, // jalr x5, x5
    0x0003_02e7, // jalr x5, x6
    0x0000_8367, // jalr x6, x1
    0x0002_8367, // jalr x6, x5
    0x0003_8367, // jalr x6, x7
    0x0000_006f, // jal x0
    0x0000_00ef, // jal x1
    0x0000_02ef, // jal x5
    0x0000_036f, // jal x6
    0x0000_8082, // c.jr x1
    0x0000_8282, // c.jr x5
    0x0000_8302, // c.jr x6
    0x0000_9082, // c.jalr x1
    0x0000_9282, // c.jalr x5
    0x0000_9302, // c.jalr x6
    0x0000_a001, // c.j
    0x0000_c001, // c.beqz
    0x0000_e001, // c.bnez
    0x0000_0063, // beq
    0x0000_7063, // bgeu
    0x0000_9002, // c.ebreak
    0x0000_8002, // c.jr x0
    0x0000_90e7, // jalr x1, x1 with funct3 1
    0x3020_0073, // mret
    0x1040_0073, // sctrclr
    0x0000_a002, // cm.jt 0
    0x0000_a07e, // cm.jt 31
    0x0000_a082, // cm.jalt 32
    0x0000_a3fe, // cm.jalt 255
    0x0000_be42, // cm.popret, rlist 4
    0x0000_bcfe, // cm.popretz, rlist 15
    0x0000_be3e, // cm.popret, rlist 3
    0x0000_b842, // cm.push
];

/// All listed CSR numbers; some that are not, beside them, at the ends of the ranges and far away;
/// and again those of the control registers, sctrstatus, the select registers, sireg and vsireg.
const NUMBERS: [u64; 40] = [
    0x14E,
    0x14F,
    0x15F,
    0x24E,
    0x34E,
    0x150,
    0x151,
    0x152,
    0x153,
    0x155,
    0x156,
    0x157,
    0x250,
    0x251,
    0x252,
    0x253,
    0x255,
    0x256,
    0x257,
    0x154,
    0x254,
    0x158,
    0x14D,
    0x25F,
    0x350,
    0,
    0x1FF,
    0x200,
    0x2FF,
    0x300,
    0xFFF,
    0x1_0000_014E,
    0x34E,
    0x14E,
    0x24E,
    0x14F,
    0x151,
    0x150,
    0x251,
    0x250,
];

/// Selections at both ends of the window, and of the entries in use at depths 16, 128 and 256; and
/// some in the window but for a high bit.
const EDGES: [u64; 10] = [
    0x1FF,
    0x200,
    0x20F,
    0x210,
    0x27F,
    0x280,
    0x2FF,
    0x300,
    0x100_0000_0205,
    0x8000_0000_0000_0205,
];

/// The causes that freeze, those beside them, those that are equal to them in their low bits, and
/// the largest. One of 16 is any cause.
const CAUSES: [u64; 15] = [
    3,
    13,
    3,
    13,
    0,
    2,
    4,
    12,
    14,
    0x1_0000_0003,
    0x1_0000_000D,
    0x8000_0000_0000_0003,
    0x8000_0000_0000_000D,
    0x13,
    u64::MAX,
];

/// What a start state may have in its control registers: all but RASEMU; neither RASEMU nor
/// inhibits nor NTBREN; all; all but inhibits and NTBREN. RASEMU and the inhibits keep many
/// transfers out.
const ALLOWED: [u64; 4] = [!0x80, 0x1B07, u64::MAX, 0x1B87];

/// Counters are below this.
const COUNTERS: u64 = 1 << 27;

/// Random choices that are made from one random number.
struct Choices(u64);

impl Choices {
    fn below(&mut self, n: u64) -> u64 {
        let choice = self.0 % n;
        self.0 /= n;
        choice
    }
}

fn mode(code: u64) -> Mode {
    one_of(&Mode::ALL, code)
}

fn one_of<T: Copy>(list: &[T], index: u64) -> T {
    list[(index % list.len() as u64) as usize]
}

impl Random {
    /// A start state. The entries may have undefined bits set.
    pub(super) fn machine(&mut self) -> Machine {
        Machine {
            registers: self.registers(),
            entries: array::from_fn(|_| self.entry()),
        }
    }

    /// Five of sixteen are bad, in one of the five ways there are; a depth code, WRPTR and the counter
    /// may be as large as they can be.
    fn registers(&mut self) -> Registers {
        let [a, b, c, d, f, g] = self.draw_all();
        let mut choices = Choices(a);
        let mode = mode(choices.below(5));
        let depth_code = choices.below(5);
        let depth = one_of(&DEPTHS, depth_code);
        let frozen = choices.below(8) == 0;
        let mstateen0_ctr = choices.below(4) != 0;
        let hstateen0_ctr = choices.below(4) != 0;
        let allowed = one_of(&ALLOWED, choices.below(4));
        let mut registers = Registers {
            mode,
            mctrctl: b & MCTRCTL_MASK & allowed,
            vsctrctl: c & SCTRCTL_MASK & allowed,
            depth_code,
            wrptr: d % depth,
            frozen,
            siselect: 0x200 + f % 0x100,
            vsiselect: 0x200 + f / 0x100 % 0x100,
            mstateen0_ctr,
            hstateen0_ctr,
            cycles: counter(g),
            ccv: g / 4 % 2 == 1,
            zc: false,
        };
        match choices.below(16) {
            0 => registers.depth_code = from_up(5, d),
            1 => registers.wrptr = from_up(depth, d),
            2 => registers.mctrctl |= 1 << 3,
            3 => registers.vsctrctl |= 1 << 2,
            4 => registers.cycles = from_up(COUNTERS, d),
            _ => {}
        }
        registers.zc = choices.below(2) == 1;
        registers
    }

    /// An event for a machine that is in the mode `source`.
    pub(super) fn event(&mut self, source: Mode) -> Event {
        let [k, w, x, y, z, n] = self.draw_all();
        let (kind, c) = (k % 64, k / 64);
        let (x, y) = (address(x), address(y));
        match kind {
            0..=29 => retired(w, x, y, c, cycles(n)),
            30..=37 => Event::Trap(Trap {
                target_mode: trap_target(source, c),
                is_interrupt: c / 16 % 2 == 1,
                cause: cause(c / 32, z),
                epc: x,
                handler: y,
                cycles: cycles(n),
            }),
            38..=45 => Event::TrapReturn(TrapReturn {
                target_mode: return_target(source, c),
                pc: x,
                target: y,
                cycles: cycles(n),
            }),
            46..=57 => Event::Access(Access {
                operation: one_of(&Operation::ALL, c),
                csr: one_of(&NUMBERS, w),
                operand: operand(c / 4, z),
            }),
            58 => resize(z),
            59..=61 => thaw(z),
            62 => Event::Sctrclr,
            _ => Event::Host {
                mstateen0_ctr: c % 4 != 0,
                hstateen0_ctr: c / 4 % 4 != 0,
            },
        }
    }

    /// A retired word, drawn without the numbers that other kinds of event need.
    pub(super) fn retired_word(&mut self) -> Event {
        let [w, pc, target, n] = self.draw_all();
        let (pc, target) = (address(pc), address(target));
        retired(w, pc, target, w / 320, cycles(n))
    }
}

/// A number from `least` on: that one, the largest, one near or one anywhere.
fn from_up(least: u64, d: u64) -> u64 {
    match d % 4 {
        0 => least,
        1 => u64::MAX,
        2 => least + d / 4 % 1000,
        _ => least + d / 8,
    }
}

/// Any address, and often 0, 1 or the last one.
pub(super) fn address(x: u64) -> u64 {
    match x % 16 {
        0 => 0,
        1 => 1,
        2 => u64::MAX,
        _ => x,
    }
}

fn cause(code: u64, z: u64) -> u64 {
    match code % 16 {
        15 => z,
        index => CAUSES[index as usize],
    }
}

/// A write that clears FROZEN, so that what was frozen goes on, with WRPTR anywhere.
fn thaw(z: u64) -> Event {
    Event::Access(Access {
        operation: Operation::Write,
        csr: SCTRSTATUS,
        operand: z % 256,
    })
}

/// A write of any depth code.
fn resize(z: u64) -> Event {
    Event::Access(Access {
        operation: Operation::Write,
        csr: SCTRDEPTH,
        operand: z % 8,
    })
}

/// A counter that is 0, at its top, or of any length.
fn counter(g: u64) -> u64 {
    match g % 4 {
        0 => 0,
        1 => COUNTERS - 1,
        _ => g / 8 % COUNTERS >> (g / (1 << 35) % 27),
    }
}

/// Cycles: none, one, at the ends of what is coded exactly and of what the counter holds, all that a
/// row can have, few, or any number of any length.
pub(super) fn cycles(n: u64) -> u32 {
    match n % 16 {
        0 => 0,
        1 => 1,
        2 => 4095,
        3 => 4096,
        4 => 1 << 26,
        5 => (1 << 27) - 1,
        6 => u32::MAX,
        7..=9 => (n / 16 % 64) as u32,
        _ => (n / 16) as u32 >> (n / (1 << 48) % 32),
    }
}

/// One of eight words is any word. The two low bits of the flags are whether it is taken and whether it
/// is mispredicted.
fn retired(w: u64, pc: u64, target: u64, flags: u64, cycles: u32) -> Event {
    let word = match w % 8 {
        0 => (w / 8) as u32,
        _ => one_of(&WORDS, w / 8),
    };
    Event::Retired(Retired {
        word,
        pc,
        target,
        taken: flags % 2 == 1,
        mispredicted: flags / 2 % 2 == 1,
        cycles,
    })
}

/// Any mode in one of four cases, else one that a trap can lead to.
fn trap_target(source: Mode, c: u64) -> Mode {
    use Mode::*;
    let code = c / 4;
    match (source, c % 4) {
        (_, 0) => mode(code),
        (U | S, _) => one_of(&[S, M, S], code),
        (M, _) => M,
        (VU | VS, _) => one_of(&[VS, S, M], code),
    }
}

/// Any mode in one of four cases, else one that a trap return can lead to, if there is one.
fn return_target(source: Mode, c: u64) -> Mode {
    use Mode::*;
    let code = c / 4;
    match (source, c % 4) {
        (_, 0) | (U | M | VU, _) => mode(code),
        (S, _) => one_of(&[U, S, VU, VS], code),
        (VS, _) => one_of(&[VS, VU], code),
    }
}

/// Any number, or one that is made for some of the registers: control words with all switches on
/// and without inhibits, FROZEN clear, all switches and RASEMU alone, selections of entries, edges,
/// depth codes, few bits.
fn operand(code: u64, z: u64) -> u64 {
    match code % 8 {
        0 => z,
        1 => z & 0x1B07 | 7,
        2 => z & !(1 << 31),
        3 => 0x87,
        4 => 0x200 + z % 0x100,
        5 => one_of(&EDGES, z),
        6 => z % 8,
        _ => z & 0xFF_0000_001F,
    }
}

#[cfg(test)]
mod tests {
    use super::*;
    use std::collections::HashSet;

    fn events() -> Vec<Event> {
        let mut random = Random::from_seed();
        (0..40_000)
            .map(|index| random.event(one_of(&Mode::ALL, index)))
            .collect()
    }

    fn all_in<T: Copy + Eq + std::hash::Hash>(list: &[T], drawn: impl Iterator<Item = T>) -> bool {
        let drawn: HashSet<T> = drawn.collect();
        list.iter().all(|thing| drawn.contains(thing))
    }

    #[test]
    fn every_word_number_and_cause_is_drawn() {
        let events = events();
        let words = events.iter().filter_map(|event| match event {
            Event::Retired(retired) => Some((retired.word, retired.taken)),
            _ => None,
        });
        let both = WORDS.map(|word| [(word, false), (word, true)]).concat();
        assert!(all_in(&both, words));
        let numbers = events.iter().filter_map(|event| match event {
            Event::Access(access) => Some((access.csr, access.operation as u8)),
            _ => None,
        });
        let all: Vec<(u64, u8)> = NUMBERS
            .iter()
            .flat_map(|number| [0, 1, 2, 3].map(|operation| (*number, operation)))
            .collect();
        assert!(all_in(&all, numbers));
        let causes = events.iter().filter_map(|event| match event {
            Event::Trap(trap) => Some((trap.cause, trap.is_interrupt)),
            _ => None,
        });
        let both = CAUSES.map(|cause| [(cause, false), (cause, true)]).concat();
        assert!(all_in(&both, causes));
    }

    #[test]
    fn every_address_is_drawn_on_each_side() {
        let events = events();
        let ends = [0, 1, u64::MAX];
        let sources = |kind: u8| {
            events.iter().filter_map(move |event| match event {
                Event::Retired(e) if kind == 0 => Some((e.pc, e.target)),
                Event::Trap(e) if kind == 1 => Some((e.epc, e.handler)),
                Event::TrapReturn(e) if kind == 2 => Some((e.pc, e.target)),
                _ => None,
            })
        };
        for kind in 0..3 {
            assert!(all_in(&ends, sources(kind).map(|(source, _)| source)));
            assert!(all_in(&ends, sources(kind).map(|(_, target)| target)));
        }
    }

    #[test]
    fn cycles_of_every_length_are_drawn_for_each_kind() {
        let events = events();
        let lengths: Vec<u32> = (0..=32).collect();
        for kind in 0..3 {
            let drawn = || {
                events.iter().filter_map(move |event| match event {
                    Event::Retired(e) if kind == 0 => Some(e.cycles),
                    Event::Trap(e) if kind == 1 => Some(e.cycles),
                    Event::TrapReturn(e) if kind == 2 => Some(e.cycles),
                    _ => None,
                })
            };
            let ends = [0, 1, 4095, 4096, 1 << 26, (1 << 27) - 1, u32::MAX];
            assert!(all_in(&ends, drawn()));
            assert!(all_in(
                &lengths,
                drawn().map(|cycles| 32 - cycles.leading_zeros())
            ));
        }
    }

    #[test]
    fn depth_codes_pointers_and_counters_go_up_to_the_largest() {
        let mut random = Random::from_seed();
        let drawn: Vec<Registers> = (0..4000).map(|_| random.registers()).collect();
        let codes = || drawn.iter().map(|registers| registers.depth_code);
        assert!(all_in(&[0, 1, 2, 3, 4, 5, u64::MAX], codes()));
        assert!(codes().any(|code| code > 1 << 32 && code < u64::MAX));
        let good = |registers: &&Registers| registers.depth_code < 5;
        let pointers = || drawn.iter().filter(good).map(|registers| registers.wrptr);
        assert!(all_in(&[16, 32, 64, 128, 255, 256, u64::MAX], pointers()));
        assert!(pointers().any(|wrptr| wrptr > 1 << 32 && wrptr < u64::MAX));
        let counters = || drawn.iter().map(|registers| registers.cycles);
        assert!(all_in(&[0, COUNTERS - 1, COUNTERS, u64::MAX], counters()));
        let lengths: Vec<u32> = (0..=27).collect();
        assert!(all_in(&lengths, counters().map(|n| 64 - n.leading_zeros())));
    }
}
