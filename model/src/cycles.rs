//! The cycle counter, and how its count is coded in ctrdata: CC is an exponent (CCE) above a
//! mantissa (CCM), and CCV says whether it is valid.

use crate::registers::Registers;

/// The counter has 27 bits, and stays at its top.
pub(crate) const TOP: u64 = (1 << 27) - 1;

// Where the fields start in ctrdata.
const CCV: u32 = 15;
const CCM: u32 = 16;
const CCE: u32 = 28;

/// How many values CCM has. Counts below this have the exponent 0.
const MANTISSAS: u64 = 1 << 12;

const LAST_EXPONENT: u64 = 15;

/// CC of a counter, in its place in ctrdata.
fn coded(counter: u64) -> u64 {
    let exponent = exponent(counter);
    let mantissa = (counter >> dropped_bits(exponent)) % MANTISSAS;
    exponent << CCE | mantissa << CCM
}

/// The first exponent under which the counter has room. That is 12 bits under exponent 0, and one
/// bit more under each next one.
fn exponent(counter: u64) -> u64 {
    (0..LAST_EXPONENT)
        .find(|exponent| counter < MANTISSAS << exponent)
        .unwrap_or(LAST_EXPONENT)
}

/// How many of the counter's lowest bits CC doesn't tell. From exponent 1 on it doesn't tell the
/// top bit either, which is always set.
fn dropped_bits(exponent: u64) -> u64 {
    exponent.saturating_sub(1)
}

/// The count that CC of ctrdata stands for, valid or not.
pub fn decoded(ctrdata: u64) -> u64 {
    let exponent = ctrdata >> CCE & LAST_EXPONENT;
    let mantissa = (ctrdata >> CCM) % MANTISSAS;
    match exponent {
        0 => mantissa,
        _ => (MANTISSAS + mantissa) << (exponent - 1),
    }
}

/// The count that CC of ctrdata stands for, if it is valid.
pub(crate) fn valid_count(ctrdata: u64) -> Option<u64> {
    (ctrdata >> CCV & 1 == 1).then(|| decoded(ctrdata))
}

impl Registers {
    /// CC and CCV that an ordinary record would now get, in their places in ctrdata.
    pub(crate) fn cycle_fields(&self) -> u64 {
        coded(self.cycles) | u64::from(self.ccv) << CCV
    }

    pub(crate) fn add_cycles(&mut self, cycles: u32) {
        self.cycles = (self.cycles + u64::from(cycles)).min(TOP);
    }

    /// The counter starts again, and the next ordinary record has this CCV.
    pub(crate) fn restart_cycles(&mut self, ccv: bool) {
        self.cycles = 0;
        self.ccv = ccv;
    }
}

#[cfg(test)]
mod tests {
    use super::*;
    use crate::digest::{xorshift64, SEED};
    use std::iter;

    /// CCE and CCM of a counter.
    fn parts(counter: u64) -> (u64, u64) {
        let cc = coded(counter);
        assert_eq!(cc & !0xFFFF_0000, 0);
        (cc >> 28, cc >> 16 & 0xFFF)
    }

    /// The first and the last counter of each exponent; 0 has all counters below 2^12.
    const LIMITS: [(u64, u64, u64); 16] = [
        (0, 0, 4_095),
        (1, 4_096, 8_191),
        (2, 8_192, 16_383),
        (3, 16_384, 32_767),
        (4, 32_768, 65_535),
        (5, 65_536, 131_071),
        (6, 131_072, 262_143),
        (7, 262_144, 524_287),
        (8, 524_288, 1_048_575),
        (9, 1_048_576, 2_097_151),
        (10, 2_097_152, 4_194_303),
        (11, 4_194_304, 8_388_607),
        (12, 8_388_608, 16_777_215),
        (13, 16_777_216, 33_554_431),
        (14, 33_554_432, 67_108_863),
        (15, 67_108_864, 134_217_727),
    ];

    #[test]
    fn each_exponent_has_its_limits() {
        for (exponent, first, last) in LIMITS {
            assert_eq!(parts(first), (exponent, 0));
            assert_eq!(parts(last), (exponent, 0xFFF));
        }
        assert_eq!(LIMITS[15].2, TOP);
    }

    #[test]
    fn the_exponent_is_the_index_of_the_top_bit_minus_11() {
        for counter in counters().filter(|counter| *counter >= 4096) {
            assert_eq!(parts(counter).0, u64::from(counter.ilog2()) - 11);
        }
    }

    /// Counter bits CCE+10 to CCE-1.
    #[test]
    fn the_mantissa_is_the_bits_below_the_top_bit() {
        for counter in counters().filter(|counter| *counter >= 4096) {
            let (exponent, mantissa) = parts(counter);
            for place in 0..12 {
                let bit = counter >> (exponent - 1 + place) & 1;
                assert_eq!(mantissa >> place & 1, bit, "{counter:#x}");
            }
        }
    }

    /// Published: the largest counts that 0 to 4 bits of exponent can tell, with counters of 12,
    /// 13, 15, 19 and 27 bits.
    #[test]
    fn the_largest_counts_are_the_published_ones() {
        let published = [
            (12, 4_095),
            (13, 8_191),
            (15, 32_764),
            (19, 524_224),
            (27, 134_201_344),
        ];
        for (bits, largest) in published {
            assert_eq!(decoded(coded((1 << bits) - 1)), largest);
        }
    }

    /// All up to exponent 4, those around each limit, and many others of each length.
    fn counters() -> impl Iterator<Item = u64> {
        let near_limits = LIMITS.into_iter().flat_map(|(_, first, last)| {
            let places = 0..=40_000;
            places.flat_map(move |place| [first + place, last.saturating_sub(place)])
        });
        let random = iter::successors(Some(SEED), |x| Some(xorshift64(*x)));
        let others = random.take(2_000_000).map(|x| (x >> 5 & TOP) >> (x % 27));
        (0..0x1_0000)
            .chain(near_limits)
            .chain(others)
            .filter(|counter| *counter <= TOP)
    }

    #[test]
    fn the_decoded_count_is_short_by_less_than_a_step() {
        for counter in counters() {
            let count = decoded(coded(counter));
            assert!(count <= counter, "{counter:#x}");
            let short = counter - count;
            match parts(counter).0 {
                0 => assert_eq!(short, 0),
                exponent => assert!(short < 1 << (exponent - 1), "{counter:#x}"),
            }
        }
    }

    /// Each CC is that of the count it stands for, which is the smallest that has it.
    #[test]
    fn every_cc_is_decoded_and_coded_again() {
        let mut next_count = 0;
        for cc in 0..=0xFFFF_u64 {
            let count = decoded(cc << 16);
            assert_eq!(coded(count), cc << 16);
            assert_eq!(count, next_count);
            next_count = count + (1 << (cc >> 12).saturating_sub(1));
        }
        assert_eq!(next_count, TOP + 1);
    }

    #[test]
    fn other_bits_of_ctrdata_are_not_decoded() {
        for cc in (0..=0xFFFF_u64).step_by(11) {
            let others = !0xFFFF_0000 & !(1 << 15);
            assert_eq!(decoded(cc << 16 | others), decoded(cc << 16));
            assert_eq!(valid_count(cc << 16 | others), None);
            let count = decoded(cc << 16);
            assert_eq!(valid_count(cc << 16 | others | 1 << 15), Some(count));
            assert_eq!(valid_count(cc << 16 | 1 << 15), Some(count));
        }
    }

    #[test]
    fn the_counter_stays_at_its_top() {
        let cases = [
            // counter, cycles, counter after them
            (0, 0, 0),
            (5, 7, 12),
            (0, u32::MAX, TOP),
            (TOP - 7, 6, TOP - 1),
            (TOP - 7, 7, TOP),
            (TOP - 7, 8, TOP),
            (TOP, 0, TOP),
            (TOP, 1, TOP),
            (TOP, u32::MAX, TOP),
        ];
        for (before, cycles, after) in cases {
            let mut registers = Registers {
                cycles: before,
                ccv: true,
                ..Registers::reset(false)
            };
            registers.add_cycles(cycles);
            assert_eq!((registers.cycles, registers.ccv), (after, true));
        }
    }
}
