//! How a count of cycles is coded in ctrdata: CC is an exponent of 4 bits above a mantissa of 12, and
//! CCV says whether it is valid.

/// The counter has 27 bits, and stays at its top.
pub const TOP: u64 = (1 << 27) - 1;

/// The place of CCV in ctrdata.
const CCV: u32 = 15;

/// The place of CC in ctrdata.
const CC: u32 = 16;

const MANTISSA_BITS: u32 = 12;
const MANTISSAS: u64 = 1 << MANTISSA_BITS;

/// CC and CCV of a count up to `TOP`, in their places in ctrdata.
#[inline(always)]
pub fn coded(count: u64, is_valid: bool) -> u64 {
    // Of counts from 2^13 on, bits are dropped until 13 are left. The first of 13 bits is not told:
    // it adds one to the exponent, which is else how many bits were dropped.
    let dropped = (count | MANTISSAS).ilog2() - MANTISSA_BITS;
    let cc = (u64::from(dropped) << MANTISSA_BITS) + (count >> dropped);
    cc << CC | u64::from(is_valid) << CCV
}

/// The count that ctrdata tells, if it is valid.
pub fn valid_count(data: u64) -> Option<u64> {
    let (exponent, mantissa) = (data >> (CC + MANTISSA_BITS), (data >> CC) % MANTISSAS);
    let count = match exponent {
        0 => mantissa,
        _ => (MANTISSAS + mantissa) << (exponent - 1),
    };
    (data >> CCV & 1 == 1).then_some(count)
}
