//! Pseudo-random numbers, and a digest that shows two long lists of numbers to be equal.

/// Where the pseudo-random numbers start: the seed of Marsaglia's paper "Xorshift RNGs".
pub const SEED: u64 = 88172645463325252;

/// The pseudo-random number that follows `x`.
pub fn xorshift64(mut x: u64) -> u64 {
    x ^= x << 13;
    x ^= x >> 7;
    x ^= x << 17;
    x
}

/// The digest of a list whose last number is `w` and whose earlier ones have the digest `h`.
pub fn digest(h: u64, w: u64) -> u64 {
    (h.rotate_left(5) ^ w).wrapping_add(0x9E37_79B9_7F4A_7C15)
}

/// The digest of a list that goes on with `words` after those of the digest `h`.
pub fn extended(h: u64, words: impl IntoIterator<Item = u64>) -> u64 {
    words.into_iter().fold(h, digest)
}

#[cfg(test)]
mod tests {
    use super::*;

    /// The first number is well known; the second was reckoned apart from this program.
    #[test]
    fn the_numbers_start_as_known() {
        let first = xorshift64(SEED);
        assert_eq!(first, 8748534153485358512);
        assert_eq!(xorshift64(first), 3040900993826735515);
    }

    #[test]
    fn the_digest_depends_on_the_order() {
        assert_eq!(digest(0, 0), 0x9E37_79B9_7F4A_7C15);
        assert_ne!(digest(digest(0, 1), 2), digest(digest(0, 2), 1));
    }
}
