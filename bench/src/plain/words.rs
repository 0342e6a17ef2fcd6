//! Words of a header, and what runs over several of them, in both editions. FORMAT: "The record".

const TAG_BITS: u32 = (1 << 27) - 1;
/// What a field reads as that has a digit above 9.
const NO_DECIMAL: u64 = u64::MAX;

/// Word `w`, counted from 1.
pub fn word<const N: usize>(b: &[u8; N], w: usize) -> u64 {
    u64::from(u16::from_be_bytes([b[2 * w - 2], b[2 * w - 1]]))
}

/// The two words from `w` on.
pub fn two_words<const N: usize>(b: &[u8; N], w: usize) -> u32 {
    u32::from_be_bytes([b[2 * w - 2], b[2 * w - 1], b[2 * w], b[2 * w + 1]])
}

/// The three words from `w` on.
pub fn three_words<const N: usize>(b: &[u8; N], w: usize) -> u64 {
    word(b, w) << 32 | u64::from(two_words(b, w + 1))
}

/// The 27 bits from bit 6 of word `w` on.
pub fn tag<const N: usize>(b: &[u8; N], w: usize) -> u64 {
    u64::from(two_words(b, w) & TAG_BITS)
}

/// The decimal digits of some bytes, two in each.
#[inline]
pub fn decimal(bytes: &[u8]) -> u64 {
    let two_digits = |value: u64, &byte: &u8| {
        let (high, low) = (u64::from(byte >> 4), u64::from(byte & 15));
        (high <= 9 && low <= 9).then_some(100 * value + 10 * high + low)
    };
    bytes.iter().try_fold(0, two_digits).unwrap_or(NO_DECIMAL)
}

/// The five digits of the frequency rate, in two bytes and a half.
pub fn rate_digits<const N: usize>(b: &[u8; N]) -> u64 {
    match (decimal(&b[51..53]), u64::from(b[53] >> 4)) {
        (NO_DECIMAL, _) | (_, 10..) => NO_DECIMAL,
        (high, low) => 10 * high + low,
    }
}
