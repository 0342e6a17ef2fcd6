//! FORMAT, "The record": fields of a header as bits of its words, read and written.

/// `width` bits from bit `bit` of word `word`, both counted from 1, running on into the next words.
pub fn bits(bytes: &[u8], word: usize, bit: usize, width: usize) -> u64 {
    let start = 16 * (word - 1) + bit - 1;
    (start..start + width).fold(0, |value, i| value << 1 | u64::from(bytes[i / 8] >> (7 - i % 8) & 1))
}

pub fn set_bits(bytes: &mut [u8], word: usize, bit: usize, width: usize, value: u64) {
    let start = 16 * (word - 1) + bit - 1;
    for i in 0..width {
        let (at, mask) = ((start + i) / 8, 0x80 >> ((start + i) % 8));
        if value >> (width - 1 - i) & 1 == 1 {
            bytes[at] |= mask;
        } else {
            bytes[at] &= !mask;
        }
    }
}

/// `count` BCD digits from bit `bit` of word `word`; a digit above 9 gives a number no digits give.
pub fn digits(bytes: &[u8], word: usize, bit: usize, count: usize) -> u64 {
    let packed = bits(bytes, word, bit, 4 * count);
    (0..count).rev().try_fold(0, |value, i| match packed >> (4 * i) & 15 {
        digit @ 0..=9 => Some(10 * value + digit),
        _ => None,
    }).unwrap_or(u64::MAX)
}

pub fn packed(value: u64, count: usize) -> u64 {
    (0..count).fold(0, |packed, i| packed | value / 10u64.pow(i as u32) % 10 << (4 * i))
}

/// The number that `width` bits from bit `bit` of word `word` make in two's complement.
pub fn signed(bytes: &[u8], word: usize, bit: usize, width: usize) -> i64 {
    let value = bits(bytes, word, bit, width) as i64;
    if value < 1 << (width - 1) { value } else { value - (1 << width) }
}

/// The bits of a number in two's complement; one outside the range of `width` bits gives more bits than that.
pub fn complement(value: i64, width: usize) -> u64 {
    let end = 1 << (width - 1);
    if value < -end || value >= end {
        return u64::MAX;
    }
    (if value < 0 { value + (1 << width) } else { value }) as u64
}
