//! FORMAT: "Refusal numbers", "Frequency rate": refusals 25 and 1 to 11, the header read and written.

use crate::bits::set_bits;
use crate::edition::{edition_of, Rate};
use crate::header::Header;
use std::ops::Range;

/// The last millisecond of the day.
pub const LAST_MS: u64 = 86_399_999;

/// Whether there is such a date. Years have 365 days, and those divisible by 4 a day 366; 00 is one of them.
pub fn is_date(year: u64, day: u64) -> bool {
    year <= 99 && ((1..=365).contains(&day) || day == 366 && year % 4 == 0)
}

/// Refusals 2 to 11 of a record of `length` bytes with these fields.
fn judge(length: usize, h: &Header) -> Result<(), u8> {
    if length as u128 != 2 * u128::from(h.length_words) {
        return Err(2);
    }
    if h.conversion == h.edition().refused_conversion {
        return Err(3);
    }
    if h.compression != 1 {
        return Err(4);
    }
    let rate = h.edition().rate(h.sample_rate_hz)?;
    if !rate.lengths.contains(&h.length_words) {
        return Err(6);
    }
    if h.tape_number == 0 || h.record_number == 0 {
        return Err(7);
    }
    if !is_date(h.year, h.day) {
        return Err(8);
    }
    if h.time_tag_ms > LAST_MS || h.readback_tag_ms > LAST_MS {
        return Err(9);
    }
    if h.readback_uhz >= 100_000_000_000_000 || h.calculated_uhz >= 100_000_000_000_000 || h.rate_digits > 99_999 {
        return Err(10);
    }
    if h.clock_origin == 1 && h.sync_word != 0xA55A {
        return Err(11);
    }
    Ok(())
}

pub fn accept(edition: u64, bytes: &[u8]) -> Result<(), u8> {
    read_header(edition, bytes).map(|_| ())
}

pub fn read_header(edition: u64, bytes: &[u8]) -> Result<Header, u8> {
    let edition = edition_of(edition)?;
    if bytes.len() < edition.header_bytes() {
        return Err(1);
    }
    let header = Header::fields(edition, bytes);
    judge(bytes.len(), &header)?;
    Ok(header)
}

/// Writes a header as one of its own edition.
pub fn write_header(bytes: &mut [u8], header: &Header) -> Result<(), u8> {
    if bytes.len() < header.edition().header_bytes() {
        return Err(1);
    }
    judge(bytes.len(), header)?;
    let places = header.places();
    if places.iter().any(|&(_, _, width, value)| value >> width != 0) {
        return Err(22);
    }
    for (word, bit, width, value) in places {
        set_bits(bytes, word, bit, width, value);
    }
    Ok(())
}

/// The rate table's row of an accepted record.
pub fn record_rate(edition: u64, bytes: &[u8]) -> Result<Rate, u8> {
    let header = read_header(edition, bytes)?;
    header.edition().rate(header.sample_rate_hz)
}

/// The bytes of an accepted record that its samples are.
pub fn sample_bytes(edition: u64, bytes: &[u8]) -> Result<Range<usize>, u8> {
    let rate = record_rate(edition, bytes)?;
    Ok(edition_of(edition)?.header_bytes()..2 * rate.n as usize)
}

/// In units of 0.00001 Hz/s.
pub fn frequency_rate(edition: u64, bytes: &[u8]) -> Result<i64, u8> {
    let h = read_header(edition, bytes)?;
    let size = h.rate_digits as i64 * 10i64.pow(h.rate_power as u32);
    Ok(if h.rate_sign == 1 { size } else { -size })
}
