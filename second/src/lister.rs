//! FORMAT, "The listing": the whole text for a reel of 1985, and refusal 21 for a text put into a lent buffer.

use crate::record::{frequency_rate, read_header};
use crate::reel::{step, Step};
use crate::samples::sample_time;

pub const HEADER_LINE: &str = "record,first_us,origin,poca_hz,rate_hz_s\n";
pub const LONGEST_INPUT: usize = 65_536;
/// The edition of what is listed.
pub const LISTED: u64 = 1985;

/// One record's line.
pub fn line(record: &[u8]) -> Result<String, u8> {
    let h = read_header(LISTED, record)?;
    let (first_us, rate) = (sample_time(LISTED, record, 0)?, frequency_rate(LISTED, record)?);
    Ok(columns_line(h.record_number, first_us, h.clock_origin, h.readback_uhz, rate))
}

/// Record number, first sample's microseconds, clock origin and readback in microhertz; the rate in units of 0.00001 Hz/s.
pub fn columns_line(number: u64, first_us: i64, origin: u64, readback_uhz: u64, rate: i64) -> String {
    let (minus, size) = (if rate < 0 { "-" } else { "" }, rate.unsigned_abs());
    format!(
        "{number},{first_us},{origin},{}.{:06},{minus}{}.{:05}\n",
        readback_uhz / 1_000_000,
        readback_uhz % 1_000_000,
        size / 100_000,
        size % 100_000
    )
}

pub fn refused_line(number: u64) -> String {
    format!("refused,{number}\n")
}

/// Puts a text at the start of a lent buffer and gives its length.
pub fn put_text(buffer: &mut [u8], text: &[u8]) -> Result<usize, u8> {
    put_text_at(buffer, 0, text)
}

/// Puts a text at a place of a lent buffer and gives the place after it.
pub fn put_text_at(buffer: &mut [u8], place: usize, text: &[u8]) -> Result<usize, u8> {
    let next = place.checked_add(text.len()).ok_or(21)?;
    buffer.get_mut(place..next).ok_or(21)?.copy_from_slice(text);
    Ok(next)
}

/// A record's line put into a lent buffer: 1 to 11, then 21.
pub fn put_line(buffer: &mut [u8], record: &[u8]) -> Result<usize, u8> {
    put_text(buffer, line(record)?.as_bytes())
}

pub fn listing(input: &[u8]) -> Vec<u8> {
    let mut text = String::from(HEADER_LINE);
    if let Err(number) = lines(input, &mut text) {
        text += &refused_line(u64::from(number));
    }
    text.into_bytes()
}

fn lines(input: &[u8], text: &mut String) -> Result<(), u8> {
    if input.len() > LONGEST_INPUT {
        return Err(24);
    }
    let mut place = 0;
    loop {
        match step(LISTED, input, place) {
            Step::Finished => return Ok(()),
            Step::Refused(number) => return Err(number),
            Step::Record { bytes, next } => {
                *text += &line(&input[bytes])?;
                place = next;
            }
        }
    }
}
