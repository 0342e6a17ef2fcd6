//! The header of 1985 written. FORMAT: "Refusal numbers", what a writer judges.

use super::header::{judge, Header, HEADER};
use super::words::word;

/// Whether every number has no more bits than its field; those in decimal digits were judged.
fn fit(h: &Header) -> bool {
    let bits = h.clock_origin | h.session_start | h.copy_error | h.conversion | h.rate_sign;
    let halves = h.selectors.iter().fold(h.compression | h.filter, |all, x| all | x);
    let bytes = [h.tape_number, h.spacecraft, h.spc, h.status];
    let bytes = bytes.iter().chain(&h.fea).chain(&h.predict).chain(&h.registers).fold(0, |all, x| all | x);
    let words = h.record_number | h.length_words | h.sample_rate_hz | h.sync_word | h.word_39;
    let tags = h.time_tag_ms | h.readback_tag_ms | h.update_tag_ms | h.counter_tag_ms;
    let phases = h.phases[0] | h.phases[1];
    let widths = [(bits, 1), (h.rate_power, 3), (halves, 4), (h.year, 7), (bytes, 8), (h.day, 9), (words, 16), (tags, 27)];
    (phases >> 48 == 0) & widths.iter().all(|&(value, width)| value >> width == 0)
}

fn set_word(b: &mut [u8; HEADER], w: usize, value: u64) {
    b[2 * w - 2..2 * w].copy_from_slice(&(value as u16).to_be_bytes());
}

/// The 27 bits from bit 6 of word `w` on; the first five of the word stay.
fn set_tag(b: &mut [u8; HEADER], w: usize, ms: u64) {
    set_word(b, w, word(b, w) & 0xF800 | ms >> 16);
    set_word(b, w + 1, ms);
}

fn set_phase(b: &mut [u8; HEADER], w: usize, count: u64) {
    b[2 * w - 2..2 * w + 4].copy_from_slice(&count.to_be_bytes()[2..]);
}

/// Decimal digits, two in each byte.
fn set_decimal(bytes: &mut [u8], mut value: u64) {
    for byte in bytes.iter_mut().rev() {
        *byte = (value / 10 % 10 * 16 + value % 10) as u8;
        value /= 100;
    }
}

fn set_fields(b: &mut [u8; HEADER], h: &Header) {
    b[0] = (h.clock_origin << 7 | h.session_start << 6 | h.copy_error << 5 | h.conversion << 4 | h.compression) as u8;
    b[1] = h.tape_number as u8;
    set_word(b, 2, h.record_number);
    set_word(b, 3, h.length_words);
    set_word(b, 4, h.fea[0] << 8 | h.fea[1]);
    set_word(b, 5, h.spacecraft << 8 | h.spc);
    set_word(b, 6, h.year << 9 | h.day);
    set_tag(b, 7, h.time_tag_ms);
    b[16..26].copy_from_slice(&h.predict.map(|x| x as u8));
    b[26] = h.status as u8;
    set_decimal(&mut b[27..34], h.readback_uhz);
    set_tag(b, 18, h.readback_tag_ms);
    set_decimal(&mut b[39..46], h.calculated_uhz);
    b[46] = b[46] & 15 | (h.filter << 4) as u8;
    set_tag(b, 24, h.update_tag_ms);
    set_decimal(&mut b[51..53], h.rate_digits / 10);
    b[53] = (h.rate_digits % 10 << 4 | h.rate_power << 1 | h.rate_sign) as u8;
    set_phase(b, 28, h.phases[0]);
    set_phase(b, 31, h.phases[1]);
    b[66] = (h.selectors[0] << 4 | h.selectors[1]) as u8;
    b[67] = (h.selectors[2] << 4 | h.selectors[3]) as u8;
    set_tag(b, 35, h.counter_tag_ms);
    set_word(b, 37, h.sample_rate_hz);
    set_word(b, 38, h.sync_word);
    set_word(b, 39, h.word_39);
    set_word(b, 40, h.registers[0] << 8 | h.registers[1]);
}

#[inline(never)]
pub fn write_header(record: &mut [u8], h: &Header) -> Result<(), u8> {
    let length = record.len();
    let b = record.first_chunk_mut().ok_or(1)?;
    judge(length, h)?;
    if !fit(h) {
        return Err(22);
    }
    set_fields(b, h);
    Ok(())
}
