//! The header of 1992 read, and acceptance, for that edition alone. FORMAT: "The record", refusals 1 to 11.

use super::words::{decimal, rate_digits, tag, three_words, two_words, word};

/// The header's 48 numbers; one of them is signed.
#[derive(Clone, Debug)]
pub struct Header {
    pub clock_origin: u64,
    pub session_start: u64,
    pub copy_error: u64,
    pub conversion: u64,
    pub compression: u64,
    pub tape_number: u64,
    pub record_number: u64,
    pub length_words: u64,
    pub fea: [u64; 2],
    pub spacecraft: u64,
    pub spc: u64,
    pub year: u64,
    pub day: u64,
    pub time_tag_ms: u64,
    pub predict: [u64; 10],
    pub status: u64,
    pub readback_uhz: u64,
    pub readback_tag_ms: u64,
    pub calculated_uhz: u64,
    pub update_tag_ms: u64,
    pub rf_configuration: u64,
    pub rf_configuration_reported: u64,
    pub rate_digits: u64,
    pub rate_power: u64,
    pub rate_sign: u64,
    pub phases: [u64; 2],
    pub selectors: [u64; 4],
    pub counter_tag_ms: u64,
    pub time_offset_days: u64,
    pub time_offset_sign: u64,
    pub time_offset_seconds: u64,
    pub frequency_offset: i64,
    pub sample_rate_hz: u64,
    pub sync_word: u64,
}

const HEADER_WORDS: usize = 83;
const HEADER: usize = 2 * HEADER_WORDS;
const LAST_MS: u64 = 86_399_999;

#[inline(always)]
fn fields(b: &[u8; HEADER]) -> Header {
    let [flags, codes, sign, halves_1, halves_2] = [b[0], b[50], b[53], b[66], b[67]].map(u64::from);
    Header {
        clock_origin: flags >> 7,
        session_start: flags >> 6 & 1,
        copy_error: flags >> 5 & 1,
        conversion: flags >> 4 & 1,
        compression: flags & 15,
        tape_number: b[1].into(),
        record_number: word(b, 2),
        length_words: word(b, 3),
        fea: [b[6], b[7]].map(u64::from),
        spacecraft: b[8].into(),
        spc: b[9].into(),
        year: word(b, 6) >> 9,
        day: word(b, 6) & 511,
        time_tag_ms: tag(b, 7),
        predict: std::array::from_fn(|i| b[16 + i].into()),
        status: b[26].into(),
        readback_uhz: decimal(&b[27..34]),
        readback_tag_ms: tag(b, 18),
        calculated_uhz: decimal(&b[39..46]),
        update_tag_ms: tag(b, 24),
        rf_configuration: codes >> 6,
        rf_configuration_reported: codes >> 4 & 3,
        rate_digits: rate_digits(b),
        rate_power: sign >> 1 & 7,
        rate_sign: sign & 1,
        phases: [three_words(b, 28), three_words(b, 31)],
        selectors: [halves_1 >> 4, halves_1 & 15, halves_2 >> 4, halves_2 & 15],
        counter_tag_ms: tag(b, 35),
        time_offset_days: word(b, 37) >> 7,
        time_offset_sign: word(b, 37) >> 1 & 1,
        time_offset_seconds: u64::from(two_words(b, 37) & 0x1_FFFF),
        // The sign is the first of 48 bits.
        frequency_offset: (three_words(b, 39) << 16) as i64 >> 16,
        sample_rate_hz: word(b, 80),
        sync_word: word(b, 81),
    }
}

/// The samples of a channel in a record of this rate.
fn samples(hz: u64) -> Option<usize> {
    match hz {
        50_000 | 25_000 | 20_000 | 10_000 | 5_000 | 4_000 | 2_000 => Some(1000),
        31_250 | 15_625 | 12_500 | 6_250 | 3_125 | 2_500 | 1_250 => Some(625),
        1_000 | 500 | 400 | 250 | 200 => Some(hz as usize / 2),
        _ => None,
    }
}

/// 2 to 11 of so many bytes with this header, or the samples of a channel.
#[inline(always)]
fn judge(bytes: usize, h: &Header) -> Result<usize, u8> {
    if bytes % 2 != 0 || bytes as u64 / 2 != h.length_words {
        return Err(2);
    }
    if h.conversion == 0 {
        return Err(3);
    }
    if h.compression != 1 {
        return Err(4);
    }
    let samples = samples(h.sample_rate_hz).ok_or(5)?;
    if bytes != HEADER + 4 * samples {
        return Err(6);
    }
    if h.tape_number == 0 || h.record_number == 0 {
        return Err(7);
    }
    if h.year > 99 || h.day == 0 || h.day > if h.year % 4 == 0 { 366 } else { 365 } {
        return Err(8);
    }
    if h.time_tag_ms > LAST_MS || h.readback_tag_ms > LAST_MS {
        return Err(9);
    }
    if h.readback_uhz >= 100_000_000_000_000 || h.calculated_uhz >= 100_000_000_000_000 || h.rate_digits >= 100_000 {
        return Err(10);
    }
    if h.clock_origin == 1 && h.sync_word != 0xA55A {
        return Err(11);
    }
    Ok(samples)
}

#[inline(never)]
pub fn accept(record: &[u8]) -> Result<usize, u8> {
    let b = record.first_chunk().ok_or(1)?;
    judge(record.len(), &fields(b))
}

#[inline(never)]
pub fn read_header(record: &[u8]) -> Result<Header, u8> {
    let b = record.first_chunk().ok_or(1)?;
    let header = fields(b);
    judge(record.len(), &header)?;
    Ok(header)
}

impl Header {
    /// The numbers in the order of the library's 48.
    pub fn numbers(&self) -> Vec<u64> {
        let mut all = vec![
            self.clock_origin, self.session_start, self.copy_error, self.conversion, self.compression, self.tape_number,
            self.record_number, self.length_words,
        ];
        all.extend(self.fea);
        all.extend([self.spacecraft, self.spc, self.year, self.day, self.time_tag_ms]);
        all.extend(self.predict);
        all.extend([
            self.status, self.readback_uhz, self.readback_tag_ms, self.calculated_uhz, self.update_tag_ms, self.rate_digits,
            self.rate_power, self.rate_sign,
        ]);
        all.extend(self.phases.into_iter().chain(self.selectors));
        all.extend([self.counter_tag_ms, self.rf_configuration, self.sample_rate_hz, self.sync_word]);
        all.extend([self.rf_configuration_reported, self.time_offset_days, self.time_offset_sign, self.time_offset_seconds]);
        all.push(self.frequency_offset as u64);
        all
    }
}
