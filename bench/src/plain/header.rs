//! The header of 1985 read, and acceptance. FORMAT: "The record", refusals 1 to 11.

use super::words::{decimal, rate_digits, tag, three_words, word};

/// The header's 46 numbers; as in the library each is of 64 bits, so that one can be too wide to be written.
#[derive(Clone, Debug)]
pub struct Header {
    pub clock_origin: u64,
    pub session_start: u64,
    pub copy_error: u64,
    pub conversion: u64,
    pub compression: u64,
    pub tape_number: u64,
    pub record_number: u64,
    pub length_words: u64,
    pub fea: [u64; 2],
    pub spacecraft: u64,
    pub spc: u64,
    pub year: u64,
    pub day: u64,
    pub time_tag_ms: u64,
    pub predict: [u64; 10],
    pub status: u64,
    pub readback_uhz: u64,
    pub readback_tag_ms: u64,
    pub calculated_uhz: u64,
    pub filter: u64,
    pub update_tag_ms: u64,
    pub rate_digits: u64,
    pub rate_power: u64,
    pub rate_sign: u64,
    pub phases: [u64; 2],
    pub selectors: [u64; 4],
    pub counter_tag_ms: u64,
    pub sample_rate_hz: u64,
    pub sync_word: u64,
    pub word_39: u64,
    pub registers: [u64; 2],
}

/// Bytes of the header.
pub const HEADER: usize = 80;
const LAST_MS: u64 = 86_399_999;

#[inline(always)]
fn fields(b: &[u8; HEADER]) -> Header {
    let [flags, halves_1, halves_2, sign] = [b[0], b[66], b[67], b[53]].map(u64::from);
    Header {
        clock_origin: flags >> 7,
        session_start: flags >> 6 & 1,
        copy_error: flags >> 5 & 1,
        conversion: flags >> 4 & 1,
        compression: flags & 15,
        tape_number: b[1].into(),
        record_number: word(b, 2),
        length_words: word(b, 3),
        fea: [b[6], b[7]].map(u64::from),
        spacecraft: b[8].into(),
        spc: b[9].into(),
        year: word(b, 6) >> 9,
        day: word(b, 6) & 511,
        time_tag_ms: tag(b, 7),
        predict: std::array::from_fn(|i| b[16 + i].into()),
        status: b[26].into(),
        readback_uhz: decimal(&b[27..34]),
        readback_tag_ms: tag(b, 18),
        calculated_uhz: decimal(&b[39..46]),
        filter: u64::from(b[46] >> 4),
        update_tag_ms: tag(b, 24),
        rate_digits: rate_digits(b),
        rate_power: sign >> 1 & 7,
        rate_sign: sign & 1,
        phases: [three_words(b, 28), three_words(b, 31)],
        selectors: [halves_1 >> 4, halves_1 & 15, halves_2 >> 4, halves_2 & 15],
        counter_tag_ms: tag(b, 35),
        sample_rate_hz: word(b, 37),
        sync_word: word(b, 38),
        word_39: word(b, 39),
        registers: [b[78], b[79]].map(u64::from),
    }
}

/// The samples of a channel in a record of this rate, and the two lengths that it can have, in words.
fn rate(hz: u64) -> Option<(usize, [u64; 2])> {
    match hz {
        50_000 | 20_000 | 10_000 | 5_000 | 2_000 => Some((1000, [2195, 2190])),
        1_000 => Some((500, [1195, 1190])),
        200 => Some((100, [395, 390])),
        _ => None,
    }
}

/// 2 to 11 of so many bytes with this header, or the samples of a channel.
#[inline(always)]
pub fn judge(bytes: usize, h: &Header) -> Result<usize, u8> {
    if bytes % 2 != 0 || bytes as u64 / 2 != h.length_words {
        return Err(2);
    }
    if h.conversion == 1 {
        return Err(3);
    }
    if h.compression != 1 {
        return Err(4);
    }
    let (samples, lengths) = rate(h.sample_rate_hz).ok_or(5)?;
    if !lengths.contains(&h.length_words) {
        return Err(6);
    }
    if h.tape_number == 0 || h.record_number == 0 {
        return Err(7);
    }
    if h.year > 99 || h.day == 0 || h.day > if h.year % 4 == 0 { 366 } else { 365 } {
        return Err(8);
    }
    if h.time_tag_ms > LAST_MS || h.readback_tag_ms > LAST_MS {
        return Err(9);
    }
    if h.readback_uhz >= 100_000_000_000_000 || h.calculated_uhz >= 100_000_000_000_000 || h.rate_digits >= 100_000 {
        return Err(10);
    }
    if h.clock_origin == 1 && h.sync_word != 0xA55A {
        return Err(11);
    }
    Ok(samples)
}

/// Acceptance of a record of so many bytes by its start: all of it, or its header at least.
#[inline(always)]
pub fn accept_start(start: &[u8], bytes: usize) -> Result<usize, u8> {
    let b = start.first_chunk().ok_or(1)?;
    judge(bytes, &fields(b))
}

#[inline(never)]
pub fn accept(record: &[u8]) -> Result<usize, u8> {
    accept_start(record, record.len())
}

#[inline(never)]
pub fn read_header(record: &[u8]) -> Result<Header, u8> {
    let b = record.first_chunk().ok_or(1)?;
    let header = fields(b);
    judge(record.len(), &header)?;
    Ok(header)
}

impl Header {
    /// The numbers in the order of the library's first 46; its other two have no field in 1985.
    pub fn numbers(&mut self) -> Vec<&mut u64> {
        let mut all = vec![
            &mut self.clock_origin, &mut self.session_start, &mut self.copy_error, &mut self.conversion, &mut self.compression,
            &mut self.tape_number, &mut self.record_number, &mut self.length_words,
        ];
        all.extend(&mut self.fea);
        all.extend([&mut self.spacecraft, &mut self.spc, &mut self.year, &mut self.day, &mut self.time_tag_ms]);
        all.extend(&mut self.predict);
        all.extend([
            &mut self.status, &mut self.readback_uhz, &mut self.readback_tag_ms, &mut self.calculated_uhz,
            &mut self.update_tag_ms, &mut self.rate_digits, &mut self.rate_power, &mut self.rate_sign,
        ]);
        all.extend(self.phases.iter_mut().chain(&mut self.selectors));
        all.extend([&mut self.counter_tag_ms, &mut self.filter, &mut self.sample_rate_hz, &mut self.sync_word]);
        all.push(&mut self.word_39);
        all.extend(&mut self.registers);
        all
    }
}
