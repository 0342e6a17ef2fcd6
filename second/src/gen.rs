//! FORMAT whole: seeded inputs for comparing two programs, made without the writers under test.

use crate::blocks::check;
use crate::edition::{edition_of, Edition, Rate, EDITIONS};
use crate::record::{is_date, LAST_MS};

/// Splitmix64.
pub struct Rng(pub u64);

impl Rng {
    pub fn next(&mut self) -> u64 {
        self.0 = self.0.wrapping_add(0x9E37_79B9_7F4A_7C15);
        let z = (self.0 ^ self.0 >> 30).wrapping_mul(0xBF58_476D_1CE4_E5B9);
        let z = (z ^ z >> 27).wrapping_mul(0x94D0_49BB_1331_11EB);
        z ^ z >> 31
    }

    /// From `low` to `high`, both included; an end one time in four.
    pub fn within(&mut self, low: u64, high: u64) -> u64 {
        match self.next() % 8 {
            0 => low,
            1 => high,
            _ => low + self.next() % (high - low + 1),
        }
    }

    pub fn one_in(&mut self, n: u64) -> bool {
        self.next() % n == 0
    }

    pub fn pick<T: Copy>(&mut self, all: &[T]) -> T {
        all[(self.next() % all.len() as u64) as usize]
    }

    pub fn bytes(&mut self, count: usize) -> Vec<u8> {
        (0..count).map(|_| self.next() as u8).collect()
    }
}

pub fn word(r: &[u8], w: usize) -> u64 {
    u64::from(u16::from_be_bytes([r[2 * w - 2], r[2 * w - 1]]))
}

pub fn set_word(r: &mut [u8], w: usize, value: u64) {
    r[2 * w - 2..2 * w].copy_from_slice(&(value as u16).to_be_bytes());
}

/// The 27 bits from bit 6 of word `w`.
pub fn set_tag(r: &mut [u8], w: usize, ms: u64) {
    let high = word(r, w) & 0xF800;
    set_word(r, w, high | ms >> 16);
    set_word(r, w + 1, ms);
}

/// Places of the 33 BCD digits, in half bytes from 0: readback, calculated, rate.
pub fn digit_places() -> Vec<usize> {
    (54..68).chain(78..92).chain(102..107).collect()
}

pub fn set_digit(r: &mut [u8], place: usize, digit: u64) {
    let (at, shift) = (place / 2, if place % 2 == 0 { 4 } else { 0 });
    r[at] = r[at] & !(15 << shift) | (digit as u8) << shift;
}

/// Gives a block the check of its bytes, whatever they are.
pub fn set_check(block: &mut [u8]) {
    let check = check(block);
    set_word(block, 256, check);
}

/// The last day of a year of 00 to 99.
fn last_day(year: u64) -> u64 {
    if is_date(year, 366) { 366 } else { 365 }
}

/// The edition that this one is not.
pub fn other(edition: &Edition) -> &'static Edition {
    if edition.number == EDITIONS[0].number { EDITIONS[1] } else { EDITIONS[0] }
}

/// A number that names no edition: beside a known one, of its two digits, one bit away from it, with the same low bits, or any.
pub fn unknown_edition(rng: &mut Rng) -> u64 {
    let known = rng.pick(&EDITIONS).number;
    let (bit, any) = (1 << (rng.next() % 64), rng.next());
    let high = [known + (1 << 16), known + (1 << 32), known + (any << 16)];
    let number = match rng.next() % 4 {
        0 => rng.pick(&[0, 1, u64::MAX, any >> (any % 64)]),
        1 => rng.pick(&[known - 1, known + 1, known % 100]),
        2 => known ^ bit,
        _ => rng.pick(&high),
    };
    if edition_of(number).is_ok() { 0 } else { number }
}

/// An accepted record of any rate of the edition and any length of that.
pub fn record(rng: &mut Rng, edition: &Edition) -> Vec<u8> {
    let rate = rng.pick(edition.rates);
    record_of(rng, edition, rate)
}

/// An accepted record of this rate and any length of it, its other fields, samples and unnamed bits random.
pub fn record_of(rng: &mut Rng, edition: &Edition, rate: Rate) -> Vec<u8> {
    let words = rng.pick(rate.lengths);
    record_with(rng, edition, rate, words)
}

pub fn record_with(rng: &mut Rng, edition: &Edition, rate: Rate, words: u64) -> Vec<u8> {
    let mut r = rng.bytes(2 * words as usize);
    let origin = rng.next() & 1;
    let flags = rng.next() & 3;
    let conversion = 1 - edition.refused_conversion;
    let tape = rng.within(1, 255);
    set_word(&mut r, 1, origin << 15 | flags << 13 | conversion << 12 | 1 << 8 | tape);
    set_word(&mut r, 2, rng.within(1, 65_535));
    set_word(&mut r, 3, words);
    let year = rng.within(0, 99);
    set_word(&mut r, 6, year << 9 | rng.within(1, last_day(year)));
    // Half of the time an end of the day, or one of its first milliseconds, where sample 0 may still be of the day before.
    let (any, early) = (rng.within(0, LAST_MS), rng.within(1, 10));
    set_tag(&mut r, 7, rng.pick(&[any, any, any, any, 0, 1, early, LAST_MS]));
    set_tag(&mut r, 18, rng.within(0, LAST_MS));
    let few = rng.one_in(4);
    for place in digit_places() {
        let digit = if few && !rng.one_in(6) { 0 } else { rng.within(0, 9) };
        set_digit(&mut r, place, digit);
    }
    if rng.one_in(4) {
        // An end of the frequency offset of 1992, words 39 to 41; 1985 takes anything there.
        let offset: u64 = rng.pick(&[0, 1, (1 << 47) - 1, 1 << 47, (1 << 48) - 1]);
        r[76..82].copy_from_slice(&offset.to_be_bytes()[2..]);
    }
    set_word(&mut r, edition.rate_word, rate.hz);
    if origin == 1 || rng.one_in(4) {
        set_word(&mut r, edition.sync_word, 0xA55A);
    }
    if rng.one_in(4) {
        let sample = rng.pick(&[0x00, 0x01, 0x7F, 0x80, 0xFF]);
        r[edition.header_bytes()..2 * rate.n as usize].fill(sample);
    }
    if rng.one_in(2) {
        for channel in 0..4 {
            clip(rng, &mut r[edition.header_bytes()..2 * rate.n as usize], channel);
        }
    }
    if edition.has_segments && rng.one_in(8) {
        set_word(&mut r, rate.n as usize + 1, 0);
    }
    r
}

/// Makes none, one, some or all samples of a channel, 0 to 3 in a stretch, clipped ones; 126 or -127 where one was that must not be.
fn clip(rng: &mut Rng, samples: &mut [u8], channel: usize) {
    let one = rng.next() as usize % (samples.len() / 4);
    let kind = rng.next() % 4;
    for (k, set) in samples.chunks_exact_mut(4).enumerate() {
        let clipped = match kind {
            0 => false,
            1 => k == one,
            2 => rng.one_in(8),
            _ => true,
        };
        if clipped {
            set[channel] = rng.pick(&[0x7F, 0x80]);
        } else if [0x7F, 0x80].contains(&set[channel]) {
            set[channel] = rng.pick(&[0x7E, 0x81]);
        }
    }
}

/// An accepted record of the other edition; at times with this one's conversion code, rate and sync word where this one has them.
pub fn foreign(rng: &mut Rng, edition: &Edition) -> Vec<u8> {
    let mut r = record(rng, other(edition));
    if rng.one_in(2) {
        r[0] ^= 0x10;
        if rng.one_in(2) {
            set_word(&mut r, edition.rate_word, rng.pick(edition.rates).hz);
            set_word(&mut r, edition.sync_word, 0xA55A);
        }
    }
    r
}

/// The table's row of an accepted record's rate.
fn rate_of(edition: &Edition, r: &[u8]) -> Rate {
    edition.rate(word(r, edition.rate_word)).unwrap_or(edition.rates[0])
}

/// An accepted record of the pattern's reel, with this number and time tag.
pub fn sibling(rng: &mut Rng, edition: &Edition, pattern: &[u8], number: u64, tag_ms: u64) -> Vec<u8> {
    sibling_of(rng, edition, rate_of(edition, pattern), pattern, number, tag_ms)
}

/// An accepted record of this edition and rate, else of the pattern's reel; the pattern is of either edition.
pub fn sibling_of(rng: &mut Rng, edition: &Edition, rate: Rate, pattern: &[u8], number: u64, tag_ms: u64) -> Vec<u8> {
    let mut r = record_of(rng, edition, rate);
    r[1] = pattern[1];
    set_word(&mut r, 2, number);
    r[8..12].copy_from_slice(&pattern[8..12]);
    set_word(&mut r, 6, word(pattern, 6));
    set_tag(&mut r, 7, tag_ms);
    r
}

/// As `sibling`, with the clock origin and copy error bits chosen.
pub fn flagged(
    rng: &mut Rng,
    edition: &Edition,
    pattern: &[u8],
    number: u64,
    tag_ms: u64,
    [origin, error]: [bool; 2],
) -> Vec<u8> {
    let mut r = sibling(rng, edition, pattern, number, tag_ms);
    r[0] = r[0] & 0x5F | (origin as u8) << 7 | (error as u8) << 5;
    set_word(&mut r, edition.sync_word, 0xA55A);
    r
}

/// A row of either edition's rate table.
pub fn any_rate(rng: &mut Rng) -> Rate {
    let edition = rng.pick(&EDITIONS);
    rng.pick(edition.rates)
}

/// Changes an accepted record so that of 1 to 11 exactly `number` applies.
pub fn breach(rng: &mut Rng, edition: &Edition, r: &mut Vec<u8>, number: u8) {
    let header = edition.header_bytes() as u64;
    match number {
        1 => r.truncate(rng.within(0, header - 1) as usize),
        2 => {
            let now = r.len() as u64;
            let then = match rng.next() % 4 {
                0 if now > header => now - 1,
                1 if now > header => rng.within(header, now - 1),
                2 => now + 1,
                _ => now + rng.within(1, 400),
            };
            r.resize(then as usize, 0);
        }
        3 => r[0] = r[0] & 0xEF | (edition.refused_conversion as u8) << 4,
        4 => r[0] = r[0] & 0xF0 | rng.pick(&[0, 2, 3, 4, 5, 6, 7, 8, 9, 10, 11, 12, 13, 14, 15]),
        5 => loop {
            // Near a rate of either edition, or any.
            let near = any_rate(rng).hz + rng.next() % 3;
            let hz = if rng.one_in(2) { near - 1 } else { rng.within(0, 65_535) };
            if edition.rate(hz).is_err() {
                break set_word(r, edition.rate_word, hz);
            }
        },
        6 => {
            // Near the record's length or one of either edition, or any.
            let own = [word(r, 3) - 5, word(r, 3), word(r, 3) + 5];
            let right = edition.rate(word(r, edition.rate_word)).map_or(&[][..], |rate| rate.lengths);
            let words = loop {
                let another = any_rate(rng).lengths;
                let near = rng.pick(&[own[0], own[1], own[2], another[0], another[another.len() - 1]]) + rng.next() % 3;
                let words = if rng.one_in(2) { near - 1 } else { rng.within(edition.header_words as u64, 3000) };
                if !right.contains(&words) {
                    break words;
                }
            };
            set_word(r, 3, words);
            r.resize(2 * words as usize, 0);
        }
        7 => {
            let which = rng.within(1, 3);
            if which & 1 == 1 {
                r[1] = 0;
            }
            if which & 2 == 2 {
                set_word(r, 2, 0);
            }
        }
        8 => {
            let (year, day) = (word(r, 6) >> 9, word(r, 6) & 511);
            let next = last_day(year) + 1;
            let (bad_year, later) = (rng.within(100, 127), rng.within(next, 511));
            let (year, day) = rng.pick(&[(bad_year, day), (bad_year, later), (year, 0), (year, next), (year, next), (year, later)]);
            set_word(r, 6, year << 9 | day);
        }
        9 => {
            let which = rng.within(1, 3);
            for (bit, w) in [(1, 7), (2, 18)] {
                if which & bit == bit {
                    set_tag(r, w, rng.within(LAST_MS + 1, (1 << 27) - 1));
                }
            }
        }
        10 => {
            for _ in 0..rng.within(1, 3) {
                let place = rng.pick(&digit_places());
                set_digit(r, place, rng.within(10, 15));
            }
        }
        11 => {
            r[0] |= 0x80;
            let sync = rng.next() & 0xFFFF;
            let flipped = 0xA55A ^ 1 << (rng.next() % 16);
            set_word(r, edition.sync_word, if rng.one_in(2) && sync != 0xA55A { sync } else { flipped });
        }
        _ => {}
    }
}

/// Breaches several at once and gives the first, which is the answer.
pub fn breaches(rng: &mut Rng, edition: &Edition, r: &mut Vec<u8>) -> u8 {
    let set = 1 + rng.next() % 2047;
    let set = if rng.one_in(2) { set & rng.next() } else { set };
    let set = if set == 0 { 1 << (rng.next() % 11) } else { set };
    for number in (1..=11).rev().filter(|number| set >> (number - 1) & 1 == 1) {
        breach(rng, edition, r, number);
    }
    set.trailing_zeros() as u8 + 1
}

/// A record with a stretch lost at either end.
pub fn cut(rng: &mut Rng, edition: &Edition) -> Vec<u8> {
    let mut r = record(rng, edition);
    let keep = rng.within(0, r.len() as u64 - 1) as usize;
    if rng.one_in(2) {
        r.drain(keep..);
    } else {
        r.drain(..keep);
    }
    r
}

/// Changes a few bits, most of them in the header.
pub fn damage(rng: &mut Rng, edition: &Edition, r: &mut [u8]) {
    if r.is_empty() {
        return;
    }
    for _ in 0..rng.within(1, 6) {
        let end = if rng.one_in(4) { r.len() } else { r.len().min(edition.header_bytes()) };
        let at = rng.next() as usize % end;
        r[at] ^= if rng.one_in(2) { 1 << (rng.next() % 8) } else { rng.next() as u8 };
    }
}

pub fn damaged(rng: &mut Rng, edition: &Edition) -> Vec<u8> {
    let mut r = record(rng, edition);
    damage(rng, edition, &mut r);
    r
}

/// Random bytes of any short length, half of them with a word 3 that fits or nearly fits.
pub fn garbage(rng: &mut Rng) -> Vec<u8> {
    let count = rng.within(0, 1000) as usize;
    let mut r = rng.bytes(count);
    if count >= 80 && rng.one_in(2) {
        set_word(&mut r, 3, count as u64 / 2);
    }
    r
}

/// A good reel of `count` records of any rates.
pub fn reel(rng: &mut Rng, edition: &Edition, count: usize) -> Vec<u8> {
    (0..count).flat_map(|_| record(rng, edition)).collect()
}

/// The records of whole seconds from `first`, numbered from 1, the clock origin in each second's first record.
pub fn session(rng: &mut Rng, edition: &Edition, pattern: &[u8], first: u64, seconds: u64) -> Vec<Vec<u8>> {
    let full = rate_of(edition, pattern).records_a_second;
    (0..seconds * full)
        .map(|i| flagged(rng, edition, pattern, i + 1, 1000 * first + i * 1000 / full, [i % full == 0, false]))
        .collect()
}

pub fn cut_reel(rng: &mut Rng, edition: &Edition, count: usize) -> Vec<u8> {
    let mut reel = reel(rng, edition, count);
    let keep = rng.within(0, reel.len() as u64) as usize;
    reel.truncate(keep);
    reel
}

/// A reel with one record in it breached, cut, damaged, of the other edition or replaced by garbage.
pub fn damaged_reel(rng: &mut Rng, edition: &Edition, count: usize) -> Vec<u8> {
    let bad = rng.next() as usize % count.max(1);
    let mut reel = Vec::new();
    for i in 0..count {
        let mut r = record(rng, edition);
        if i == bad {
            match rng.next() % 8 {
                0..=1 => {
                    breaches(rng, edition, &mut r);
                }
                2..=3 => r = cut(rng, edition),
                4..=5 => damage(rng, edition, &mut r),
                6 => r = foreign(rng, edition),
                _ => r = garbage(rng),
            }
        }
        reel.extend(r);
    }
    reel
}
