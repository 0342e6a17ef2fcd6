//! FORMAT: "Editions" and "Rates": the editions of the format, each one value that has all in which they differ.

use crate::header::{own_1985, own_1992, Own};

/// A row of a rate table; `n` is the last word of samples, lengths are in words.
#[derive(Clone, Copy, Debug, PartialEq, Eq)]
pub struct Rate {
    pub hz: u64,
    pub records_a_second: u64,
    pub samples: u64,
    pub n: u64,
    pub lengths: &'static [u64],
}

const fn row(hz: u64, records_a_second: u64, samples: u64, n: u64, lengths: &'static [u64]) -> Rate {
    Rate { hz, records_a_second, samples, n, lengths }
}

/// The lengths are those of OP-A and of OP-B.
const RATES_1985: [Rate; 7] = [
    row(50_000, 50, 1000, 2040, &[2190, 2195]),
    row(20_000, 20, 1000, 2040, &[2190, 2195]),
    row(10_000, 10, 1000, 2040, &[2190, 2195]),
    row(5_000, 5, 1000, 2040, &[2190, 2195]),
    row(2_000, 2, 1000, 2040, &[2190, 2195]),
    row(1_000, 2, 500, 1040, &[1190, 1195]),
    row(200, 2, 100, 240, &[390, 395]),
];

/// The 8-bit lines of RSC-11-11's Table 1. Nothing follows the samples, so N is the length.
const RATES_1992: [Rate; 19] = [
    row(50_000, 50, 1000, 2083, &[2083]),
    row(31_250, 50, 625, 1333, &[1333]),
    row(25_000, 25, 1000, 2083, &[2083]),
    row(20_000, 20, 1000, 2083, &[2083]),
    row(15_625, 25, 625, 1333, &[1333]),
    row(12_500, 20, 625, 1333, &[1333]),
    row(10_000, 10, 1000, 2083, &[2083]),
    row(6_250, 10, 625, 1333, &[1333]),
    row(5_000, 5, 1000, 2083, &[2083]),
    row(4_000, 4, 1000, 2083, &[2083]),
    row(3_125, 5, 625, 1333, &[1333]),
    row(2_500, 4, 625, 1333, &[1333]),
    row(2_000, 2, 1000, 2083, &[2083]),
    row(1_250, 2, 625, 1333, &[1333]),
    row(1_000, 2, 500, 1083, &[1083]),
    row(500, 2, 250, 583, &[583]),
    row(400, 2, 200, 483, &[483]),
    row(250, 2, 125, 333, &[333]),
    row(200, 2, 100, 283, &[283]),
];

#[derive(Debug)]
pub struct Edition {
    pub number: u64,
    /// Samples start behind them.
    pub header_words: usize,
    /// The conversion code of 12-bit samples, which 3 refuses.
    pub refused_conversion: u64,
    /// From the fastest to the slowest.
    pub rates: &'static [Rate],
    pub rate_word: usize,
    pub sync_word: usize,
    /// Reads the fields that only this edition has.
    pub own: fn(&[u8]) -> Own,
    /// Bits of a phase count that are a fraction of a cycle.
    pub fraction_bits: u32,
    pub has_segments: bool,
}

pub static EDITION_1985: Edition = Edition {
    number: 1985,
    header_words: 40,
    refused_conversion: 1,
    rates: &RATES_1985,
    rate_word: 37,
    sync_word: 38,
    own: own_1985,
    fraction_bits: 8,
    has_segments: true,
};

pub static EDITION_1992: Edition = Edition {
    number: 1992,
    header_words: 83,
    refused_conversion: 0,
    rates: &RATES_1992,
    rate_word: 80,
    sync_word: 81,
    own: own_1992,
    fraction_bits: 20,
    has_segments: false,
};

pub static EDITIONS: [&Edition; 2] = [&EDITION_1985, &EDITION_1992];

/// The edition that a caller names: 25 before every other answer.
pub fn edition_of(number: u64) -> Result<&'static Edition, u8> {
    EDITIONS.into_iter().find(|edition| edition.number == number).ok_or(25)
}

impl Edition {
    pub fn header_bytes(&self) -> usize {
        2 * self.header_words
    }

    pub fn rate(&self, hz: u64) -> Result<Rate, u8> {
        self.rates.iter().copied().find(|rate| rate.hz == hz).ok_or(5)
    }
}

/// What follows from a rate: samples of a channel in a record, records of a second, microseconds from one sample to the next.
#[derive(Clone, Copy, Debug, PartialEq, Eq)]
pub struct SampleRate {
    pub samples: u64,
    pub records_a_second: u64,
    pub interval_us: u64,
}

pub fn sample_rate(edition: u64, hz: u64) -> Result<SampleRate, u8> {
    let Rate { records_a_second, samples, .. } = edition_of(edition)?.rate(hz)?;
    Ok(SampleRate { samples, records_a_second, interval_us: 1_000_000 / hz })
}
