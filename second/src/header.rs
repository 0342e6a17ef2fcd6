//! FORMAT, "The record": the fields of a header, those that the editions share and those of one alone, and where they stand.

use crate::bits::{bits, complement, digits, packed, signed};
use crate::edition::{edition_of, Edition, EDITION_1985, EDITION_1992};

/// A header is of the edition that `own` is of, and is written as that.
#[derive(Clone, Debug, PartialEq, Eq)]
pub struct Header {
    pub clock_origin: u64,
    pub session_start: u64,
    pub copy_error: u64,
    pub conversion: u64,
    pub compression: u64,
    pub tape_number: u64,
    pub record_number: u64,
    pub length_words: u64,
    pub prime_fea: u64,
    pub secondary_fea: u64,
    pub spacecraft: u64,
    pub spc: u64,
    pub year: u64,
    pub day: u64,
    pub time_tag_ms: u64,
    pub predict: [u64; 10],
    pub status: u64,
    pub readback_uhz: u64,
    pub readback_tag_ms: u64,
    pub calculated_uhz: u64,
    pub update_tag_ms: u64,
    pub rate_digits: u64,
    pub rate_power: u64,
    pub rate_sign: u64,
    pub phase_1: u64,
    pub phase_2: u64,
    pub selector_1: u64,
    pub selector_2: u64,
    pub selector_3: u64,
    pub selector_4: u64,
    pub counter_tag_ms: u64,
    pub sample_rate_hz: u64,
    pub sync_word: u64,
    pub own: Own,
}

/// The fields that only one edition has.
#[derive(Clone, Debug, PartialEq, Eq)]
pub enum Own {
    In1985(Own1985),
    In1992(Own1992),
}

#[derive(Clone, Debug, PartialEq, Eq)]
pub struct Own1985 {
    pub filter: u64,
    pub word_39: u64,
    pub register_1: u64,
    pub register_2: u64,
    /// The last two of the 48 values that a header has in either edition: no field of 1985, so they are 0.
    pub no_field: [u64; 2],
}

#[derive(Clone, Debug, PartialEq, Eq)]
pub struct Own1992 {
    pub rf_configuration: u64,
    pub rf_configuration_reported: u64,
    pub time_offset_days: u64,
    /// 1 is negative.
    pub time_offset_sign: u64,
    pub time_offset_seconds: u64,
    /// In units of 2^-20 Hz.
    pub frequency_offset: i64,
}

pub fn own_1985(b: &[u8]) -> Own {
    Own::In1985(Own1985 {
        filter: bits(b, 24, 1, 4),
        word_39: bits(b, 39, 1, 16),
        register_1: bits(b, 40, 1, 8),
        register_2: bits(b, 40, 9, 8),
        no_field: [0; 2],
    })
}

pub fn own_1992(b: &[u8]) -> Own {
    Own::In1992(Own1992 {
        rf_configuration: bits(b, 26, 1, 2),
        rf_configuration_reported: bits(b, 26, 3, 2),
        time_offset_days: bits(b, 37, 1, 9),
        time_offset_sign: bits(b, 37, 15, 1),
        time_offset_seconds: bits(b, 37, 16, 17),
        frequency_offset: signed(b, 39, 1, 48),
    })
}

/// Where a value goes when written: word, bit, width, value; digits packed, a signed number in two's complement.
pub type Place = (usize, usize, usize, u64);

impl Own {
    fn places(&self) -> Vec<Place> {
        match self {
            Own::In1985(own) => vec![
                (24, 1, 4, own.filter),
                (39, 1, 16, own.word_39),
                (40, 1, 8, own.register_1),
                (40, 9, 8, own.register_2),
                // No bits, into which only 0 fits.
                (40, 16, 0, own.no_field[0]),
                (40, 16, 0, own.no_field[1]),
            ],
            Own::In1992(own) => vec![
                (26, 1, 2, own.rf_configuration),
                (26, 3, 2, own.rf_configuration_reported),
                (37, 1, 9, own.time_offset_days),
                (37, 15, 1, own.time_offset_sign),
                (37, 16, 17, own.time_offset_seconds),
                (39, 1, 48, complement(own.frequency_offset, 48)),
            ],
        }
    }
}

impl Header {
    /// A header of this edition with 0 in every field.
    pub fn blank(edition: u64) -> Result<Header, u8> {
        let edition = edition_of(edition)?;
        Ok(Header::fields(edition, &vec![0; edition.header_bytes()]))
    }

    pub fn edition(&self) -> &'static Edition {
        match self.own {
            Own::In1985(_) => &EDITION_1985,
            Own::In1992(_) => &EDITION_1992,
        }
    }

    /// The fields of at least as many bytes as the header has, unjudged.
    pub fn fields(edition: &Edition, b: &[u8]) -> Header {
        Header {
            clock_origin: bits(b, 1, 1, 1),
            session_start: bits(b, 1, 2, 1),
            copy_error: bits(b, 1, 3, 1),
            conversion: bits(b, 1, 4, 1),
            compression: bits(b, 1, 5, 4),
            tape_number: bits(b, 1, 9, 8),
            record_number: bits(b, 2, 1, 16),
            length_words: bits(b, 3, 1, 16),
            prime_fea: bits(b, 4, 1, 8),
            secondary_fea: bits(b, 4, 9, 8),
            spacecraft: bits(b, 5, 1, 8),
            spc: bits(b, 5, 9, 8),
            year: bits(b, 6, 1, 7),
            day: bits(b, 6, 8, 9),
            time_tag_ms: bits(b, 7, 6, 27),
            predict: std::array::from_fn(|i| bits(b, 9 + i / 2, 1 + 8 * (i % 2), 8)),
            status: bits(b, 14, 1, 8),
            readback_uhz: digits(b, 14, 9, 14),
            readback_tag_ms: bits(b, 18, 6, 27),
            calculated_uhz: digits(b, 20, 9, 14),
            update_tag_ms: bits(b, 24, 6, 27),
            rate_digits: digits(b, 26, 9, 5),
            rate_power: bits(b, 27, 13, 3),
            rate_sign: bits(b, 27, 16, 1),
            phase_1: bits(b, 28, 1, 48),
            phase_2: bits(b, 31, 1, 48),
            selector_1: bits(b, 34, 1, 4),
            selector_2: bits(b, 34, 5, 4),
            selector_3: bits(b, 34, 9, 4),
            selector_4: bits(b, 34, 13, 4),
            counter_tag_ms: bits(b, 35, 6, 27),
            sample_rate_hz: bits(b, edition.rate_word, 1, 16),
            sync_word: bits(b, edition.sync_word, 1, 16),
            own: (edition.own)(b),
        }
    }

    pub fn places(&self) -> Vec<Place> {
        let edition = self.edition();
        let mut places = vec![
            (1, 1, 1, self.clock_origin),
            (1, 2, 1, self.session_start),
            (1, 3, 1, self.copy_error),
            (1, 4, 1, self.conversion),
            (1, 5, 4, self.compression),
            (1, 9, 8, self.tape_number),
            (2, 1, 16, self.record_number),
            (3, 1, 16, self.length_words),
            (4, 1, 8, self.prime_fea),
            (4, 9, 8, self.secondary_fea),
            (5, 1, 8, self.spacecraft),
            (5, 9, 8, self.spc),
            (6, 1, 7, self.year),
            (6, 8, 9, self.day),
            (7, 6, 27, self.time_tag_ms),
            (14, 1, 8, self.status),
            (14, 9, 56, packed(self.readback_uhz, 14)),
            (18, 6, 27, self.readback_tag_ms),
            (20, 9, 56, packed(self.calculated_uhz, 14)),
            (24, 6, 27, self.update_tag_ms),
            (26, 9, 20, packed(self.rate_digits, 5)),
            (27, 13, 3, self.rate_power),
            (27, 16, 1, self.rate_sign),
            (28, 1, 48, self.phase_1),
            (31, 1, 48, self.phase_2),
            (34, 1, 4, self.selector_1),
            (34, 5, 4, self.selector_2),
            (34, 9, 4, self.selector_3),
            (34, 13, 4, self.selector_4),
            (35, 6, 27, self.counter_tag_ms),
            (edition.rate_word, 1, 16, self.sample_rate_hz),
            (edition.sync_word, 1, 16, self.sync_word),
        ];
        places.extend(self.predict.iter().enumerate().map(|(i, &value)| (9 + i / 2, 1 + 8 * (i % 2), 8, value)));
        places.extend(self.own.places());
        places
    }
}
