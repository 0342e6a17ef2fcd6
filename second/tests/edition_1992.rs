//! FORMAT: "The record", "Rates" and "Refusal numbers" of 1992: values worked by hand from RSC-11-11, and each number's boundary;
//! records of one edition judged as the other, unknown editions, and books of both.

use second::book::{open, Ledger, Opening};
use second::edition::{edition_of, sample_rate, EDITIONS, EDITION_1992};
use second::gen::{set_tag, set_word};
use second::header::{Header, Own, Own1992};
use second::monitor::segment;
use second::record::{accept, frequency_rate, read_header, write_header};
use second::reel::{step, Step};
use second::samples::{means, phases, read_samples, sample_time, totals, write_samples, Means, Total};

/// The 8-bit lines of Table 1: rate, samples, records a second, total words; and the microseconds from sample to sample.
const TABLE_1: [(u64, u64, u64, u64, u64); 19] = [
    (50_000, 1000, 50, 2083, 20), (31_250, 625, 50, 1333, 32), (25_000, 1000, 25, 2083, 40), (20_000, 1000, 20, 2083, 50),
    (15_625, 625, 25, 1333, 64), (12_500, 625, 20, 1333, 80), (10_000, 1000, 10, 2083, 100), (6_250, 625, 10, 1333, 160),
    (5_000, 1000, 5, 2083, 200), (4_000, 1000, 4, 2083, 250), (3_125, 625, 5, 1333, 320), (2_500, 625, 4, 1333, 400),
    (2_000, 1000, 2, 2083, 500), (1_250, 625, 2, 1333, 800), (1_000, 500, 2, 1083, 1000), (500, 250, 2, 583, 2000),
    (400, 200, 2, 483, 2500), (250, 125, 2, 333, 4000), (200, 100, 2, 283, 5000),
];

/// The cells of a row, and of a second.
const CELLS: usize = 24;

const UNKNOWN: [u64; 14] = [
    0, 1, 85, 92, 1984, 1986, 1991, 1993, 1985 + (1 << 16), 1992 + (1 << 16), 1985 + (1 << 32), 1992 + (1 << 32), 1992 << 8,
    u64::MAX,
];

/// A plain record of a rate, number and tag: tape 1, day 1 of year 92, no flags, samples 0.
fn plain(hz: u64, number: u64, tag_ms: u64) -> Vec<u8> {
    let words = TABLE_1.into_iter().find(|line| line.0 == hz).unwrap().3;
    let mut r = vec![0; 2 * words as usize];
    for (w, value) in [(1, 0x1101), (2, number), (3, words), (6, 92 << 9 | 1), (80, hz)] {
        set_word(&mut r, w, value);
    }
    set_tag(&mut r, 7, tag_ms);
    r
}

/// The same record in the edition of 1985, of 200 a second.
fn of_1985(number: u64, tag_ms: u64) -> Vec<u8> {
    let mut r = vec![0; 780];
    for (w, value) in [(1, 0x0101), (2, number), (3, 390), (6, 92 << 9 | 1), (37, 200)] {
        set_word(&mut r, w, value);
    }
    set_tag(&mut r, 7, tag_ms);
    r
}

fn with(change: impl FnOnce(&mut Vec<u8>)) -> Vec<u8> {
    let mut r = plain(200, 1, 0);
    change(&mut r);
    r
}

fn answer(change: impl FnOnce(&mut Vec<u8>)) -> u8 {
    accept(1992, &with(change)).err().unwrap_or(0)
}

fn header(change: impl FnOnce(&mut Vec<u8>)) -> Header {
    read_header(1992, &with(change)).unwrap()
}

fn own(h: &mut Header) -> &mut Own1992 {
    match &mut h.own {
        Own::In1992(own) => own,
        Own::In1985(_) => panic!("a header of 1985"),
    }
}

// Values worked by hand.

#[test]
fn poca_frequency() {
    // 41,562,421.673152 Hz.
    let r = |r: &mut Vec<u8>| [(14, 0x41), (15, 0x5624), (16, 0x2167), (17, 0x3152)].iter().for_each(|&(w, v)| set_word(r, w, v));
    assert_eq!(header(r).readback_uhz, 41_562_421_673_152);
}

#[test]
fn poca_rates() {
    // -1.2345, 123.45 and 0.12345 Hz/s.
    for (low, units) in [(0x3452, -123_450), (0x3457, 12_345_000), (0x3451, 12_345)] {
        let r = with(|r| {
            set_word(r, 26, 0x12);
            set_word(r, 27, low);
        });
        assert_eq!(frequency_rate(1992, &r), Ok(units));
    }
    // The power has bits 13 to 15, and bit 12 is the last digit's.
    let h = header(|r| set_word(r, 27, 0x001F));
    assert_eq!((h.rate_digits, h.rate_power, h.rate_sign), (1, 7, 1));
}

#[test]
fn phase_cycles() {
    let counts = |first: &[u8], second: &[u8]| {
        phases(1992, &with(|r| {
            r[54..60].copy_from_slice(first);
            r[60..66].copy_from_slice(second);
        }))
    };
    assert_eq!(counts(&[0, 0, 0, 0x10, 0, 0], &[0, 0, 0, 0x18, 0, 0]), Ok((1.0, 1.5)));
    assert_eq!(counts(&[0, 0, 0, 0, 0, 1], &[0, 0, 0, 0, 0, 0]), Ok((1.0 / 1_048_576.0, 0.0)));
    let (all, least) = counts(&[0xFF; 6], &[0x80, 0, 0, 0, 0, 0]).unwrap();
    assert_eq!((all * 1_048_576.0, least), (281_474_976_710_655.0, 134_217_728.0));
}

#[test]
fn predict_offsets() {
    let offset = |bytes: [u8; 6]| own(&mut header(|r| r[76..82].copy_from_slice(&bytes))).frequency_offset;
    assert_eq!(offset([0xFF; 6]), -1);
    assert_eq!(offset([0; 6]), 0);
    assert_eq!(offset([0, 0, 0, 0x10, 0, 0]), 1 << 20);
    assert_eq!(offset([0xFF, 0xFF, 0xFF, 0xF0, 0, 0]), -(1 << 20));
    assert_eq!(offset([0x7F, 0xFF, 0xFF, 0xFF, 0xFF, 0xFF]), 140_737_488_355_327);
    assert_eq!(offset([0x80, 0, 0, 0, 0, 0]), -140_737_488_355_328);
    // The document's maximum, 2 MHz, and more: not judged.
    assert_eq!(offset([0x01, 0xE8, 0x48, 0x00, 0x00, 0x00]), 2_000_000 << 20);
    assert_eq!(offset([0x01, 0xE8, 0x48, 0x00, 0x00, 0x01]), (2_000_000 << 20) + 1);

    // Days, sign and seconds are three fields: word 37 bits 1 to 9, bit 15, and 17 bits from bit 16 on; 10 to 14 are unused.
    for (high, low, days, sign, seconds) in [
        (0x0000, 0x0000, 0, 0, 0),
        (0x0080, 0x0000, 1, 0, 0),
        (0xFF80, 0x0000, 511, 0, 0),
        (0x0040, 0x0000, 0, 0, 0),
        (0x007C, 0x0000, 0, 0, 0),
        (0x0002, 0x0000, 0, 1, 0),
        (0x0001, 0x0000, 0, 0, 65_536),
        (0x0000, 0x0001, 0, 0, 1),
        (0x0001, 0x517F, 0, 0, 86_399),
        (0x9603, 0x517F, 300, 1, 86_399),
        (0xFFFF, 0xFFFF, 511, 1, 131_071),
    ] {
        let mut h = header(|r| {
            set_word(r, 37, high);
            set_word(r, 38, low);
        });
        let found = own(&mut h);
        assert_eq!((found.time_offset_days, found.time_offset_sign, found.time_offset_seconds), (days, sign, seconds));
    }
}

#[test]
fn rf_configurations() {
    for (byte, selected, reported) in [(0x00, 0, 0), (0x40, 1, 0), (0x80, 2, 0), (0xC0, 3, 0), (0x10, 0, 1), (0x9F, 2, 1)] {
        let mut h = header(|r| r[50] = byte);
        assert_eq!((own(&mut h).rf_configuration, own(&mut h).rf_configuration_reported), (selected, reported));
    }
}

#[test]
fn record_numbers_have_16_bits() {
    for number in [1, 64, 55_000, 58_000, 65_535] {
        assert_eq!(header(|r| set_word(r, 2, number)).record_number, number);
    }
}

#[test]
fn sample_rates() {
    for (hz, samples, records, words, interval) in TABLE_1 {
        let line = sample_rate(1992, hz).unwrap();
        assert_eq!([line.samples, line.records_a_second, line.interval_us], [samples, records, interval]);
        assert_eq!((records * samples, 83 + 2 * samples, interval * hz), (hz, words, 1_000_000));
    }
    for hz in [0, 1, 199, 201, 100_000, 200 + (1 << 16), 200 + (1 << 32), u64::MAX] {
        assert_eq!(sample_rate(1992, hz), Err(5));
    }
    // Twelve of the nineteen are none of 1985, and the other seven are all of 1985.
    let both: Vec<u64> = TABLE_1.into_iter().map(|line| line.0).filter(|&hz| sample_rate(1985, hz) != Err(5)).collect();
    assert_eq!(both, [50_000, 20_000, 10_000, 5_000, 2_000, 1_000, 200]);
}

#[test]
fn sample_bytes_and_times() {
    for (hz, count, _, words, interval) in TABLE_1 {
        for (k, c) in [(0, 1), (7, 3), (count as usize - 1, 4)] {
            let mut r = plain(hz, 1, 0);
            r[166 + 4 * k + (c - 1)] = 0x80;
            let mut out = [[0i8; 1001]; 4];
            read_samples(1992, &r, out.each_mut().map(|c| c.as_mut_slice())).unwrap();
            let mut expected = [[0i8; 1001]; 4];
            expected[c - 1][k] = -128;
            assert_eq!(out, expected);
            let mut back = plain(hz, 1, 0);
            write_samples(1992, &mut back, out.each_ref().map(|c| c.as_slice())).unwrap();
            assert_eq!(back, r);
        }
        // The samples go from the header to the end.
        let mut r = plain(hz, 1, 1);
        r[166..].fill(0xFF);
        let ones = Total { sum: -(count as i64), squares: count, least: -1, greatest: -1, clipped: 0 };
        assert_eq!(totals(1992, &r), Ok([ones; 4]));
        assert_eq!((r.len() as u64, means(ones, count).mean), (2 * words, -1.0));
        // The tag is the third sample's time.
        let interval = interval as i64;
        for (tag_ms, tag_us) in [(0, 0), (1, 1_000), (86_399_999, 86_399_999_000)] {
            let times = [0, 1, 2, 3, count - 1].map(|k| sample_time(1992, &plain(hz, 1, tag_ms), k));
            let intervals = [-2, -1, 0, 1, count as i64 - 3];
            assert_eq!(times, intervals.map(|intervals| Ok(tag_us + intervals * interval)));
        }
        for k in [count, u64::MAX] {
            assert_eq!(sample_time(1992, &r, k), Err(12));
        }
    }
    assert_eq!([0, 624].map(|k| sample_time(1992, &plain(31_250, 1, 1), k)), [Ok(936), Ok(20_904)]);
    assert_eq!(sample_time(1992, &plain(15_625, 1, 86_399_999), 624), Ok(86_400_038_808));
    assert_eq!([0, 1].map(|k| sample_time(1992, &plain(200, 1, 0), k)), [Ok(-10_000), Ok(-5_000)]);
}

#[test]
fn header_fields() {
    let mut bytes = plain(200, 1, 0);
    for (i, byte) in bytes[..166].iter_mut().enumerate() {
        *byte = i as u8;
    }
    let words = [(1, 0xF1FE), (3, 283), (6, 96 << 9 | 366), (37, 0x9657), (38, 0x517F), (80, 200), (81, 0xA55A)];
    words.into_iter().for_each(|(w, value)| set_word(&mut bytes, w, value));
    set_tag(&mut bytes, 7, 86_399_999);
    set_tag(&mut bytes, 18, 86_399_999);
    bytes[27..34].copy_from_slice(&[0x12, 0x34, 0x56, 0x78, 0x90, 0x12, 0x34]);
    bytes[39..46].copy_from_slice(&[0x98, 0x76, 0x54, 0x32, 0x10, 0x98, 0x76]);
    bytes[50..54].copy_from_slice(&[0x9F, 0x54, 0x32, 0x1B]);
    bytes[76..82].copy_from_slice(&[0xFF, 0xFF, 0xFF, 0xFF, 0xFF, 0xFE]);
    let expected = Header {
        clock_origin: 1,
        session_start: 1,
        copy_error: 1,
        conversion: 1,
        compression: 1,
        tape_number: 0xFE,
        record_number: 0x0203,
        length_words: 283,
        prime_fea: 6,
        secondary_fea: 7,
        spacecraft: 8,
        spc: 9,
        year: 96,
        day: 366,
        time_tag_ms: 86_399_999,
        predict: [16, 17, 18, 19, 20, 21, 22, 23, 24, 25],
        status: 26,
        readback_uhz: 12_345_678_901_234,
        readback_tag_ms: 86_399_999,
        calculated_uhz: 98_765_432_109_876,
        update_tag_ms: 0x062F_3031,
        rate_digits: 54_321,
        rate_power: 5,
        rate_sign: 1,
        phase_1: 0x3637_3839_3A3B,
        phase_2: 0x3C3D_3E3F_4041,
        selector_1: 4,
        selector_2: 2,
        selector_3: 4,
        selector_4: 3,
        counter_tag_ms: 0x0445_4647,
        sample_rate_hz: 200,
        sync_word: 0xA55A,
        own: Own::In1992(Own1992 {
            rf_configuration: 2,
            rf_configuration_reported: 1,
            time_offset_days: 300,
            time_offset_sign: 1,
            time_offset_seconds: 86_399,
            frequency_offset: -2,
        }),
    };
    assert_eq!(read_header(1992, &bytes), Ok(expected.clone()));

    // Written over ones and over zeros, all but the unnamed bits and words are the same again.
    for fill in [0x00, 0xFF] {
        let mut out = vec![fill; 566];
        write_header(&mut out, &expected).unwrap();
        let mut same = bytes.clone();
        same[166..].fill(fill);
        // Words 42 to 79, 82 and 83.
        same[82..158].fill(fill);
        same[162..166].fill(fill);
        // Of words 7, 18, 24 and 35 bits 1 to 5, of word 20 bits 1 to 8, of word 26 bits 5 to 8, of word 37 bits 10 to 14.
        for (at, mask) in [(12, 0xF8), (34, 0xF8), (38, 0xFF), (46, 0xF8), (50, 0x0F), (68, 0xF8), (73, 0x7C)] {
            same[at] = same[at] & !mask | fill & mask;
        }
        assert_eq!(out, same);
    }
}

// Refusals, each at its boundary.

#[test]
fn refusals_1_to_4() {
    assert_eq!(accept(1992, &[]), Err(1));
    assert_eq!(accept(1992, &[0; 80]), Err(1));
    assert_eq!(accept(1992, &[0; 165]), Err(1));
    assert_eq!(accept(1992, &[0; 166]), Err(2));
    assert_eq!(answer(|r| r.truncate(165)), 1);
    assert_eq!(answer(|r| r.truncate(166)), 2);
    assert_eq!(answer(|r| r.truncate(565)), 2);
    assert_eq!(answer(|r| r.push(0)), 2);
    assert_eq!(answer(|_| ()), 0);
    assert_eq!(answer(|r| r[0] = 0x01), 3);
    assert_eq!(answer(|r| r[0] = 0x71), 0);
    for compression in 0..16 {
        assert_eq!(answer(|r| r[0] = 0x10 | compression), if compression == 1 { 0 } else { 4 });
        assert_eq!(answer(|r| r[0] = compression), 3);
    }
    let blank = Header::blank(1992).unwrap();
    for (length, found) in [(0, 1), (80, 1), (165, 1), (166, 2)] {
        assert_eq!(write_header(&mut vec![0; length], &blank), Err(found));
    }
}

#[test]
fn refusals_5_and_6() {
    for hz in 0..=65_535 {
        let known = TABLE_1.iter().any(|line| line.0 == hz);
        assert_eq!(answer(|r| set_word(r, 80, hz)), if hz == 200 { 0 } else if known { 6 } else { 5 });
    }
    for (hz, _, _, own, _) in TABLE_1 {
        assert_eq!(accept(1992, &plain(hz, 1, 0)), Ok(()));
        for words in 83..2_200 {
            let found = answer(|r| {
                r.resize(2 * words as usize, 0);
                set_word(r, 3, words);
                set_word(r, 80, hz);
            });
            assert_eq!(found, if words == own { 0 } else { 6 }, "{hz} {words}");
        }
    }
}

#[test]
fn refusals_7_to_11() {
    assert_eq!([answer(|r| r[1] = 0), answer(|r| set_word(r, 2, 0))], [7, 7]);
    for (year, day, found) in [(92, 366, 0), (92, 367, 8), (93, 365, 0), (93, 366, 8), (0, 366, 0), (99, 0, 8), (100, 1, 8)] {
        assert_eq!(answer(|r| set_word(r, 6, year << 9 | day)), found);
    }
    for w in [7, 18] {
        for (ms, found) in [(86_399_999, 0), (86_400_000, 9), ((1 << 27) - 1, 9)] {
            assert_eq!(answer(|r| set_tag(r, w, ms)), found);
        }
    }
    for w in [24, 35] {
        assert_eq!(answer(|r| set_tag(r, w, (1 << 27) - 1)), 0);
    }
    for at in [27, 33, 39, 45, 51, 52] {
        assert_eq!(answer(|r| r[at] = 0xA0), 10);
    }
    // Words 37 and 38 hold neither rate nor sync word; word 81 does.
    assert_eq!(answer(|r| r[72..76].fill(0xFF)), 0);
    assert_eq!(answer(|r| r[0] |= 0x80), 11);
    assert_eq!(answer(|r| {
        r[0] |= 0x80;
        set_word(r, 38, 0xA55A);
    }), 11);
    for bit in 0..16 {
        let sync = 0xA55A ^ 1 << bit;
        assert_eq!(answer(|r| set_word(r, 81, sync)), 0);
        assert_eq!(answer(|r| {
            r[0] |= 0x80;
            set_word(r, 81, sync);
        }), 11);
    }
    assert_eq!(answer(|r| {
        r[0] |= 0x80;
        set_word(r, 81, 0xA55A);
    }), 0);
    // What no field names is not judged.
    assert_eq!(answer(|r| {
        r[82..158].fill(0xFF);
        r[162..166].fill(0xFF);
        [r[12], r[34], r[38], r[46], r[50], r[68], r[73]] = [0xF8, 0xF8, 0xFF, 0xF8, 0x0F, 0xF8, 0x7C];
    }), 0);
}

#[test]
fn refusal_12() {
    for (hz, count, ..) in TABLE_1 {
        let mut r = plain(hz, 1, 0);
        for short in 0..5 {
            let lengths: [usize; 4] = std::array::from_fn(|c| count as usize - usize::from(c == short));
            let found = if short < 4 { Err(12) } else { Ok(()) };
            let mut out = lengths.map(|length| vec![7i8; length]);
            assert_eq!(read_samples(1992, &r, out.each_mut().map(|c| c.as_mut_slice())), found);
            let before = r.clone();
            assert_eq!(write_samples(1992, &mut r, out.each_ref().map(|c| c.as_slice())), found);
            assert_eq!(r, before);
        }
    }
}

#[test]
fn refusal_22() {
    type Set = fn(&mut Own1992, u64);
    let fields: [(Set, u32); 5] = [
        (|own, v| own.rf_configuration = v, 2),
        (|own, v| own.rf_configuration_reported = v, 2),
        (|own, v| own.time_offset_days = v, 9),
        (|own, v| own.time_offset_sign = v, 1),
        (|own, v| own.time_offset_seconds = v, 17),
    ];
    let good = header(|_| ());
    let written = |h: &Header| {
        let mut r = plain(200, 1, 0);
        let found = write_header(&mut r, h);
        assert!(found.is_ok() && read_header(1992, &r).as_ref() == Ok(h) || found.is_err() && r == plain(200, 1, 0));
        found.err().unwrap_or(0)
    };
    for (set, width) in fields {
        for (value, found) in [((1 << width) - 1, 0), (1 << width, 22), (u64::MAX, 22)] {
            let mut h = good.clone();
            set(own(&mut h), value);
            assert_eq!(written(&h), found);
        }
    }
    for (offset, found) in [
        (0, 0), (1, 0), (-1, 0), ((1 << 47) - 1, 0), (-(1 << 47), 0), (1 << 47, 22), (-(1 << 47) - 1, 22), ((1 << 48) - 1, 22),
        (1 << 48, 22), (i64::MAX, 22), (i64::MIN, 22),
    ] {
        let mut h = good.clone();
        own(&mut h).frequency_offset = offset;
        assert_eq!(written(&h), found, "{offset}");
        // 1 to 11 of the values come before 22.
        h.record_number = 0;
        assert_eq!(written(&h), 7);
    }
    // Conversion 0 is 12 bits here; a value above 1 is only too wide.
    for (conversion, found) in [(0, 3), (1, 0), (2, 22), (3, 22), (u64::MAX, 22)] {
        assert_eq!(written(&Header { conversion, ..good.clone() }), found);
    }
    for (sample_rate_hz, found) in [(250, 6), (201, 5), (65_736, 5)] {
        assert_eq!(written(&Header { sample_rate_hz, ..good.clone() }), found);
    }
    for (clock_origin, sync_word, found) in [(1, 0xA55A, 0), (1, 0, 11), (1, 0x1_A55A, 11), (0, 0x1_0000, 22), (2, 0, 22)] {
        assert_eq!(written(&Header { clock_origin, sync_word, ..good.clone() }), found);
    }
}

// One edition's record as the other's.

#[test]
fn a_record_of_the_other_edition() {
    assert_eq!([accept(1985, &of_1985(1, 0)), accept(1992, &plain(200, 1, 0))], [Ok(()), Ok(())]);
    assert_eq!([accept(1992, &of_1985(1, 0)), accept(1985, &plain(200, 1, 0))], [Err(3), Err(3)]);
    // With the conversion code turned round: no rate where the other edition has it, and with one there, no such length.
    let turned = |mut r: Vec<u8>, rate_word| {
        r[0] ^= 0x10;
        let mut rated = r.clone();
        set_word(&mut rated, rate_word, 200);
        [r, rated]
    };
    assert_eq!(turned(of_1985(1, 0), 80).map(|r| accept(1992, &r)), [Err(5), Err(6)]);
    assert_eq!(turned(plain(200, 1, 0), 37).map(|r| accept(1985, &r)), [Err(5), Err(6)]);
    // 1 is the edition's own: 80 to 165 bytes.
    assert_eq!([accept(1985, &[0; 165]), accept(1992, &[0; 165])], [Err(2), Err(1)]);
}

#[test]
fn refusal_25() {
    let (old, new) = (of_1985(1, 0), plain(200, 1, 0));
    for edition in UNKNOWN {
        assert_eq!(edition_of(edition).err(), Some(25));
        assert_eq!(sample_rate(edition, 200), Err(25));
        assert_eq!(sample_rate(edition, 0), Err(25));
        assert_eq!(Header::blank(edition), Err(25));
        for r in [&old[..], &new[..], &[]] {
            assert_eq!(accept(edition, r), Err(25));
            assert_eq!(read_header(edition, r), Err(25));
            assert_eq!(frequency_rate(edition, r), Err(25));
            assert_eq!(phases(edition, r), Err(25));
            assert_eq!(totals(edition, r), Err(25));
            assert_eq!(sample_time(edition, r, u64::MAX), Err(25));
            assert_eq!(read_samples(edition, r, [(); 4].map(|_| <&mut [i8]>::default())), Err(25));
            assert_eq!(write_samples(edition, &mut r.to_vec(), [&[]; 4]), Err(25));
            assert_eq!(segment(edition, r, &[], 0), Err(25));
            assert_eq!(open(edition, r, 0, 0, 0, 0, 0), Err(25));
            for place in [0, r.len(), r.len() + 1, usize::MAX] {
                assert_eq!(step(edition, r, place), Step::Refused(25));
            }
        }
        // Of a put: before the opening's own refusals.
        let o = open(1992, &new, 0, 1, 1, CELLS, CELLS).unwrap();
        for o in [o.clone(), Opening { edition, ..o.clone() }, Opening { tape: 0, ..o }] {
            assert_eq!(Ledger::default().put(&o, edition, &new, 0, 0), Err(25));
            assert_eq!(Ledger::default().put(&o, edition, &[], CELLS, CELLS), Err(25));
        }
    }
    assert_eq!(EDITIONS.map(|edition| edition.number), [1985, 1992]);
}

#[test]
fn refusal_26() {
    let (this, earlier) = (plain(200, 1, 0), plain(50_000, 1, 0));
    for number in [7, 5, 2, 6, 10, 4, 8, 0, 1, 11, u64::MAX] {
        assert_eq!(segment(1992, &this, &earlier, number), Err(26));
        assert_eq!(segment(1992, &this, &[], number), Err(1));
        assert_eq!(segment(1992, &[], &earlier, number), Err(1));
        // One edition is named for both.
        assert_eq!(segment(1992, &this, &of_1985(1, 0), number), Err(3));
        assert_eq!(segment(1985, &of_1985(1, 0), &earlier, number), Err(3));
    }
    assert_eq!(segment(1985, &of_1985(1, 0), &of_1985(2, 0), 7), Err(23));
    assert_eq!(segment(1985, &of_1985(1, 0), &of_1985(2, 0), 0), Err(20));
}

#[test]
fn reel_steps() {
    let reel = [plain(200, 1, 0), plain(31_250, 2, 5)].concat();
    assert_eq!(step(1992, &reel, 0), Step::Record { bytes: 0..566, next: 566 });
    assert_eq!(step(1992, &reel, 566), Step::Record { bytes: 566..3232, next: 3232 });
    for place in [3232, 3233, usize::MAX] {
        assert_eq!(step(1992, &reel, place), Step::Finished);
    }
    assert_eq!(step(1992, &[], 0), Step::Finished);
    assert_eq!(step(1992, &reel[..566 + 165], 566), Step::Refused(1));
    assert_eq!(step(1992, &reel[..566 + 166], 566), Step::Refused(2));
    assert_eq!(step(1992, &reel[..3231], 566), Step::Refused(2));
    for (words, found) in [(0, 1), (40, 1), (82, 1), (83, 6), (282, 6), (284, 2), (65_535, 2)] {
        assert_eq!(step(1992, &with(|r| set_word(r, 3, words)), 0), Step::Refused(found));
    }
    assert_eq!(step(1985, &reel, 0), Step::Refused(3));
}

// Books.

#[test]
fn books_of_both_editions() {
    let (old, new) = (of_1985(1, 0), plain(200, 1, 0));
    for (own, other, edition, another) in [(&old, &new, 1985, 1992), (&new, &old, 1992, 1985)] {
        let o = open(edition, own, 0, 1, 2, 2 * CELLS, CELLS).unwrap();
        assert_eq!((o.edition, o.rate), (edition, 200));
        let mut ledger = Ledger::default();
        // The edition alone differs: 15. A record of the one named as of the other: its own refusal.
        assert_eq!(ledger.put(&o, another, other, 2 * CELLS, CELLS), Err(15));
        assert_eq!(ledger.put(&o, edition, other, 2 * CELLS, CELLS), Err(3));
        assert_eq!(ledger.put(&o, another, own, 2 * CELLS, CELLS), Err(3));
        // 13 and 14 come before 15, and 15 before 16 and 17.
        assert_eq!(ledger.put(&Opening { tape: 0, ..o.clone() }, another, other, 2 * CELLS, CELLS), Err(13));
        assert_eq!(ledger.put(&o, another, other, 2 * CELLS - 1, CELLS), Err(14));
        let mut far = other.clone();
        set_word(&mut far, 2, 3);
        set_tag(&mut far, 7, 1_000);
        assert_eq!(ledger.put(&o, another, &far, 2 * CELLS, CELLS), Err(15));
        assert_eq!(ledger.put(&o, edition, own, 2 * CELLS, CELLS), Ok(()));
        assert_eq!(ledger.ask(&o, 0, 2 * CELLS, CELLS).unwrap().records, 1);
        // A held edition that is unknown is 13 in every call, after 1 to 11 of the record.
        for unknown in UNKNOWN {
            let o = Opening { edition: unknown, ..o.clone() };
            assert_eq!(ledger.put(&o, edition, own, 2 * CELLS, CELLS), Err(13));
            assert_eq!(ledger.put(&o, edition, &[], 2 * CELLS, CELLS), Err(1));
            assert_eq!(ledger.take_out(&o, 1, 2 * CELLS, CELLS), Err(13));
            assert_eq!(ledger.ask(&o, 0, 2 * CELLS, CELLS), Err(13));
            assert_eq!(ledger.means(&o, 0, 2 * CELLS, CELLS), Err(13));
            assert_eq!(ledger.book_test(&o, 2 * CELLS, CELLS), Err(13));
        }
    }
    // The held rate is judged by the held edition's table.
    let o = open(1992, &plain(31_250, 1, 0), 0, 1, 2, 2 * CELLS, CELLS).unwrap();
    let mut ledger = Ledger::default();
    assert_eq!(ledger.book_test(&o, 2 * CELLS, CELLS), Ok(true));
    let o = Opening { edition: 1985, ..o };
    assert_eq!(ledger.put(&o, 1992, &plain(31_250, 1, 0), 2 * CELLS, CELLS), Err(13));
    assert_eq!(ledger.take_out(&o, 1, 2 * CELLS, CELLS), Err(13));
    assert_eq!([ledger.ask(&o, 0, 2 * CELLS, CELLS).err(), ledger.means(&o, 0, 2 * CELLS, CELLS).err()], [Some(13); 2]);
    assert_eq!(ledger.book_test(&o, 2 * CELLS, CELLS), Err(13));
}

/// A record's second is that of its tag, though its first two samples stand in the second before, or on the day before.
#[test]
fn the_second_of_the_tag() {
    let made: [(u64, fn(u64, u64) -> Vec<u8>); 2] = [(1985, of_1985), (1992, |number, tag_ms| plain(200, number, tag_ms))];
    for (edition, made) in made {
        let o = open(edition, &made(1, 0), 0, 2, 2, 2 * CELLS, 2 * CELLS).unwrap();
        let mut ledger = Ledger::default();
        for (number, tag_ms, first_us) in [(1, 0, -10_000), (2, 1_000, 990_000)] {
            let r = made(number, tag_ms);
            assert_eq!(sample_time(edition, &r, 0), Ok(first_us));
            assert_eq!(ledger.put(&o, edition, &r, 2 * CELLS, 2 * CELLS), Ok(()));
        }
        assert_eq!([0, 1].map(|second| ledger.ask(&o, second, 2 * CELLS, 2 * CELLS).unwrap().records), [1, 1]);
        // The window goes by the tag too.
        let o = open(edition, &made(1, 0), 1, 1, 2, 2 * CELLS, CELLS).unwrap();
        let put = |tag_ms| Ledger::default().put(&o, edition, &made(1, tag_ms), 2 * CELLS, CELLS);
        let found = [999, 1_000, 1_999, 2_000].map(put);
        assert_eq!(found, [Err(17), Ok(()), Ok(()), Err(17)]);
    }
}

#[test]
fn full_and_kept_seconds_of_every_rate() {
    for (hz, count, full, ..) in TABLE_1 {
        let (rows, seconds) = (CELLS * 99, CELLS * 2);
        let o = open(1992, &plain(hz, 1, 0), 0, 2, 99, rows, seconds).unwrap();
        let mut ledger = Ledger::default();
        for number in 1..=full {
            let mut r = plain(hz, number, 1_000);
            r[166..].fill(number as u8);
            if number == 1 {
                r[0] |= 0x80;
                set_word(&mut r, 81, 0xA55A);
            }
            assert!(!ledger.ask(&o, 1, rows, seconds).unwrap().kept);
            assert_eq!(ledger.put(&o, 1992, &r, rows, seconds), Ok(()));
        }
        let t = ledger.ask(&o, 1, rows, seconds).unwrap();
        assert_eq!((t.records, t.origins, t.errors, t.kept), (full, 1, 0, true));
        let sum = (count * full * (full + 1) / 2) as i64;
        assert_eq!((t.channels[3].sum, t.channels[3].least, t.channels[3].greatest), (sum, 1, full as i8));
        let mean = Means { mean: sum as f64 / hz as f64, mean_square: t.channels[0].squares as f64 / hz as f64 };
        assert_eq!(ledger.means(&o, 1, rows, seconds), Ok([mean; 4]));
        assert_eq!(ledger.put(&o, 1992, &plain(hz, full + 1, 1_999), rows, seconds), Err(18));
        assert_eq!(ledger.put(&o, 1992, &plain(hz, full, 1_999), rows, seconds), Ok(()));
    }
    assert_eq!(EDITION_1992.rates.len(), 19);
}
