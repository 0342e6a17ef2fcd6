//! FORMAT: "Cases worked by hand", "The listing" and "Refusal numbers": worked values and each number's boundary, of 1985.

use second::book::{open, Ledger, Opening, SecondTotals};
use second::edition::{sample_rate, EDITION_1985};
use second::gen::{digit_places, set_digit, set_tag, set_word, word};
use second::header::{Header, Own, Own1985};
use second::lister::{columns_line, line, listing, put_line, put_text, put_text_at, refused_line, HEADER_LINE};
use second::monitor::{segment, SEGMENTS};
use second::record::{accept, frequency_rate, read_header, write_header};
use second::reel::{step, Step};
use second::samples::{means, phases, read_samples, sample_time, time_us, total, totals, write_samples, Means, Total};

/// The 780 bytes of the listing's case.
fn case() -> Vec<u8> {
    let mut r = vec![0; 780];
    for (w, value) in [
        (1, 0x8101), (2, 0x0001), (3, 0x0186), (6, 0xAC18), (7, 0x0293), (8, 0x2E00),
        (16, 0x4200), (26, 0x0012), (27, 0x3452), (37, 0x00C8), (38, 0xA55A),
    ] {
        set_word(&mut r, w, value);
    }
    r
}

/// A plain record of a rate, number and tag: tape 1, day 1 of year 0, no flags, samples 0.
fn plain(hz: u64, number: u64, tag_ms: u64) -> Vec<u8> {
    let words = EDITION_1985.rate(hz).unwrap().lengths[0];
    let mut r = vec![0; 2 * words as usize];
    for (w, value) in [(1, 0x0101), (2, number), (3, words), (6, 1), (37, hz)] {
        set_word(&mut r, w, value);
    }
    set_tag(&mut r, 7, tag_ms);
    r
}

fn with(change: impl FnOnce(&mut Vec<u8>)) -> Vec<u8> {
    let mut r = case();
    change(&mut r);
    r
}

fn answer(change: impl FnOnce(&mut Vec<u8>)) -> u8 {
    accept(1985, &with(change)).err().unwrap_or(0)
}

// Values worked by hand.

#[test]
fn frequency_rates() {
    for (high, low, units) in
        [(0x12, 0x3452, -123_450), (0x12, 0x3457, 12_345_000), (0x12, 0x3451, 12_345), (0, 0, 0), (0, 1, 0)]
    {
        let r = with(|r| {
            set_word(r, 26, high);
            set_word(r, 27, low);
        });
        assert_eq!(frequency_rate(1985, &r), Ok(units));
    }
    let zero = read_header(1985, &with(|r| r[50..54].copy_from_slice(&[0, 0, 0, 1]))).unwrap();
    assert_eq!((zero.rate_digits, zero.rate_power, zero.rate_sign), (0, 0, 1));
}

#[test]
fn sample_rates() {
    let lines = [
        (50_000, 1000, 50, 20), (20_000, 1000, 20, 50), (10_000, 1000, 10, 100), (5_000, 1000, 5, 200), (2_000, 1000, 2, 500),
        (1_000, 500, 2, 1000), (200, 100, 2, 5000),
    ];
    for (hz, samples, records, microseconds) in lines {
        let line = sample_rate(1985, hz).unwrap();
        assert_eq!([line.samples, line.records_a_second, line.interval_us], [samples, records, microseconds]);
    }
    for hz in [0, 1, 100, 199, 201, 500, 100_000, 200 + (1 << 16), 200 + (1 << 32), u64::MAX] {
        assert_eq!(sample_rate(1985, hz), Err(5));
    }
}

#[test]
fn frequencies() {
    assert_eq!(read_header(1985, &case()).unwrap().readback_uhz, 42_000_000);
    let nines = with(|r| {
        r[27..34].fill(0x99);
        r[39..46].fill(0x99);
    });
    assert_eq!(read_header(1985, &nines).unwrap().readback_uhz, 99_999_999_999_999);
    assert_eq!(read_header(1985, &nines).unwrap().calculated_uhz, 99_999_999_999_999);
    assert_eq!(answer(|r| r[27] = 0xA0), 10);
}

#[test]
fn sample_bytes() {
    let r = with(|r| r[80..83].copy_from_slice(&[0x80, 0x7F, 0xFF]));
    let mut out = [[9i8; 101]; 4];
    read_samples(1985, &r, out.each_mut().map(|c| c.as_mut_slice())).unwrap();
    assert_eq!(out.map(|c| c[0]), [-128, 127, -1, 0]);
    assert_eq!(out.map(|c| (c[99], c[100])), [(0, 9); 4]);
    for rate in EDITION_1985.rates {
        for (k, c) in [(0, 1), (7, 3), (rate.samples as usize - 1, 4)] {
            let mut r = plain(rate.hz, 1, 0);
            r[80 + 4 * k + (c - 1)] = 5;
            let mut out = [[0i8; 1000]; 4];
            read_samples(1985, &r, out.each_mut().map(|c| c.as_mut_slice())).unwrap();
            let mut expected = [[0i8; 1000]; 4];
            expected[c - 1][k] = 5;
            assert_eq!(out, expected);
            let mut back = plain(rate.hz, 1, 0);
            write_samples(1985, &mut back, out.each_ref().map(|c| c.as_slice())).unwrap();
            assert_eq!(back, r);
        }
    }
}

#[test]
fn sample_times() {
    let r = plain(50_000, 1, 1);
    assert_eq!([0, 2, 999].map(|k| sample_time(1985, &r, k)), [Ok(960), Ok(1_000), Ok(20_940)]);
    assert_eq!(sample_time(1985, &r, 1000), Err(12));
    // The first two samples of a day's first record stand on the day before.
    let times = [0, 1, 2, 3, 99].map(|k| sample_time(1985, &plain(200, 1, 0), k));
    assert_eq!(times, [Ok(-10_000), Ok(-5_000), Ok(0), Ok(5_000), Ok(485_000)]);
    assert_eq!(sample_time(1985, &case(), 0), Ok(43_199_990_000));
    assert_eq!(sample_time(1985, &case(), 99), Ok(43_200_000_000 + 97 * 5_000));
    assert_eq!(sample_time(1985, &case(), 100), Err(12));
    assert_eq!(sample_time(1985, &case(), u64::MAX), Err(12));
    assert_eq!(sample_time(1985, &[], u64::MAX), Err(1));
}

#[test]
fn first_samples() {
    // The day's first two tags and its last one, at every rate.
    let lines = [
        (50_000, [-40, 960, 86_399_998_960]),
        (20_000, [-100, 900, 86_399_998_900]),
        (10_000, [-200, 800, 86_399_998_800]),
        (5_000, [-400, 600, 86_399_998_600]),
        (2_000, [-1_000, 0, 86_399_998_000]),
        (1_000, [-2_000, -1_000, 86_399_997_000]),
        (200, [-10_000, -9_000, 86_399_989_000]),
    ];
    for (hz, times) in lines {
        for (tag_ms, us) in [0, 1, 86_399_999].into_iter().zip(times) {
            let r = plain(hz, 1, tag_ms);
            assert_eq!(sample_time(1985, &r, 0), Ok(us));
            assert_eq!(line(&r), Ok(format!("1,{us},0,0.000000,0.00000\n")));
        }
    }
}

#[test]
fn times_that_are_not_whole_are_rounded_down() {
    // No rate of either edition gives one; 3 and 7 a second would.
    assert_eq!([0, 1, 2, 3, 4].map(|k| time_us(0, k, 3)), [-666_667, -333_334, 0, 333_333, 666_666]);
    assert_eq!([0, 1, 2, 3, 4].map(|k| time_us(1_000, k, 7)), [714_285, 857_142, 1_000_000, 1_142_857, 1_285_714]);
}

#[test]
fn totals_and_means() {
    let t = Total { sum: -1, squares: 25, least: -4, greatest: 3, clipped: 0 };
    assert_eq!(total(&[3, -4]), t);
    assert_eq!(total(&[]), Total::default());
    assert_eq!(means(t, 2), Means { mean: -0.5, mean_square: 12.5 });
    assert_eq!(means(t, 0), Means { mean: 0.0, mean_square: 0.0 });
    let r = with(|r| {
        r[80..480].fill(5);
        r[81] = 0x80;
    });
    let five = Total { sum: 500, squares: 2500, least: 5, greatest: 5, clipped: 0 };
    let one = Total { sum: 367, squares: 18_859, least: -128, greatest: 5, clipped: 1 };
    assert_eq!(totals(1985, &r), Ok([five, one, five, five]));
    // The samples end at N. A record that is not accepted has no totals, though its samples are there.
    for rate in EDITION_1985.rates {
        let mut r = plain(rate.hz, 1, 0);
        let end = 2 * rate.n as usize;
        r[80..end].fill(0xFF);
        r[end..].fill(7);
        let ones = Total { sum: -(rate.samples as i64), squares: rate.samples, least: -1, greatest: -1, clipped: 0 };
        assert_eq!(totals(1985, &r), Ok([ones; 4]));
        r[1] = 0;
        assert_eq!(totals(1985, &r), Err(7));
        r.truncate(end);
        assert_eq!(totals(1985, &r), Err(2));
    }
    assert_eq!(totals(1985, &with(|r| set_word(r, 38, 0))), Err(11));
    assert_eq!(totals(1985, &case()[..79]), Err(1));
}

#[test]
fn phase_cycles() {
    let r = with(|r| {
        r[54..60].fill(0xFF);
        r[60..66].copy_from_slice(&[0, 0, 0, 0, 1, 0x40]);
    });
    assert_eq!(phases(1985, &r), Ok((((1u64 << 48) - 1) as f64 / 256.0, 1.25)));
    assert_eq!(phases(1985, &r).unwrap().0 * 256.0, 281_474_976_710_655.0);
}

#[test]
fn header_fields() {
    let mut bytes = case();
    for (i, byte) in bytes[..80].iter_mut().enumerate() {
        *byte = i as u8;
    }
    for (w, value) in [(1, 0xE1FE), (3, 390), (6, 96 << 9 | 366), (37, 200), (38, 0xA55A)] {
        set_word(&mut bytes, w, value);
    }
    set_tag(&mut bytes, 7, 86_399_999);
    set_tag(&mut bytes, 18, 86_399_999);
    bytes[27..34].copy_from_slice(&[0x12, 0x34, 0x56, 0x78, 0x90, 0x12, 0x34]);
    bytes[39..46].copy_from_slice(&[0x98, 0x76, 0x54, 0x32, 0x10, 0x98, 0x76]);
    bytes[51..54].copy_from_slice(&[0x54, 0x32, 0x1B]);
    let expected = Header {
        clock_origin: 1,
        session_start: 1,
        copy_error: 1,
        conversion: 0,
        compression: 1,
        tape_number: 0xFE,
        record_number: 0x0203,
        length_words: 390,
        prime_fea: 6,
        secondary_fea: 7,
        spacecraft: 8,
        spc: 9,
        year: 96,
        day: 366,
        time_tag_ms: 86_399_999,
        predict: [16, 17, 18, 19, 20, 21, 22, 23, 24, 25],
        status: 26,
        readback_uhz: 12_345_678_901_234,
        readback_tag_ms: 86_399_999,
        calculated_uhz: 98_765_432_109_876,
        update_tag_ms: 0x062F3031 & 0x7FF_FFFF,
        rate_digits: 54_321,
        rate_power: 5,
        rate_sign: 1,
        phase_1: 0x3637_3839_3A3B,
        phase_2: 0x3C3D_3E3F_4041,
        selector_1: 4,
        selector_2: 2,
        selector_3: 4,
        selector_4: 3,
        counter_tag_ms: 0x4445_4647 & 0x7FF_FFFF,
        sample_rate_hz: 200,
        sync_word: 0xA55A,
        own: Own::In1985(Own1985 { filter: 2, word_39: 0x4C4D, register_1: 0x4E, register_2: 0x4F, no_field: [0; 2] }),
    };
    bytes[46..50].copy_from_slice(&[0x26, 0x2F, 0x30, 0x31]);
    assert_eq!(read_header(1985, &bytes), Ok(expected.clone()));

    // Written over ones, all but the unnamed bits are the same again; over zeros too.
    for fill in [0x00, 0xFF] {
        let mut out = vec![fill; 780];
        write_header(&mut out, &expected).unwrap();
        let mut same = bytes.clone();
        same[80..].fill(fill);
        for (at, mask) in [(12, 0xF8), (34, 0xF8), (38, 0xFF), (46, 0x08), (50, 0xFF), (68, 0xF8)] {
            same[at] = same[at] & !mask | fill & mask;
        }
        assert_eq!(out, same);
    }
}

// The lister.

#[test]
fn lister_case() {
    let text = b"record,first_us,origin,poca_hz,rate_hz_s\n1,43199990000,1,42.000000,-1.23450\n";
    assert_eq!(listing(&case()), text);
}

#[test]
fn lister_empty() {
    assert_eq!(listing(&[]), b"record,first_us,origin,poca_hz,rate_hz_s\n");
}

#[test]
fn lister_lines_before_a_refusal_stay() {
    let bad = with(|r| r[1] = 0);
    let reel = [case(), bad, case()].concat();
    let text = format!("{HEADER_LINE}1,43199990000,1,42.000000,-1.23450\nrefused,7\n");
    assert_eq!(listing(&reel), text.as_bytes());
    assert_eq!(listing(&case()[..779]), format!("{HEADER_LINE}refused,2\n").as_bytes());
}

#[test]
fn lister_numbers() {
    for (digits, low, text) in [
        (0, 0x0000, "0.00000"),
        (0, 0x0001, "0.00000"),
        (0, 0x0010, "-0.00001"),
        (0, 0x0011, "0.00001"),
        (0x99, 0x999F, "9999900.00000"),
        (0x99, 0x999E, "-9999900.00000"),
    ] {
        let r = with(|r| {
            set_word(r, 1, 0x0101);
            set_word(r, 2, 65_535);
            set_tag(r, 7, 0);
            r[27..34].copy_from_slice(&[0, 0, 0, 0, 0, 0, 1]);
            set_word(r, 26, digits);
            set_word(r, 27, low);
        });
        assert_eq!(line(&r).unwrap(), format!("65535,-10000,0,0.000001,{text}\n"));
    }
}

// Refusals, each at its boundary.

#[test]
fn refusal_1() {
    assert_eq!(accept(1985, &[0; 79]), Err(1));
    assert_eq!(accept(1985, &[0; 80]), Err(2));
    assert_eq!(answer(|r| r.truncate(79)), 1);
    assert_eq!(answer(|r| r.truncate(80)), 2);
    assert_eq!(answer(|r| r.clear()), 1);
    let blank = Header::blank(1985).unwrap();
    assert_eq!(write_header(&mut [0; 79], &blank), Err(1));
    assert_eq!(write_header(&mut [0; 80], &blank), Err(2));
}

#[test]
fn refusal_2() {
    assert_eq!(answer(|_| ()), 0);
    assert_eq!(answer(|r| r.truncate(779)), 2);
    assert_eq!(answer(|r| r.push(0)), 2);
    assert_eq!(answer(|r| set_word(r, 3, 395)), 2);
}

#[test]
fn refusal_3() {
    assert_eq!(answer(|r| r[0] |= 0x10), 3);
    assert_eq!(answer(|r| r[0] = 0xF2), 3);
    assert_eq!(answer(|r| r[0] = 0xE1), 0);
}

#[test]
fn refusal_4() {
    for compression in 0..16 {
        assert_eq!(answer(|r| r[0] = 0x80 | compression), if compression == 1 { 0 } else { 4 });
    }
}

#[test]
fn refusal_5() {
    for hz in 0..=65_535 {
        let known = [50_000, 20_000, 10_000, 5_000, 2_000, 1_000, 200].contains(&hz);
        assert_eq!(answer(|r| set_word(r, 37, hz)), if hz == 200 { 0 } else if known { 6 } else { 5 });
    }
}

#[test]
fn refusal_6() {
    for hz in [50_000, 20_000, 10_000, 5_000, 2_000, 1_000, 200] {
        let own = match hz { 200 => [390, 395], 1_000 => [1190, 1195], _ => [2190, 2195] };
        for words in 40..2_300 {
            let found = answer(|r| {
                r.resize(2 * words as usize, 0);
                set_word(r, 3, words);
                set_word(r, 37, hz);
            });
            assert_eq!(found, if own.contains(&words) { 0 } else { 6 }, "{hz} {words}");
        }
    }
}

#[test]
fn refusal_7() {
    for (byte, found) in [(0, 7), (1, 0), (255, 0)] {
        assert_eq!(answer(|r| r[1] = byte), found);
    }
    for (number, found) in [(0, 7), (1, 0), (256, 0), (65_535, 0)] {
        assert_eq!(answer(|r| set_word(r, 2, number)), found);
    }
}

#[test]
fn refusal_8() {
    for (year, day, found) in [
        (84, 366, 0), (84, 367, 8), (84, 1, 0), (84, 0, 8), (84, 511, 8), (86, 366, 8), (86, 365, 0), (0, 366, 0), (99, 366, 8),
        (99, 365, 0), (0, 1, 0), (99, 1, 0), (100, 1, 8), (100, 366, 8), (127, 1, 8),
    ] {
        assert_eq!(answer(|r| set_word(r, 6, year << 9 | day)), found);
        let mut bytes = case();
        let header = Header { year, day, ..read_header(1985, &bytes).unwrap() };
        assert_eq!(write_header(&mut bytes, &header).err().unwrap_or(0), found);
    }
    // Every fourth year from 00 on has a day 366.
    let longer: Vec<u64> = (0..100).step_by(4).collect();
    for year in 0..100 {
        let found = if longer.contains(&year) { 0 } else { 8 };
        assert_eq!(answer(|r| set_word(r, 6, year << 9 | 366)), found, "{year}");
    }
}

#[test]
fn refusal_9() {
    for w in [7, 18] {
        for (ms, found) in [(0, 0), (86_399_999, 0), (86_400_000, 9), ((1 << 27) - 1, 9)] {
            assert_eq!(answer(|r| set_tag(r, w, ms)), found);
        }
        assert_eq!(answer(|r| r[2 * w - 2] |= 0xF8), 0);
    }
    for w in [24, 35] {
        assert_eq!(answer(|r| set_tag(r, w, (1 << 27) - 1)), 0);
    }
}

#[test]
fn refusal_10() {
    assert_eq!(digit_places().len(), 14 + 14 + 5);
    for place in 0..160 {
        let judged = digit_places().contains(&place);
        for digit in 0..16 {
            let found = answer(|r| set_digit(r, place, digit));
            assert_eq!(found == 10, judged && digit > 9, "{place} {digit}");
            assert!(found == 10 || found == 0 || !judged, "{place} {digit}");
        }
    }
    assert_eq!(answer(|r| [r[26], r[38], r[50]] = [0xFF; 3]), 0);
    assert_eq!(answer(|r| r[53] |= 0x0F), 0);
}

#[test]
fn refusal_11() {
    for bit in 0..16 {
        assert_eq!(answer(|r| set_word(r, 38, 0xA55A ^ 1 << bit)), 11);
        assert_eq!(
            answer(|r| {
                r[0] = 1;
                set_word(r, 38, 0xA55A ^ 1 << bit);
            }),
            0
        );
    }
    assert_eq!(answer(|r| r[0] = 1), 0);
}

#[test]
fn refusal_12() {
    for rate in EDITION_1985.rates {
        let mut r = plain(rate.hz, 1, 0);
        let count = rate.samples as usize;
        for short in 0..5 {
            let lengths: [usize; 4] = std::array::from_fn(|c| if c == short { count - 1 } else { count });
            let mut out = lengths.map(|length| vec![7i8; length]);
            let found = read_samples(1985, &r, out.each_mut().map(|c| c.as_mut_slice()));
            assert_eq!(found, if short < 4 { Err(12) } else { Ok(()) });
            assert!(out.iter().flatten().all(|&s| s == if short < 4 { 7 } else { 0 }));
            let before = r.clone();
            let ones = lengths.map(|length| vec![-1i8; length]);
            let found = write_samples(1985, &mut r, ones.each_ref().map(|c| c.as_slice()));
            assert_eq!(found, if short < 4 { Err(12) } else { Ok(()) });
            if short < 4 {
                assert_eq!(r, before);
            } else {
                let end = 2 * rate.n as usize;
                assert_eq!(end, 80 + 4 * count);
                assert!(r[80..end].iter().all(|&b| b == 0xFF));
                assert_eq!((&r[..80], &r[end..]), (&before[..80], &before[end..]));
            }
        }
        let last_us = (rate.samples - 3) * 1_000_000 / rate.hz;
        assert_eq!(sample_time(1985, &r, rate.samples - 1), Ok(last_us as i64));
        assert_eq!(sample_time(1985, &r, rate.samples), Err(12));
    }
    let none = || [(); 4].map(|_| <&mut [i8]>::default());
    assert_eq!(read_samples(1985, &with(|r| set_word(r, 2, 0)), none()), Err(7));
    assert_eq!(read_samples(1985, &case(), none()), Err(12));
}

/// The cells of a row, and of a second.
const CELLS: usize = 24;
const ROWS: usize = CELLS * 65_535;
const SECONDS: usize = CELLS * 86_400;

#[test]
fn refusal_13() {
    let pattern = case();
    for (first, count, highest, found) in [
        (0, 1, 1, 0), (0, 1, 0, 13), (0, 1, 65_535, 0), (0, 1, 65_536, 13), (0, 0, 1, 13), (0, 86_400, 1, 0),
        (0, 86_401, 1, 13), (1, 86_400, 1, 13), (1, 86_399, 1, 0), (86_399, 1, 1, 0), (86_400, 1, 1, 13),
        (86_400, 0, 1, 13), (u64::MAX, 1, 1, 13), (0, u64::MAX, 1, 13), (0, 1, u64::MAX, 13),
    ] {
        let opened = open(1985, &pattern, first, count, highest, ROWS, SECONDS);
        assert_eq!(opened.err().unwrap_or(0), found, "{first} {count} {highest}");
    }
    assert_eq!(open(1985, &[], 0, 0, 0, 0, 0), Err(1));
    assert_eq!(open(1985, &pattern, 0, 0, 1, 0, 0), Err(13));

    let good = open(1985, &pattern, 43_200, 1, 2, 2 * CELLS, CELLS).unwrap();
    let forged = |change: fn(&mut Opening)| {
        let mut o = good.clone();
        change(&mut o);
        o
    };
    for (o, found) in [
        (forged(|o| o.rate = 201), 13),
        (forged(|o| o.rate = 1_000), 0),
        (forged(|o| o.rate = 31_250), 13),
        (forged(|o| o.edition = 1986), 13),
        (forged(|o| o.edition = 1992), 0),
        (forged(|o| o.tape = 0), 13),
        (forged(|o| o.tape = 255), 0),
        (forged(|o| o.year = 100), 13),
        (forged(|o| o.year = 99), 0),
        (forged(|o| o.day = 0), 13),
        (forged(|o| o.day = 367), 13),
        (forged(|o| o.day = 366), 13),
        (forged(|o| (o.year, o.day) = (84, 366)), 0),
        (forged(|o| (o.year, o.day) = (0, 366)), 0),
        (forged(|o| (o.year, o.day) = (99, 366)), 13),
        (forged(|o| o.day = 365), 0),
        (forged(|o| o.highest = 0), 13),
        (forged(|o| o.count = 0), 13),
        (forged(|o| o.count = u64::MAX), 13),
        (forged(|o| o.first_second = 86_400), 13),
        (forged(|o| o.first_second = u64::MAX), 13),
    ] {
        let mut ledger = Ledger::default();
        assert_eq!(ledger.book_test(&o, 2 * CELLS, CELLS).err().unwrap_or(0), found);
        assert_eq!(ledger.ask(&o, 43_200, 2 * CELLS, CELLS).err().unwrap_or(0), found);
        assert_eq!(ledger.means(&o, 43_200, 2 * CELLS, CELLS).err().unwrap_or(0), found);
        assert_eq!(ledger.take_out(&o, 1, 2 * CELLS, CELLS), Err(if found == 0 { 19 } else { 13 }));
        assert_eq!(ledger.put(&o, 1985, &pattern, 2 * CELLS, CELLS), Err(if found == 0 { 15 } else { 13 }));
        assert_eq!(ledger.put(&o, 1985, &[], 2 * CELLS, CELLS), Err(1));
        assert_eq!(ledger, Ledger::default());
    }
}

#[test]
fn refusal_14() {
    let pattern = case();
    for (rows, seconds, found) in [(48, 72, 0), (47, 72, 14), (48, 71, 14), (40, 60, 14), (0, 0, 14), (49, 73, 0)] {
        let opened = open(1985, &pattern, 43_199, 3, 2, rows, seconds);
        assert_eq!(opened.err().unwrap_or(0), found);
        let o = open(1985, &pattern, 43_199, 3, 2, 48, 72).unwrap();
        let mut ledger = Ledger::default();
        assert_eq!(ledger.put(&o, 1985, &pattern, rows, seconds).err().unwrap_or(0), found);
        assert_eq!(ledger.ask(&o, 43_200, rows, seconds).err().unwrap_or(0), found);
        assert_eq!(ledger.means(&o, 43_200, rows, seconds).err().unwrap_or(0), found);
        assert_eq!(ledger.book_test(&o, rows, seconds).err().unwrap_or(0), found);
        assert_eq!(ledger.take_out(&o, 1, rows, seconds).err().unwrap_or(0), found);
    }
}

#[test]
fn refusal_15() {
    let pattern = case();
    let o = open(1985, &pattern, 43_200, 1, 2, 2 * CELLS, CELLS).unwrap();
    let mut ledger = Ledger::default();
    let others: [fn(&mut Vec<u8>); 6] = [
        |r| *r = plain(1_000, 1, 43_200_000),
        |r| set_word(r, 6, 87 << 9 | 24),
        |r| set_word(r, 6, 86 << 9 | 25),
        |r| r[1] = 2,
        |r| r[8] = 1,
        |r| r[9] = 1,
    ];
    for change in others {
        assert_eq!(ledger.put(&o, 1985, &with(change), 2 * CELLS, CELLS), Err(15));
    }
    // 15 before 16 and 17; other fields may differ.
    let far = with(|r| {
        r[1] = 2;
        set_word(r, 2, 3);
        set_tag(r, 7, 0);
    });
    assert_eq!(ledger.put(&o, 1985, &far, 2 * CELLS, CELLS), Err(15));
    let free = with(|r| {
        r.resize(790, 1);
        set_word(r, 3, 395);
        set_word(r, 4, 0x0102);
        r[16..28].fill(1);
    });
    assert_eq!(ledger.put(&o, 1985, &free, 2 * CELLS, CELLS), Ok(()));
}

#[test]
fn refusal_16() {
    let o = open(1985, &plain(200, 9, 0), 5, 1, 2, 2 * CELLS, CELLS).unwrap();
    let mut ledger = Ledger::default();
    assert_eq!(ledger.put(&o, 1985, &plain(200, 2, 5_000), 2 * CELLS, CELLS), Ok(()));
    assert_eq!(ledger.put(&o, 1985, &plain(200, 3, 5_000), 2 * CELLS, CELLS), Err(16));
    assert_eq!(ledger.put(&o, 1985, &plain(200, 3, 0), 2 * CELLS, CELLS), Err(16));
    for (number, found) in [(0, Err(16)), (1, Err(19)), (2, Ok(())), (3, Err(16)), (65_538, Err(16)), (u64::MAX, Err(16))] {
        assert_eq!(ledger.take_out(&o, number, 2 * CELLS, CELLS), found);
    }
}

#[test]
fn refusal_17() {
    let o = open(1985, &plain(200, 1, 0), 5, 2, 9, 9 * CELLS, 2 * CELLS).unwrap();
    let mut ledger = Ledger::default();
    for (ms, found) in [(4_999, Err(17)), (5_000, Ok(())), (6_999, Ok(())), (7_000, Err(17))] {
        assert_eq!(ledger.put(&o, 1985, &plain(200, 1, ms), 9 * CELLS, 2 * CELLS), found);
    }
    for (second, found) in [(4, 17), (5, 0), (6, 0), (7, 17), (u64::MAX, 17)] {
        assert_eq!(ledger.ask(&o, second, 9 * CELLS, 2 * CELLS).err().unwrap_or(0), found);
        assert_eq!(ledger.means(&o, second, 9 * CELLS, 2 * CELLS).err().unwrap_or(0), found);
    }
    assert_eq!(ledger.ask(&o, 6, 9 * CELLS, 2 * CELLS).unwrap().records, 1);
    assert_eq!(ledger.ask(&o, 5, 9 * CELLS, 2 * CELLS).unwrap(), SecondTotals::default());
}

#[test]
fn refusal_18() {
    for rate in EDITION_1985.rates {
        let full = rate.records_a_second;
        let (rows, seconds) = (CELLS * 99, CELLS * 9);
        let o = open(1985, &plain(rate.hz, 1, 0), 0, 9, 99, rows, seconds).unwrap();
        let mut ledger = Ledger::default();
        for number in 1..=full {
            assert_eq!(ledger.put(&o, 1985, &plain(rate.hz, number, 1_000), rows, seconds), Ok(()));
        }
        let next = plain(rate.hz, full + 1, 1_999);
        assert_eq!(ledger.put(&o, 1985, &next, rows, seconds), Err(18));
        // The record itself does not count; a record that moves away frees its room; so does one taken out.
        assert_eq!(ledger.put(&o, 1985, &plain(rate.hz, full, 1_500), rows, seconds), Ok(()));
        assert_eq!(ledger.put(&o, 1985, &next, rows, seconds), Err(18));
        assert_eq!(ledger.put(&o, 1985, &plain(rate.hz, 1, 2_000), rows, seconds), Ok(()));
        assert_eq!(ledger.put(&o, 1985, &next, rows, seconds), Ok(()));
        assert_eq!(ledger.put(&o, 1985, &plain(rate.hz, 1, 1_000), rows, seconds), Err(18));
        assert_eq!(ledger.ask(&o, 2, rows, seconds).unwrap().records, 1);
        assert_eq!(ledger.take_out(&o, 2, rows, seconds), Ok(()));
        assert_eq!(ledger.put(&o, 1985, &plain(rate.hz, 1, 1_000), rows, seconds), Ok(()));
        assert_eq!(ledger.ask(&o, 1, rows, seconds).unwrap().records, full);
        assert_eq!(ledger.ask(&o, 2, rows, seconds).unwrap(), SecondTotals::default());
        assert_eq!(ledger.book_test(&o, rows, seconds), Ok(true));
    }
}

#[test]
fn refusal_19() {
    let o = open(1985, &case(), 43_200, 1, 2, 2 * CELLS, CELLS).unwrap();
    let mut ledger = Ledger::default();
    assert_eq!(ledger.take_out(&o, 1, 2 * CELLS, CELLS), Err(19));
    ledger.put(&o, 1985, &case(), 2 * CELLS, CELLS).unwrap();
    assert_eq!(ledger.take_out(&o, 2, 2 * CELLS, CELLS), Err(19));
    assert_eq!(ledger.take_out(&o, 1, 2 * CELLS, CELLS), Ok(()));
    assert_eq!(ledger.take_out(&o, 1, 2 * CELLS, CELLS), Err(19));
}

#[test]
fn kept_and_totals_of_a_second() {
    let o = open(1985, &plain(200, 1, 0), 0, 2, 9, 9 * CELLS, 2 * CELLS).unwrap();
    let flagged = |number, flags: u8, sample: u8| {
        let mut r = plain(200, number, 0);
        r[0] |= flags;
        set_word(&mut r, 38, 0xA55A);
        r[80..480].fill(sample);
        r
    };
    let mut ledger = Ledger::default();
    let mut put = |number, flags, sample| {
        ledger.put(&o, 1985, &flagged(number, flags, sample), 9 * CELLS, 2 * CELLS).unwrap();
        ledger.ask(&o, 0, 9 * CELLS, 2 * CELLS).unwrap()
    };
    let one = |sum, squares, least, greatest| [Total { sum, squares, least, greatest, clipped: 0 }; 4];
    let a = put(1, 0x80, 100);
    assert_eq!(a, SecondTotals { records: 1, origins: 1, channels: one(10_000, 1_000_000, 100, 100), ..Default::default() });
    let b = put(2, 0x00, 0xFD);
    assert_eq!((b.records, b.origins, b.errors, b.kept), (2, 1, 0, true));
    assert_eq!(b.channels, one(9_700, 1_000_900, -3, 100));
    assert!(put(2, 0x80, 0).kept);
    let c = put(2, 0x20, 0);
    assert_eq!((c.records, c.origins, c.errors, c.kept), (2, 1, 1, false));
    assert!(put(2, 0x40, 0).kept);
    let d = put(1, 0x00, 4);
    assert_eq!((d.records, d.origins, d.errors, d.kept), (2, 0, 0, false));
    assert_eq!(d.channels, one(400, 1_600, 0, 4));
}

#[test]
fn clipped_samples() {
    assert_eq!(total(&[-128, -127, -126, -1, 0, 1, 125, 126, 127]).clipped, 2);
    assert_eq!([&[-128i8][..], &[127], &[-127], &[126], &[]].map(|samples| total(samples).clipped), [1, 1, 0, 0, 0]);
    // Each channel has its own count: of 100 samples one, none though all are beside the ends, two, and all.
    let made = |number, tag_ms| {
        let mut r = plain(200, number, tag_ms);
        for k in 0..100 {
            let set = [if k == 7 { 0x7F } else { 0x7E }, 0x81, if k < 2 { 0x80 } else { 0 }, [0x7F, 0x80][k % 2]];
            r[80 + 4 * k..][..4].copy_from_slice(&set);
        }
        r
    };
    let counts = |channels: [Total; 4]| channels.map(|total| total.clipped);
    assert_eq!(counts(totals(1985, &made(1, 0)).unwrap()), [1, 0, 2, 100]);
    let (rows, seconds) = (3 * CELLS, 2 * CELLS);
    let o = open(1985, &plain(200, 1, 0), 0, 2, 3, rows, seconds).unwrap();
    let mut ledger = Ledger::default();
    let mut put = |r: Vec<u8>| {
        ledger.put(&o, 1985, &r, rows, seconds).unwrap();
        [0, 1].map(|second| counts(ledger.ask(&o, second, rows, seconds).unwrap().channels))
    };
    // The counts of a second's records add up; a record that moves takes its own along, and one that is replaced loses them.
    assert_eq!(put(made(1, 0)), [[1, 0, 2, 100], [0; 4]]);
    assert_eq!(put(made(2, 0)), [[2, 0, 4, 200], [0; 4]]);
    assert_eq!(put(made(2, 1_000)), [[1, 0, 2, 100], [1, 0, 2, 100]]);
    assert_eq!(put(plain(200, 1, 0)), [[0; 4], [1, 0, 2, 100]]);
    ledger.take_out(&o, 2, rows, seconds).unwrap();
    assert_eq!(counts(ledger.ask(&o, 1, rows, seconds).unwrap().channels), [0; 4]);
}

#[test]
fn means_of_a_second() {
    let both = |mean, mean_square| Ok([Means { mean, mean_square }; 4]);
    for rate in EDITION_1985.rates {
        let (rows, seconds) = (9 * CELLS, 2 * CELLS);
        let o = open(1985, &plain(rate.hz, 1, 0), 0, 2, 9, rows, seconds).unwrap();
        let mut ledger = Ledger::default();
        assert_eq!(ledger.means(&o, 1, rows, seconds), both(0.0, 0.0));
        // Over the samples held: of one record, of two, of one again where the other moved away, of a replaced one.
        for (number, ms, sample, found) in [
            (1, 1_000, 3, both(3.0, 9.0)),
            (2, 1_999, 0xFC, both(-0.5, 12.5)),
            (2, 999, 0xFC, both(3.0, 9.0)),
            (1, 1_500, 0x80, both(-128.0, 16_384.0)),
        ] {
            let mut r = plain(rate.hz, number, ms);
            r[80..2 * rate.n as usize].fill(sample);
            ledger.put(&o, 1985, &r, rows, seconds).unwrap();
            assert_eq!(ledger.means(&o, 1, rows, seconds), found);
        }
        assert_eq!(ledger.means(&o, 0, rows, seconds), both(-4.0, 16.0));
        // 13 before 14 before 17.
        assert_eq!(ledger.means(&Opening { tape: 0, ..o.clone() }, 2, rows, seconds - 1), Err(13));
        assert_eq!(ledger.means(&o, 2, rows, seconds - 1), Err(14));
        assert_eq!(ledger.means(&o, 2, rows, seconds), Err(17));
    }
}

#[test]
fn refusals_20_and_23() {
    for (at, (number, first, last)) in SEGMENTS.into_iter().enumerate() {
        for status in 0..=255u8 {
            let mut this = plain(200, 1, 0);
            let mut earlier = plain(5_000, 1, 0);
            for (r, n, mark) in [(&mut this, 240, 0x40), (&mut earlier, 2040, 0xB0)] {
                for w in 1..=150 {
                    set_word(r, n + w, (w as u64) << 8 | mark);
                }
            }
            this[480..482].copy_from_slice(&[status, 0xFF]);
            let new = status & 0x80 >> at != 0;
            for old in [0x80 >> at, !(0x80 >> at)] {
                earlier[4080..4082].copy_from_slice(&[old, 0xFF]);
                let mark = if new { 0x40 } else { 0xB0 };
                let bytes: Vec<u8> = (first..=last).flat_map(|w| [w as u8, mark]).collect();
                let found = if new || old == 0x80 >> at { Ok(bytes) } else { Err(23) };
                assert_eq!(segment(1985, &this, &earlier, number), found);
            }
        }
    }
    let lengths = SEGMENTS.map(|(number, first, last)| (number, last + 1 - first));
    assert_eq!(lengths, [(7, 45), (5, 13), (2, 15), (6, 15), (10, 15), (4, 20), (8, 20)]);
    let (this, earlier) = (case(), case());
    for number in (0..300).chain([u64::MAX]) {
        let known = [7, 5, 2, 6, 10, 4, 8].contains(&number);
        assert_eq!(segment(1985, &this, &earlier, number), Err(if known { 23 } else { 20 }));
    }
    assert_eq!(segment(1985, &with(|r| r[1] = 0), &[], 0), Err(7));
    assert_eq!(segment(1985, &this, &[], 0), Err(1));
}

#[test]
fn refusal_21() {
    let text = line(&case()).unwrap();
    let mut short = vec![7; text.len() - 1];
    assert_eq!(put_line(&mut short, &case()), Err(21));
    assert!(short.iter().all(|&b| b == 7));
    assert_eq!(put_line(&mut [], &[0; 79]), Err(1));
    for more in 0..3 {
        let mut buffer = vec![7; text.len() + more];
        assert_eq!(put_line(&mut buffer, &case()), Ok(text.len()));
        assert_eq!(&buffer[..text.len()], text.as_bytes());
        assert!(buffer[text.len()..].iter().all(|&b| b == 7));
    }
    assert_eq!(put_text(&mut [], &[]), Ok(0));
    assert_eq!(put_text(&mut [], &[1]), Err(21));
    let mut buffer = [7; 4];
    assert_eq!(put_text_at(&mut buffer, 3, &[1, 2]), Err(21));
    assert_eq!(put_text_at(&mut buffer, usize::MAX, &[1, 2]), Err(21));
    assert_eq!((put_text_at(&mut buffer, 2, &[1, 2]), buffer), (Ok(4), [7, 7, 1, 2]));
}

#[test]
fn lines_of_extreme_numbers() {
    let most = "18446744073709551615";
    let line = format!("{most},-9223372036854775808,{most},18446744073709.551615,-92233720368547.75808\n");
    assert_eq!(columns_line(u64::MAX, i64::MIN, u64::MAX, u64::MAX, i64::MIN), line);
    assert_eq!(columns_line(0, i64::MAX, 0, 0, 0), "0,9223372036854775807,0,0.000000,0.00000\n");
    assert_eq!(columns_line(0, 0, 0, 1, -1), "0,0,0,0.000001,-0.00001\n");
    assert_eq!(columns_line(0, -1, 0, 1, 1), "0,-1,0,0.000001,0.00001\n");
    assert_eq!(refused_line(u64::MAX), format!("refused,{most}\n"));
}

fn own(h: &mut Header) -> &mut Own1985 {
    match &mut h.own {
        Own::In1985(own) => own,
        Own::In1992(_) => panic!("a header of 1992"),
    }
}

#[test]
fn refusal_22() {
    type Set = fn(&mut Header, u64);
    let fields: [(Set, u32); 29] = [
        (|h, v| h.session_start = v, 1),
        (|h, v| h.copy_error = v, 1),
        (|h, v| h.tape_number = v, 8),
        (|h, v| h.record_number = v, 16),
        (|h, v| h.prime_fea = v, 8),
        (|h, v| h.secondary_fea = v, 8),
        (|h, v| h.spacecraft = v, 8),
        (|h, v| h.spc = v, 8),
        (|h, v| h.predict[0] = v, 8),
        (|h, v| h.predict[1] = v, 8),
        (|h, v| h.predict[9] = v, 8),
        (|h, v| h.status = v, 8),
        (|h, v| own(h).filter = v, 4),
        (|h, v| h.update_tag_ms = v, 27),
        (|h, v| h.rate_power = v, 3),
        (|h, v| h.rate_sign = v, 1),
        (|h, v| h.phase_1 = v, 48),
        (|h, v| h.phase_2 = v, 48),
        (|h, v| h.selector_1 = v, 4),
        (|h, v| h.selector_2 = v, 4),
        (|h, v| h.selector_3 = v, 4),
        (|h, v| h.selector_4 = v, 4),
        (|h, v| h.counter_tag_ms = v, 27),
        (|h, v| (h.clock_origin, h.sync_word) = (0, v), 16),
        (|h, v| own(h).word_39 = v, 16),
        (|h, v| own(h).register_1 = v, 8),
        (|h, v| own(h).register_2 = v, 8),
        (|h, v| own(h).no_field[0] = v, 0),
        (|h, v| own(h).no_field[1] = v, 0),
    ];
    let header = read_header(1985, &case()).unwrap();
    for (set, width) in fields {
        let mut h = header.clone();
        set(&mut h, (1 << width) - 1);
        let mut r = case();
        assert_eq!(write_header(&mut r, &h), Ok(()));
        assert_eq!(read_header(1985, &r), Ok(h.clone()));
        for wide in [1 << width, u64::MAX] {
            set(&mut h, wide);
            let mut r = case();
            assert_eq!(write_header(&mut r, &h), Err(22));
            assert_eq!(r, case());
        }
    }
    // Values a refusal of 1 to 11 names come before 22; a bit above 1 is only too wide.
    let judged: [(Set, u64, u8); 23] = [
        (|h, v| h.length_words = v, 65_536 + 390, 2),
        (|h, v| h.length_words = v, u64::MAX, 2),
        (|h, v| h.conversion = v, 1, 3),
        (|h, v| h.conversion = v, 2, 22),
        (|h, v| h.compression = v, 17, 4),
        (|h, v| h.sample_rate_hz = v, 65_536 + 200, 5),
        (|h, v| h.sample_rate_hz = v, 1_000, 6),
        (|h, v| h.tape_number = v, 0, 7),
        (|h, v| h.record_number = v, 0, 7),
        (|h, v| h.year = v, 128, 8),
        (|h, v| h.day = v, 512 + 1, 8),
        (|h, v| h.time_tag_ms = v, 1 << 27, 9),
        (|h, v| h.readback_tag_ms = v, 86_400_000, 9),
        (|h, v| h.readback_uhz = v, 99_999_999_999_999, 0),
        (|h, v| h.readback_uhz = v, 100_000_000_000_000, 10),
        (|h, v| h.calculated_uhz = v, 99_999_999_999_999, 0),
        (|h, v| h.calculated_uhz = v, 100_000_000_000_000, 10),
        (|h, v| h.rate_digits = v, 99_999, 0),
        (|h, v| h.rate_digits = v, 100_000, 10),
        (|h, v| h.sync_word = v, 0x1_A55A, 11),
        (|h, v| h.clock_origin = v, 2, 22),
        (|h, v| (h.rate_digits, own(h).filter) = (v, v), 100_000, 10),
        (|h, v| (h.rate_digits, own(h).no_field[1]) = (v, v), 100_000, 10),
    ];
    for (set, value, found) in judged {
        let mut h = header.clone();
        set(&mut h, value);
        let mut r = case();
        assert_eq!(write_header(&mut r, &h).err().unwrap_or(0), found);
        assert!(found == 0 || r == case());
        assert!(found != 0 || read_header(1985, &r) == Ok(h));
    }
    // A buffer as long as the wide length says: 6.
    let mut h = header.clone();
    h.length_words = 65_536 + 390;
    assert_eq!(write_header(&mut vec![0; 2 * (65_536 + 390)], &h), Err(6));
    // What the buffer held is not judged.
    let mut r = vec![0xFF; 780];
    assert_eq!(write_header(&mut r, &header), Ok(()));
    assert_eq!(read_header(1985, &r), Ok(header));
}

#[test]
fn refusal_24() {
    // The longest input accepted, and one byte more, of records and of zeros.
    for last in [0, 0xFF] {
        let mut reel: Vec<u8> = (0..84).flat_map(|_| case()).collect();
        let records = listing(&reel);
        assert_eq!(records.iter().filter(|&&b| b == b'\n').count(), 85);
        reel.resize(65_536, last);
        assert_eq!(listing(&reel), [records, b"refused,1\n".to_vec()].concat());
        reel.push(last);
        assert_eq!(listing(&reel), format!("{HEADER_LINE}refused,24\n").as_bytes());
    }
}

// The reel.

#[test]
fn reel_steps() {
    let reel = [case(), plain(1_000, 2, 5)].concat();
    assert_eq!(step(1985, &reel, 0), Step::Record { bytes: 0..780, next: 780 });
    assert_eq!(step(1985, &reel, 780), Step::Record { bytes: 780..3160, next: 3160 });
    for place in [3160, 3161, usize::MAX] {
        assert_eq!(step(1985, &reel, place), Step::Finished);
    }
    assert_eq!(step(1985, &[], 0), Step::Finished);
    assert_eq!(step(1985, &reel, 3159), Step::Refused(1));
    assert_eq!(step(1985, &reel, 3160 - 79), Step::Refused(1));
    assert_eq!(step(1985, &reel[..780 + 79], 780), Step::Refused(1));
    assert_eq!(step(1985, &reel[..780 + 80], 780), Step::Refused(2));
    assert_eq!(step(1985, &reel[..3159], 780), Step::Refused(2));
    for (words, found) in [(0, 1), (39, 1), (40, 6), (389, 6), (391, 2), (65_535, 2)] {
        assert_eq!(step(1985, &with(|r| set_word(r, 3, words)), 0), Step::Refused(found));
    }
    // Word 3 decides, not what follows; an accepted length within a longer reel is a record.
    assert_eq!(step(1985, &with(|r| r.push(0)), 0), Step::Record { bytes: 0..780, next: 780 });
    assert_eq!(step(1985, &with(|r| r.push(0)), 780), Step::Refused(1));
    assert_eq!(word(&case(), 3), 390);
}
