//! Calls on records, reels and samples. FORMAT: "The record" to "The reel", and of "The index of seconds" the totals.

use crate::lent::{around, Lent};
use crate::run::{answer, day_word, named, Answer, Run};
use odr::field::*;
use odr::{FrequencyRateAnswer, PhasesAnswer, SampleRateAnswer, SegmentAnswer, StepAnswer, TimeAnswer, TotalsAnswer};
use odr::HEADER_VALUES;
use second::edition::{self, edition_of, Edition, EDITIONS, EDITION_1985};
use second::gen::{self, word, Rng};
use second::header::{Header, Own};
use second::monitor;
use second::record;
use second::reel::{step as second_step, Step};
use second::samples;

/// The edition that a call names: few times an unknown one.
pub fn any_edition(rng: &mut Rng) -> u64 {
    if rng.one_in(16) { gen::unknown_edition(rng) } else { rng.pick(&EDITIONS).number }
}

/// The edition of what a call gets: the one that it names, or any where that is unknown.
pub fn made_for(rng: &mut Rng, edition: u64) -> &'static Edition {
    edition_of(edition).unwrap_or(rng.pick(&EDITIONS))
}

/// Accepted records half of the time; else each refusal alone, several at once, damaged and cut records, garbage, records with as
/// many bytes behind them as sixteen bits of words do not count, and records of the other edition.
pub fn any_bytes(rng: &mut Rng, edition: &Edition) -> Vec<u8> {
    let mut r = gen::record(rng, edition);
    match rng.next() % 16 {
        0..=3 => {
            let number = 1 + rng.next() % 11;
            gen::breach(rng, edition, &mut r, number as u8);
        }
        4 => drop(gen::breaches(rng, edition, &mut r)),
        5 => gen::damage(rng, edition, &mut r),
        6 => r = gen::cut(rng, edition),
        7 => r = gen::garbage(rng),
        8 if rng.one_in(16) => r.resize(r.len() + 131_072, 0),
        8 if rng.one_in(2) => r = gen::foreign(rng, edition),
        _ => {}
    }
    r
}

/// The year and the day of a record, 0 where there are too few bytes.
pub fn date(record: &[u8]) -> (u64, u64) {
    if record.len() < 12 { (0, 0) } else { (word(record, 6) >> 9, word(record, 6) & 511) }
}

/// The words before the number that a record gets: of 0 and 8 that it is of day 366, of 3 that it is one of the other edition.
pub fn words(edition: u64, record: &[u8], number: u8) -> &'static str {
    let others = || edition_of(edition).is_ok_and(|edition| record::accept(gen::other(edition).number, record).is_ok());
    match number {
        0 | 8 => day_word(date(record)),
        3 if others() => "other's ",
        _ => "",
    }
}

/// The words before 25: whether the bytes are too few for a header of any edition, which would be 1.
fn few(bytes: &[u8]) -> &'static str {
    if bytes.len() < EDITION_1985.header_bytes() { "few bytes " } else { "" }
}

/// The outcome of a call that names an edition and gives a record this number.
pub fn outcome(edition: u64, record: &[u8], number: u8) -> String {
    named(edition, if number == 25 { few(record) } else { words(edition, record, number) }, number)
}

/// An edition to be named, and any bytes for it.
pub fn any_record(rng: &mut Rng) -> (u64, Lent<u8>) {
    let edition = any_edition(rng);
    let made = made_for(rng, edition);
    (edition, Lent::of(&any_bytes(rng, made)))
}

/// A call that reads any bytes as a record of an edition; gives the edition and what the second program tells of an accepted one.
fn read<T, A: Answer>(
    run: &mut Run,
    call: &str,
    second: impl Fn(u64, &[u8]) -> Result<T, u8>,
    given: impl Fn(&T) -> A,
    library: impl Fn(u64, &[u8]) -> A,
) -> Option<(u64, T)> {
    let (edition, mut record) = any_record(&mut run.rng);
    let told = second(edition, record.body());
    let expected = answer(&told, given);
    let actual = library(edition, record.body());
    let outcome = outcome(edition, record.body(), expected.number());
    run.compare(call, &outcome, actual, expected, &[("record", record.difference())]);
    Some((edition, told.ok()?))
}

pub fn refusal(run: &mut Run) {
    read(run, "odr_refusal", record::accept, |_| 0, odr::refusal);
}

/// The rates of both editions, numbers beside them and beside those with the same low bits, and any number.
pub fn sample_rate(run: &mut Run) {
    let rng = &mut run.rng;
    let edition = any_edition(rng);
    let (rate, any) = (gen::any_rate(rng).hz, rng.next());
    let near = rng.pick(&[rate - 1, rate + 1, 2 * rate, rate + (1 << 16), rate + (1 << 32)]);
    let hz = rng.pick(&[rate, rate, rate, near, near, any >> (any % 64), 0, u64::MAX]);
    let expected = answer(&edition::sample_rate(edition, hz), |rate| SampleRateAnswer {
        refusal: 0,
        samples: rate.samples,
        records: rate.records_a_second,
        interval_us: rate.interval_us,
    });
    let words = match expected.refusal {
        0 => format!("{hz} "),
        5 if EDITIONS.iter().any(|edition| edition.rate(hz).is_ok()) => "other's ".to_string(),
        _ => String::new(),
    };
    let outcome = named(edition, &words, expected.refusal);
    run.compare("odr_sample_rate", &outcome, odr::sample_rate(edition, hz), expected, &[]);
}

pub fn frequency_rate(run: &mut Run) {
    let given = |&units: &i64| FrequencyRateAnswer { refusal: 0, units };
    read(run, "odr_frequency_rate", record::frequency_rate, given, odr::frequency_rate);
}

pub fn phases(run: &mut Run) {
    let given = |&(first, second): &(f64, f64)| PhasesAnswer { refusal: 0, first, second };
    read(run, "odr_phases", samples::phases, given, odr::phases);
}

/// Counts what a record that was not refused met besides, by the time of its sample k.
pub fn met_time(run: &mut Run, call: &str, edition: u64, record: &[u8], k: u64) {
    let (Ok(header), Ok(time)) = (record::read_header(edition, record), samples::sample_time(edition, record, k)) else { return };
    run.met_besides(call, &format!("{edition} tag {} at {}", header.time_tag_ms, header.sample_rate_hz));
    if time < 0 {
        run.met_besides(call, &format!("{edition} below zero"));
    }
}

/// Samples of the record, the first three and the last more often, and such as it does not have.
pub fn sample_time(run: &mut Run) {
    let (edition, mut record) = any_record(&mut run.rng);
    let rng = &mut run.rng;
    let count = record::record_rate(edition, record.body()).unwrap_or(gen::any_rate(rng)).samples;
    let (last, any) = (count - 1, rng.within(0, count - 1));
    let beyond = rng.pick(&[count, count + 1, 1 << 32, u64::MAX]);
    let k = rng.pick(&[0, 1, 2, any, any, any, last, last, beyond, beyond]);
    let given = |&microseconds: &i64| TimeAnswer { refusal: 0, microseconds };
    let expected = answer(&samples::sample_time(edition, record.body(), k), given);
    let actual = odr::sample_time(edition, record.body(), k);
    let (call, outcome) = ("odr_sample_time", outcome(edition, record.body(), expected.refusal));
    run.compare(call, &outcome, actual, expected, &[("record", record.difference())]);
    if expected.refusal == 0 {
        met_time(run, call, edition, record.body(), k);
        run.met_besides(call, &format!("{edition} sample {k}"));
        if k == last {
            run.met_besides(call, &format!("{edition} last sample"));
        }
    }
}

/// The second program's total of a channel as the library gives it.
pub fn total(t: samples::Total) -> odr::Total {
    odr::Total { sum: t.sum, squares: t.squares, least: t.least, greatest: t.greatest, clipped: t.clipped }
}

/// Counts whether each channel, of so many samples, has none, some or only clipped ones.
pub fn met_clipped(run: &mut Run, call: &str, edition: u64, samples: u64, channels: &[samples::Total; 4]) {
    for (c, total) in channels.iter().enumerate() {
        let clipped = match u64::from(total.clipped) {
            0 => "none",
            all if all == samples => "only",
            _ => "some",
        };
        run.met_besides(call, &format!("{edition} {clipped} clipped in {}", c + 1));
    }
}

pub fn totals(run: &mut Run) {
    let call = "odr_totals";
    let counted = |edition, record: &[u8]| Ok((record::record_rate(edition, record)?.samples, samples::totals(edition, record)?));
    let given = |(_, channels): &(u64, [samples::Total; 4])| TotalsAnswer { refusal: 0, channels: channels.map(total) };
    if let Some((edition, (samples, channels))) = read(run, call, counted, given, odr::totals) {
        met_clipped(run, call, edition, samples, &channels);
    }
}

pub fn read_header(run: &mut Run) {
    let (edition, mut record) = any_record(&mut run.rng);
    let mut header = Lent::random(&mut run.rng, HEADER_VALUES);
    let expected = record::read_header(edition, record.body());
    let actual = odr::read_header(edition, record.body(), header.body_mut().try_into().expect("48 values"));
    let number = answer(&expected, |_| 0);
    let written = expected.map_or(vec![], |mut h| values(&mut h));
    let parts = [("record", record.difference()), ("header", header.check(&written))];
    run.compare("odr_read_header", &outcome(edition, record.body(), number), actual, number, &parts);
}

/// The places that have no field in 1985.
const NO_FIELD: [usize; 2] = [46, 47];

/// The second program's header by the library's names: each value at its place. Not the frequency offset, which is signed.
fn fields(h: &mut Header) -> Vec<(usize, &mut u64)> {
    let mut all = vec![
        (CLOCK_ORIGIN, &mut h.clock_origin), (SESSION_START, &mut h.session_start), (COPY_ERROR, &mut h.copy_error),
        (CONVERSION, &mut h.conversion), (COMPRESSION, &mut h.compression), (TAPE_NUMBER, &mut h.tape_number),
        (RECORD_NUMBER, &mut h.record_number), (LENGTH_WORDS, &mut h.length_words), (PRIME_FEA, &mut h.prime_fea),
        (SECONDARY_FEA, &mut h.secondary_fea), (SPACECRAFT, &mut h.spacecraft), (SPC, &mut h.spc), (YEAR, &mut h.year),
        (DAY, &mut h.day), (TIME_TAG_MS, &mut h.time_tag_ms), (STATUS, &mut h.status), (READBACK_UHZ, &mut h.readback_uhz),
        (READBACK_TAG_MS, &mut h.readback_tag_ms), (CALCULATED_UHZ, &mut h.calculated_uhz),
        (UPDATE_TAG_MS, &mut h.update_tag_ms), (FREQUENCY_RATE_DIGITS, &mut h.rate_digits),
        (FREQUENCY_RATE_POWER, &mut h.rate_power), (FREQUENCY_RATE_SIGN, &mut h.rate_sign), (PHASE_1, &mut h.phase_1),
        (PHASE_2, &mut h.phase_2), (SELECTOR_1, &mut h.selector_1), (SELECTOR_2, &mut h.selector_2),
        (SELECTOR_3, &mut h.selector_3), (SELECTOR_4, &mut h.selector_4), (COUNTER_TAG_MS, &mut h.counter_tag_ms),
        (SAMPLE_RATE_HZ, &mut h.sample_rate_hz), (SYNC_WORD, &mut h.sync_word),
    ];
    all.extend(h.predict.iter_mut().enumerate().map(|(i, byte)| (PREDICT_0 + i, byte)));
    match &mut h.own {
        Own::In1985(own) => {
            all.extend([
                (FILTER, &mut own.filter), (WORD_39, &mut own.word_39), (REGISTER_1, &mut own.register_1),
                (REGISTER_2, &mut own.register_2),
            ]);
            all.extend(NO_FIELD.into_iter().zip(&mut own.no_field));
        }
        Own::In1992(own) => all.extend([
            (RF_CONFIGURATION, &mut own.rf_configuration), (RF_CONFIGURATION_REPORTED, &mut own.rf_configuration_reported),
            (TIME_OFFSET_DAYS, &mut own.time_offset_days), (TIME_OFFSET_SIGN, &mut own.time_offset_sign),
            (TIME_OFFSET_SECONDS, &mut own.time_offset_seconds),
        ]),
    }
    all
}

/// The 48 values of a header.
fn values(h: &mut Header) -> Vec<u64> {
    let mut values = vec![0; HEADER_VALUES];
    fields(h).into_iter().for_each(|(place, value)| values[place] = *value);
    if let Own::In1992(own) = &h.own {
        values[FREQUENCY_OFFSET] = own.frequency_offset as u64;
    }
    values
}

/// The header that any 48 values are in an edition.
fn header_of(edition: u64, values: &[u64]) -> Result<Header, u8> {
    let mut h = Header::blank(edition)?;
    fields(&mut h).into_iter().for_each(|(place, value)| *value = values[place]);
    if let Own::In1992(own) = &mut h.own {
        own.frequency_offset = values[FREQUENCY_OFFSET] as i64;
    }
    Ok(h)
}

/// Fields, and values of them that 3 to 11 refuse when they are written, in one edition or in both; day 366 in most years, 11 where
/// the clock origin is 1.
const REFUSED: [(&[usize], &[u64]); 11] = [
    (&[CONVERSION], &[0, 1, 2]),
    (&[COMPRESSION], &[0, 2, 15, 16, 17]),
    (&[SAMPLE_RATE_HZ], &[0, 1, 199, 2001, 31_250, 65_535, 65_736]),
    (&[LENGTH_WORDS], &[40, 83, 282, 284, 333, 389, 391, 395, 1190, 2082, 2083, 2189, 2196, 65_819, 65_926]),
    (&[TAPE_NUMBER, RECORD_NUMBER], &[0]),
    (&[YEAR], &[100, 127, 128]),
    (&[DAY], &[0, 366, 367, 511, 513]),
    (&[TIME_TAG_MS, READBACK_TAG_MS], &[86_400_000, 1 << 27, u64::MAX]),
    (&[READBACK_UHZ, CALCULATED_UHZ], &[100_000_000_000_000, 1 << 56, u64::MAX]),
    (&[FREQUENCY_RATE_DIGITS], &[100_000, 1 << 20]),
    (&[SYNC_WORD], &[0, 0xA55B, 0x1_A55A]),
];

/// A number at an end of some width, or of any size.
fn wide(rng: &mut Rng) -> u64 {
    let any = rng.next() % 64;
    let width = rng.pick(&[1, 2, 3, 4, 7, 8, 9, 16, 17, 27, 48, any]);
    let power = 1 << width;
    let above = rng.next() >> (63 - width);
    rng.pick(&[power, power, power - 1, power + 1, above, u64::MAX])
}

/// The least and the greatest frequency offset.
const OFFSETS: [i64; 2] = [-(1 << 47), (1 << 47) - 1];

/// A frequency offset: at an end of its range, just beyond it, or at an end of another.
fn offset(rng: &mut Rng) -> i64 {
    let ([least, greatest], any) = (OFFSETS, rng.next() as i64 >> (16 + rng.next() % 48));
    rng.pick(&[least, greatest, least - 1, greatest + 1, any, -1, (1 << 48) - 1, 1 << 48, -(1 << 48), i64::MIN, i64::MAX])
}

/// Values of an accepted header, few times of one of the other edition; some of them refused or one of them wide or both.
fn header_values(rng: &mut Rng, edition: u64) -> Vec<u64> {
    let edition = made_for(rng, edition);
    let made = if rng.one_in(16) { gen::other(edition) } else { edition };
    let accepted = gen::record(rng, made);
    let mut values = record::read_header(made.number, &accepted).map_or(vec![0; HEADER_VALUES], |mut h| values(&mut h));
    let kind = rng.next() % 9;
    for _ in 0..if kind < 3 { rng.within(1, 3) } else { 0 } {
        let (places, refused) = rng.pick(&REFUSED);
        values[rng.pick(places)] = rng.pick(refused);
    }
    match kind {
        2..=5 => values[rng.next() as usize % HEADER_VALUES] = wide(rng),
        6 => values[FREQUENCY_OFFSET] = offset(rng) as u64,
        _ => {}
    }
    values
}

/// The words before the number that values get: of 0 and 22 which end of the frequency offset, or which value is no field.
fn value_words(edition: u64, values: &[u64], number: u8) -> &'static str {
    let (day, [least, greatest]) = (day_word((values[YEAR], values[DAY])), OFFSETS);
    match (edition, number, values[FREQUENCY_OFFSET] as i64) {
        (_, 0 | 8, _) if !day.is_empty() => day,
        (odr::EDITION_1985, 22, _) if values[NO_FIELD[0]] != 0 => "value 46 ",
        (odr::EDITION_1985, 22, _) if values[NO_FIELD[1]] != 0 => "value 47 ",
        (odr::EDITION_1992, 0, offset) if offset == least => "least ",
        (odr::EDITION_1992, 0, offset) if offset == greatest => "greatest ",
        (odr::EDITION_1992, 22, offset) if offset == least - 1 => "below ",
        (odr::EDITION_1992, 22, offset) if offset == greatest + 1 => "above ",
        _ => "",
    }
}

pub fn write_header(run: &mut Run) {
    let edition = any_edition(&mut run.rng);
    let mut values = Lent::of(&header_values(&mut run.rng, edition));
    let own = 2 * values.body()[LENGTH_WORDS].min(70_000) as usize;
    let lengths = [0, 79, 80, 81, 165, 166, 167, 566, 780, own / 2, own + 1, own + 2];
    let length = if run.rng.one_in(8) { run.rng.pick(&lengths) } else { own };
    let mut record = Lent::random(&mut run.rng, length);
    let mut bytes = record.body().to_vec();
    let expected = header_of(edition, values.body()).and_then(|header| record::write_header(&mut bytes, &header));
    let actual = odr::write_header(edition, record.body_mut(), values.body().try_into().expect("48 values"));
    let number = answer(&expected, |_| 0);
    let words = if number == 25 { few(&bytes) } else { value_words(edition, values.body(), number) };
    let outcome = named(edition, words, number);
    let parts = [("record", record.check(&bytes)), ("values", values.difference())];
    run.compare("odr_write_header", &outcome, actual, number, &parts);
}

/// Four channel buffers for the samples of a record, few of them short.
fn channels(rng: &mut Rng, edition: u64, record: &[u8]) -> [Lent<i8>; 4] {
    let count = record::record_rate(edition, record).map_or(100, |rate| rate.samples as usize);
    [(); 4].map(|_| {
        let length = if rng.one_in(8) { around(rng, count) } else { count + rng.pick(&[0, 0, 1, 7]) };
        Lent::random(rng, length)
    })
}

pub fn read_samples(run: &mut Run) {
    let (edition, mut record) = any_record(&mut run.rng);
    let mut channels = channels(&mut run.rng, edition, record.body());
    let mut after = channels.each_ref().map(|channel| channel.body().to_vec());
    let expected = samples::read_samples(edition, record.body(), after.each_mut().map(|channel| channel.as_mut_slice()));
    let actual = odr::read_samples(edition, record.body(), channels.each_mut().map(|channel| channel.body_mut()));
    let number = answer(&expected, |_| 0);
    let mut parts = vec![("record", record.difference())];
    parts.extend(channels.iter_mut().zip(&after).map(|(channel, after)| ("channel", channel.check(after))));
    run.compare("odr_read_samples", &outcome(edition, record.body(), number), actual, number, &parts);
}

pub fn write_samples(run: &mut Run) {
    let (edition, mut record) = any_record(&mut run.rng);
    let mut channels = channels(&mut run.rng, edition, record.body());
    let mut after = record.body().to_vec();
    let expected = samples::write_samples(edition, &mut after, channels.each_ref().map(|channel| channel.body()));
    let actual = odr::write_samples(edition, record.body_mut(), channels.each_ref().map(|channel| channel.body()));
    let number = answer(&expected, |_| 0);
    let mut parts = vec![("record", record.check(&after))];
    parts.extend(channels.iter_mut().map(|channel| ("channel", channel.difference())));
    run.compare("odr_write_samples", &outcome(edition, record.body(), number), actual, number, &parts);
}

pub fn segment(run: &mut Run) {
    let rng = &mut run.rng;
    let edition = any_edition(rng);
    let made = made_for(rng, edition);
    let mut this = Lent::of(&if rng.one_in(4) { any_bytes(rng, made) } else { gen::record(rng, made) });
    let mut earlier = Lent::of(&if rng.one_in(2) { any_bytes(rng, made) } else { gen::record(rng, made) });
    let (small, huge) = (rng.within(0, 12), rng.next());
    let known = rng.pick(&monitor::SEGMENTS).0;
    let number = rng.pick(&[known, known, known, known, small, 256 + known, known + (1 << 32), huge]);
    let given = |bytes: &Vec<u8>| {
        let mut given = SegmentAnswer { length: bytes.len(), ..Default::default() };
        given.bytes[..bytes.len()].copy_from_slice(bytes);
        given
    };
    let expected = answer(&monitor::segment(edition, this.body(), earlier.body(), number), given);
    let actual = odr::segment(edition, this.body(), earlier.body(), number);
    // Which of the two records decided: this one alone gives its own refusal, and its own bytes. Of 26, whether 1985 has a segment
    // of that number.
    let words = match (expected.refusal, monitor::segment(edition, this.body(), this.body(), number)) {
        (20 | 23 | 25, _) => "",
        (26, _) => if monitor::SEGMENTS.iter().any(|segment| segment.0 == number) { "segment " } else { "no segment " },
        (refusal, alone) if refusal == answer(&alone, |_| 0) => "this ",
        _ => "earlier ",
    };
    let outcome = named(edition, words, expected.refusal);
    let parts = [("this", this.difference()), ("earlier", earlier.difference())];
    run.compare("odr_segment", &outcome, actual, expected, &parts);
}

/// A reel: good, cut, damaged, or one record's bytes of any kind; few times of the other edition.
pub fn any_reel(rng: &mut Rng, edition: &Edition) -> Vec<u8> {
    let count = rng.within(0, 4) as usize;
    let edition = if rng.one_in(16) { gen::other(edition) } else { edition };
    match rng.next() % 8 {
        0..=1 => gen::reel(rng, edition, count),
        2 => gen::cut_reel(rng, edition, count),
        3..=5 => gen::damaged_reel(rng, edition, count),
        _ => any_bytes(rng, edition),
    }
}

/// The places of a reel's records, and behind them the one where a walk stops.
pub fn places(edition: u64, reel: &[u8]) -> Vec<usize> {
    let mut places = vec![0];
    while let Step::Record { next, .. } = second_step(edition, reel, places[places.len() - 1]) {
        places.push(next);
    }
    places
}

/// A reel, and a place that is mostly that of a record or the one where a walk stops.
fn reel_and_place(rng: &mut Rng, edition: &Edition) -> (Lent<u8>, usize) {
    let reel = any_reel(rng, edition);
    let places = places(edition.number, &reel);
    let stop = places[places.len() - 1];
    let (end, inside, known) = (reel.len(), rng.within(0, reel.len() as u64) as usize, rng.pick(&places));
    let odd = rng.pick(&[inside, end, end + 1, end.saturating_sub(1), usize::MAX, usize::MAX - inside]);
    (Lent::of(&reel), rng.pick(&[stop, stop, known, known, known, odd]))
}

/// The bytes that word 3 says a record has at a place of a reel, as many as there are.
pub fn record_at(reel: &[u8], place: usize) -> &[u8] {
    let left = reel.get(place..).unwrap_or_default();
    if left.len() < 6 { left } else { &left[..left.len().min(2 * word(left, 3) as usize)] }
}

pub fn step(run: &mut Run) {
    let edition = any_edition(&mut run.rng);
    let made = made_for(&mut run.rng, edition);
    let (mut reel, place) = reel_and_place(&mut run.rng, made);
    let (kind, expected) = match second_step(edition, reel.body(), place) {
        Step::Record { bytes, next } => ("record ", StepAnswer { answer: 0, start: bytes.start, end: next }),
        Step::Finished => ("finished ", StepAnswer { answer: odr::FINISHED, ..Default::default() }),
        Step::Refused(25) if place >= reel.body().len() => ("finished ", StepAnswer::refused(25)),
        Step::Refused(number) => ("", StepAnswer::refused(number)),
    };
    let actual = odr::step(edition, reel.body(), place);
    let words = words(edition, record_at(reel.body(), place), expected.answer);
    let outcome = named(edition, &format!("{kind}{words}"), expected.answer);
    run.compare("odr_step", &outcome, actual, expected, &[("reel", reel.difference())]);
}
