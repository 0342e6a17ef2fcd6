//! The index of seconds: openings and histories, each call compared with the second program's ledger, the consistency test with
//! what the cells give too. FORMAT: "The index of seconds" and "The ledger".

use crate::altered::Altered;
use crate::cells::{self, block};
use crate::lent::{around, Lent};
use crate::records::{any_record, date, met_clipped, met_time, outcome, total};
use crate::run::{answer, day_word, Answer, Part, Run, Said};
use odr::{ConsistencyAnswer, MeansAnswer, OpenAnswer, SecondAnswer, CELLS};
use second::book::{self, Ledger, Opening, SecondTotals};
use second::edition::{edition_of, Edition, Rate, EDITIONS};
use second::gen::{self, set_word, word, Rng};
use second::record::read_header;
use second::samples::Means;
use std::cmp::Ordering::{Equal, Greater, Less};

const DAY: u64 = 86_400;

/// Which cells were altered before a test: some of the rows and seconds given, or only cells beyond them.
const DAMAGED: &str = "damaged ";
const BEYOND: &str = "beyond ";

fn numbers(o: &Opening) -> [u64; 10] {
    [o.first_second, o.count, o.highest, o.edition, o.rate, o.tape, o.year, o.day, o.spacecraft, o.spc]
}

fn opening_of([first_second, count, highest, edition, rate, tape, year, day, spacecraft, spc]: [u64; 10]) -> Opening {
    Opening { first_second, count, highest, edition, rate, tape, year, day, spacecraft, spc }
}

/// An opening as the library takes and gives it.
fn passed(o: &Opening) -> odr::Opening {
    odr::Opening {
        first_second: o.first_second,
        second_count: o.count,
        highest_number: o.highest,
        edition: o.edition,
        sample_rate_hz: o.rate,
        tape_number: o.tape,
        year: o.year,
        day: o.day,
        spacecraft: o.spacecraft,
        spc: o.spc,
    }
}

/// Opens an index with buffers of these lengths: row cells and second cells.
fn open(run: &mut Run, edition: u64, pattern: Vec<u8>, limits: [u64; 3], lengths: [usize; 2]) -> Option<History> {
    let [first, count, highest] = limits;
    let opened = book::open(edition, &pattern, first, count, highest, lengths[0], lengths[1]);
    let expected = answer(&opened, |o| OpenAnswer { refusal: 0, opening: passed(o) });
    let [mut rows, mut seconds] = lengths.map(|length| Lent::random(&mut run.rng, length));
    let mut record = Lent::of(&pattern);
    let actual = odr::open(edition, record.body(), limits, rows.body_mut(), seconds.body_mut());
    let blocks = opened.as_ref().map_or([0, 0], |o| [o.highest, o.count]);
    let [no_rows, no_seconds] = blocks.map(|count| vec![0; block(count).start]);
    let parts = [("pattern", record.difference()), ("rows", rows.check(&no_rows)), ("seconds", seconds.check(&no_seconds))];
    run.compare("odr_open", &outcome(edition, &pattern, expected.refusal), actual, expected, &parts);
    let (edition, opened) = (edition_of(edition).ok()?, opened.ok()?);
    Some(History { edition, pattern, given: opened.clone(), opened, ledger: Ledger::default(), rows, seconds, altered: "" })
}

/// An opening of any kind, most of them refused.
pub fn open_any(run: &mut Run) {
    let rng = &mut run.rng;
    let (edition, pattern) = any_record(rng);
    let (small, second) = (rng.within(1, 5), rng.within(0, DAY - 1));
    let first = rng.pick(&[0, second, second, DAY - 1, DAY, u64::MAX]);
    let rest = DAY.saturating_sub(first);
    let count = rng.pick(&[small, small, small, 1, 0, rest, rest + 1, DAY, DAY + 1, u64::MAX]);
    let highest = rng.pick(&[small, small, small, 1, 0, 65_535, 65_536, u64::MAX]);
    let lengths = [highest, count].map(|blocks| around(rng, block(blocks.min(100)).start));
    open(run, edition, pattern.body().to_vec(), [first, count, highest], lengths);
}

/// A rate of an edition: half of the time the slowest, whose records are the shortest, else one of few records a second, or any.
fn any_rate(rng: &mut Rng, edition: &Edition) -> Rate {
    let few: Vec<Rate> = edition.rates.iter().copied().filter(|rate| rate.records_a_second <= 5).collect();
    match rng.next() % 16 {
        0 => rng.pick(edition.rates),
        1..=7 => rng.pick(&few),
        _ => edition.rates[edition.rates.len() - 1],
    }
}

/// A history: an opening whose seconds get full soon, a list of calls, and at the end a query of every second.
pub fn history(run: &mut Run) {
    let rng = &mut run.rng;
    let edition = rng.pick(&EDITIONS);
    let rate = any_rate(rng, edition);
    let full = rate.records_a_second;
    let few = if full == 2 { rng.within(1, 12) } else { full + rng.within(0, 6) };
    let (count, highest) = match rng.next() % 512 {
        0 => (DAY, few),
        1 => (rng.within(1, 3), 65_535),
        _ => (rng.within(1, 5), few),
    };
    let any = rng.within(0, DAY - count);
    let limits = [rng.pick(&[0, DAY - count, any, any]), count, highest];
    let lengths = [highest, count].map(|blocks| block(blocks).start + rng.pick(&[0, 0, 1, 25]));
    let pattern = gen::record_of(rng, edition, rate);
    if let Some(mut history) = open(run, edition.number, pattern, limits, lengths) {
        if run.rng.one_in(2) {
            history.fill(run, full);
        }
        for _ in 0..40 + 2 * full {
            history.step(run);
        }
        history.query_all(run);
    }
}

/// Gives a record, which stays accepted, another rate, year, day, tape, spacecraft or SPC. The fourth year on has as many days.
fn to_another_reel(rng: &mut Rng, edition: &Edition, r: &mut Vec<u8>) {
    let (year, day, bit) = (word(r, 6) >> 9, word(r, 6) & 511, 1 << (rng.next() % 8));
    match rng.next() % 6 {
        0 => r[1] = r[1] % 255 + 1,
        1 => r[8] ^= bit,
        2 => r[9] ^= bit,
        3 => set_word(r, 6, (year + 4) % 100 << 9 | day),
        4 => set_word(r, 6, year << 9 | day % 365 + 1),
        _ => {
            let rate = rng.pick(edition.rates);
            *r = gen::sibling_of(rng, edition, rate, r, word(r, 2), (word(r, 7) & 0x7FF) << 16 | word(r, 8));
        }
    }
}

#[derive(Clone)]
struct History {
    /// The edition of the index, and of its pattern.
    edition: &'static Edition,
    pattern: Vec<u8>,
    /// What opening returned, and what is given to the calls: the same, but in a forged call.
    opened: Opening,
    given: Opening,
    ledger: Ledger,
    rows: Lent<u32>,
    seconds: Lent<u32>,
    /// Which cells were altered since the last call, in the words of an outcome: none but in a test on altered cells.
    altered: &'static str,
}

impl History {
    /// One call, or one on forged openings, short buffers or altered cells, which leave this history as it is.
    fn step(&mut self, run: &mut Run) {
        match run.rng.next() % 32 {
            0..=5 => self.forged(&mut run.rng).call(run),
            6..=8 => self.altered(&mut run.rng).test_consistency(run),
            9 if run.rng.one_in(4) => self.query_all(run),
            _ => self.call(run),
        }
    }

    fn call(&mut self, run: &mut Run) {
        match run.rng.next() % 16 {
            0..=7 => {
                let (edition, record) = self.record(&mut run.rng);
                self.insert(run, edition, &record);
            }
            8..=10 => {
                let (held, any) = (self.number(&mut run.rng), run.rng.next());
                let number = run.rng.pick(&[held, held, held, held, held, held, held, held, 0, 65_536, 65_536 + held, any]);
                self.remove(run, number);
            }
            11..=14 => {
                let (near, any) = (self.second(&mut run.rng), run.rng.next());
                let second = run.rng.pick(&[near, near, near, near, near, DAY, near + (1 << 32), any]);
                if run.rng.one_in(3) { self.means(run, second) } else { self.query(run, second) }
            }
            _ => self.test_consistency(run),
        }
    }

    /// A record number: a held one, the lowest that is not held, any, or one above the highest.
    fn number(&self, rng: &mut Rng) -> u64 {
        let held: Vec<u64> = self.ledger.records.keys().map(|&number| u64::from(number)).collect();
        let any = rng.within(1, self.opened.highest);
        let known = if held.is_empty() { any } else { rng.pick(&held) };
        let fresh = (1..=self.opened.highest).find(|number| !held.contains(number)).unwrap_or(any);
        let above = (self.opened.highest + rng.within(1, 3)).min(65_535);
        if rng.one_in(16) { above } else { rng.pick(&[known, known, fresh, any]) }
    }

    /// A second: of the window, its first two most often, or beside the window.
    fn second(&self, rng: &mut Rng) -> u64 {
        let Opening { first_second: first, count, .. } = self.opened;
        let any = rng.within(first, first + count - 1);
        let early = first + rng.within(0, 1).min(count - 1);
        let beside = rng.pick(&[first.saturating_sub(1), (first + count).min(DAY - 1)]);
        if rng.one_in(12) { beside } else { rng.pick(&[early, early, any]) }
    }

    /// A record to be inserted and the edition to be named, most of them of the pattern's reel and edition. Where the record is of
    /// the other edition, that is all in which it differs, if the other edition has the rate.
    fn record(&self, rng: &mut Rng) -> (u64, Vec<u8>) {
        let (number, tag) = (self.number(rng), 1000 * self.second(rng) + rng.within(0, 999));
        let flags = [rng.one_in(2), rng.one_in(6)];
        let mut edition = self.edition;
        let mut record = gen::flagged(rng, edition, &self.pattern, number, tag, flags);
        if rng.one_in(12) {
            edition = gen::other(edition);
            let rate = edition.rate(self.opened.rate).unwrap_or(rng.pick(edition.rates));
            record = gen::sibling_of(rng, edition, rate, &self.pattern, number, tag);
        }
        if rng.one_in(12) {
            to_another_reel(rng, edition, &mut record);
        }
        if rng.one_in(8) {
            let refused = 1 + rng.next() % 11;
            gen::breach(rng, edition, &mut record, refused as u8);
        }
        let named = match rng.next() % 48 {
            0..=1 => gen::unknown_edition(rng),
            2 => gen::other(edition).number,
            _ => edition.number,
        };
        (named, record)
    }

    /// Inserts as many records into a second as it takes.
    fn fill(&mut self, run: &mut Run, full: u64) {
        let second = self.opened.first_second;
        for number in 1..=full.min(self.opened.highest) {
            let (tag, error) = (1000 * second + number, run.rng.one_in(100));
            let record = gen::flagged(&mut run.rng, self.edition, &self.pattern, number, tag, [number == 1, error]);
            self.insert(run, self.edition.number, &record);
        }
    }

    /// Queries every second of the window, or in a large one some.
    fn query_all(&mut self, run: &mut Run) {
        for k in 0..self.opened.count.min(8) {
            let second = if self.opened.count > 8 { self.second(&mut run.rng) } else { self.opened.first_second + k };
            self.query(run, second);
            self.means(run, second);
        }
        self.test_consistency(run);
    }

    /// The second of the record held under a number.
    fn second_of(&self, number: u64) -> Option<u64> {
        let record = self.ledger.records.get(&u16::try_from(number).ok()?)?;
        Some(read_header(self.edition.number, record).ok()?.time_tag_ms / 1000)
    }

    /// The lengths of the cells lent.
    fn lengths(&self) -> [usize; 2] {
        [self.rows.body().len(), self.seconds.body().len()]
    }

    /// What is said of an answer: it is the ledger's, but where it turns on cells and the opening given is not the one that
    /// opening returned. Then it is accepted, or refused by the number that turns on cells, if the call has one.
    fn said<T, A: Answer>(&self, expected: &Result<T, u8>, given: impl Fn(&T) -> A, turning: u8) -> Said<A> {
        let expected = answer(expected, given);
        let open = self.given != self.opened && [0, turning].contains(&expected.number());
        if open { Said::Open(turning) } else { Said::Is(expected) }
    }

    /// Of an answer that is left open: a refusal alters nothing, else the cells may be as they are.
    fn allow_if_accepted(&mut self, actual: u8) {
        if actual == 0 {
            let [rows, seconds] = self.lengths();
            self.rows.allow_change(0..rows);
            self.seconds.allow_change(0..seconds);
        }
    }

    /// The cells of the seconds that an accepted call leaves or joins may have changed.
    fn allow_seconds(&mut self, seconds: [Option<u64>; 2]) {
        for second in seconds.into_iter().flatten() {
            self.seconds.allow_change(block(second - self.opened.first_second));
        }
    }

    /// Inserts a record as one of the edition named.
    fn insert(&mut self, run: &mut Run, edition: u64, record: &[u8]) {
        let mut record = Lent::of(record);
        let header = read_header(edition, record.body());
        let (number, joined) = header.map_or((0, None), |h| (h.record_number, Some(h.time_tag_ms / 1000)));
        let left = self.second_of(number);
        let [rows, seconds] = self.lengths();
        let expected = self.ledger.put(&self.given, edition, record.body(), rows, seconds);
        let said = self.said(&expected, |_| 0, 18);
        let actual = odr::insert(passed(&self.given), edition, record.body(), self.rows.body_mut(), self.seconds.body_mut());
        let mixed = self.whose().is_empty() && edition == gen::other(self.edition).number;
        let mut kind = if mixed { "mixed " } else { "" };
        match said {
            Said::Open(_) => self.allow_if_accepted(actual),
            Said::Is(0) => {
                self.rows.allow_change(block(number - 1));
                self.allow_seconds([left, joined]);
                kind = if left.is_none() { "" } else if left == joined { "in place " } else { "moved " };
            }
            _ => {}
        }
        let date = if expected == Err(8) { date(record.body()) } else { self.held_date() };
        let held = matches!(said, Said::Is(0));
        self.compare(run, ("odr_insert", kind), date, actual, said, &[("record", record.difference())]);
        if held {
            met_time(run, "odr_insert", edition, record.body(), 0);
        }
    }

    fn remove(&mut self, run: &mut Run, number: u64) {
        let left = self.second_of(number);
        let [rows, seconds] = self.lengths();
        let expected = self.ledger.take_out(&self.given, number, rows, seconds);
        let said = self.said(&expected, |_| 0, 19);
        let actual = odr::remove(passed(&self.given), number, self.rows.body_mut(), self.seconds.body_mut());
        match said {
            Said::Open(_) => self.allow_if_accepted(actual),
            Said::Is(0) => {
                self.rows.expect(block(number - 1).start, &[0; CELLS]);
                self.allow_seconds([left, None]);
            }
            _ => {}
        }
        self.compare(run, ("odr_remove", ""), self.held_date(), actual, said, &[]);
    }

    /// The ledger's totals of a second.
    fn totals(&self, second: u64) -> Result<SecondTotals, u8> {
        let [rows, seconds] = self.lengths();
        self.ledger.ask(&self.given, second, rows, seconds)
    }

    fn query(&mut self, run: &mut Run, second: u64) {
        let expected = self.totals(second);
        let given = |t: &SecondTotals| SecondAnswer {
            refusal: 0,
            records: t.records as u32,
            origins: t.origins as u32,
            errors: t.errors as u32,
            channels: t.channels.map(total),
            kept: t.kept,
        };
        let said = self.said(&expected, given, 0);
        let kind = match said {
            Said::Is(SecondAnswer { refusal: 0, records: 0, .. }) => "empty ",
            Said::Is(SecondAnswer { kept: true, .. }) => "kept ",
            _ => "",
        };
        let actual = odr::query(passed(&self.given), second, self.rows.body(), self.seconds.body());
        let told = matches!(said, Said::Is(_));
        self.compare(run, ("odr_query", kind), self.held_date(), actual, said, &[]);
        if let (true, Ok(t), Ok(rate)) = (told, expected, self.edition.rate(self.opened.rate)) {
            if t.records > 0 {
                met_clipped(run, "odr_query", self.edition.number, t.records * rate.samples, &t.channels);
            }
        }
    }

    fn means(&mut self, run: &mut Run, second: u64) {
        let [rows, seconds] = self.lengths();
        let expected = self.ledger.means(&self.given, second, rows, seconds);
        let one = |m: Means| odr::Means { mean: m.mean, mean_square: m.mean_square };
        let said = self.said(&expected, |means| MeansAnswer { refusal: 0, channels: means.map(one) }, 0);
        let empty = self.given == self.opened && self.totals(second).is_ok_and(|t| t.records == 0);
        let actual = odr::second_means(passed(&self.given), second, self.rows.body(), self.seconds.body());
        let kind = if empty { "empty " } else { "" };
        self.compare(run, ("odr_second_means", kind), self.held_date(), actual, said, &[]);
    }

    /// Whether the records that the ledger has in the rows given are those that it has in the seconds given. Where the first second
    /// is another, there must be none: the cells of a second have their own second. The ledger tells nothing of rows and seconds
    /// beyond those opened, nor of altered cells.
    fn held_is_given(&self) -> Option<bool> {
        let Opening { first_second, count, highest, .. } = self.given;
        let moved = first_second != self.opened.first_second;
        let told = count <= self.opened.count && highest <= self.opened.highest && self.altered != DAMAGED;
        let among = |number| self.second_of(number).is_some_and(|second| second < self.opened.first_second + count);
        let mut held = self.ledger.records.keys().map(|&number| u64::from(number));
        told.then(|| held.all(|number| (number <= highest) == among(number) && !(moved && among(number))))
    }

    /// The consistency test, whose answer FORMAT states on any cells, so for a forged opening and on altered cells too: that of the
    /// cells themselves, which must be the ledger's where that tells one.
    fn test_consistency(&mut self, run: &mut Run) {
        let [rows, seconds] = self.lengths();
        let judged = self.ledger.book_test(&self.given, rows, seconds);
        let told = judged.map(|_| cells::is_consistent(&self.given, self.rows.body(), self.seconds.body()));
        let expected = answer(&told, |&consistent| ConsistencyAnswer { refusal: 0, consistent });
        let kind = told.map_or(String::new(), |yes| {
            format!("{}{}{}", self.limits_word(), self.altered, if yes { "yes " } else { "no " })
        });
        let by_ledger = judged.ok().and_then(|yes| Some(yes && self.held_is_given()?));
        let apart = by_ledger.is_some_and(|yes| told != Ok(yes)).then(|| "not as the ledger tells".to_string());
        let actual = odr::is_consistent(passed(&self.given), self.rows.body(), self.seconds.body());
        self.compare(run, ("odr_is_consistent", &kind), self.held_date(), actual, Said::Is(expected), &[("cells", apart)]);
    }

    /// The date that the opening given holds.
    fn held_date(&self) -> (u64, u64) {
        (self.given.year, self.given.day)
    }

    /// What a call is given that is not the history's own.
    fn whose(&self) -> &'static str {
        let needed = [self.opened.highest, self.opened.count].map(|blocks| block(blocks).start);
        let short = self.lengths().iter().zip(needed).any(|(&length, needed)| length < needed);
        if self.given != self.opened { "forged " } else if short { "short " } else { "" }
    }

    /// Which of F, C and R is forged.
    fn limits_word(&self) -> &'static str {
        let limits = |o: &Opening| [o.first_second, o.count, o.highest];
        let [given, opened] = [&self.given, &self.opened].map(limits);
        match [0, 1, 2].map(|i| given[i].cmp(&opened[i])) {
            [Equal, Equal, Equal] => "",
            [_, Equal, Equal] => "F ",
            [Equal, Less, Equal] => "smaller C ",
            [Equal, Greater, Equal] => "larger C ",
            [Equal, Equal, Less] => "smaller R ",
            [Equal, Equal, Greater] => "larger R ",
            _ => "limits ",
        }
    }

    /// What is forged, where that is what 13 or 15 turns on: the date, the edition, or a rate that only the other edition has.
    fn forged_word(&self, number: u8) -> &'static str {
        let Opening { edition, rate, year, day, .. } = self.given;
        let only_edition = self.given == Opening { edition, ..self.opened.clone() };
        let only_rate = self.given == Opening { rate, ..self.opened.clone() };
        match (number, edition_of(edition)) {
            (13, Err(_)) | (15, Ok(_)) if only_edition => "edition ",
            (13, Ok(held)) if (only_edition || only_rate) && gen::other(held).rate(rate).is_ok() => "rate ",
            (13, _) if (year, day) != (self.opened.year, self.opened.day) => day_word((year, day)),
            _ => "",
        }
    }

    /// Compares a call of some kind: its answer, every cell, and the parts of memory that only this call has. `date` is the one
    /// that the answer turns on, if on any.
    fn compare<A: Answer>(
        &mut self,
        run: &mut Run,
        (call, kind): (&str, &str),
        date: (u64, u64),
        actual: A,
        said: Said<A>,
        parts: &[Part],
    ) {
        let (edition, whose) = (self.edition.number, self.whose());
        let outcome = match said {
            Said::Is(expected) => {
                let number = expected.number();
                let word = match (whose, number) {
                    ("", 0 | 8) => day_word(date),
                    ("forged ", 13 | 15) => self.forged_word(number),
                    _ => "",
                };
                format!("{edition} {whose}{kind}{word}{number}")
            }
            Said::Open(_) => format!("{edition} {whose}left open"),
        };
        let cells = [("rows", self.rows.difference()), ("seconds", self.seconds.difference())];
        run.compare_as(call, &outcome, actual, said, &[&cells, parts].concat());
    }

    /// This history with an opening that has another number, fewer seconds or rows, day 366 of any year, another edition or a rate
    /// of either, or only zeros, or with buffers that are too short.
    fn forged(&self, rng: &mut Rng) -> History {
        let mut forged = self.clone();
        let mut numbers = numbers(&self.opened);
        let at = rng.next() as usize % numbers.len();
        let (own, bit, rate) = (numbers[at], 1 << (rng.next() % 64), gen::any_rate(rng).hz);
        match rng.next() % 16 {
            0..=1 => forged.rows.shorten(rng.within(0, block(self.opened.highest).start as u64 - 1) as usize),
            2..=3 => forged.seconds.shorten(rng.within(0, block(self.opened.count).start as u64 - 1) as usize),
            4 => numbers = [0; 10],
            5 => {
                let which = 1 + rng.next() as usize % 2;
                numbers[which] = rng.within(1, numbers[which]);
            }
            6 => {
                forged.given = Opening { year: rng.within(0, 99), day: 366, ..forged.given };
                return forged;
            }
            7 => {
                let edition = if rng.one_in(2) { gen::unknown_edition(rng) } else { gen::other(self.edition).number };
                forged.given = Opening { edition, ..forged.given };
                return forged;
            }
            8 => {
                forged.given = Opening { rate, ..forged.given };
                return forged;
            }
            _ => {
                let near = rng.pick(&[own.wrapping_sub(1), own + 1, own ^ bit, own + 256]);
                numbers[at] = rng.pick(&[near, near, 0, 100, 367, rate, 65_536, DAY, DAY + 1, u64::MAX]);
            }
        }
        forged.given = opening_of(numbers);
        forged
    }

    /// This history for a test: most often with another F, C or R, few times with another tape number, and most often with cells
    /// altered.
    fn altered(&self, rng: &mut Rng) -> History {
        let [rows, seconds] = [&self.rows, &self.seconds].map(|cells| cells.body().to_vec());
        let mut test = Altered { given: self.opened.clone(), rows, seconds };
        match rng.next() % 16 {
            0..=1 => {}
            2 => test.given.tape = test.given.tape % 255 + 1,
            _ => test.limits(rng),
        }
        let altered = rng.pick(&["", "", BEYOND, DAMAGED, DAMAGED, DAMAGED]);
        match altered {
            BEYOND => test.beyond(rng),
            DAMAGED => test.within(rng),
            _ => {}
        }
        let Altered { given, rows, seconds } = test;
        History { given, rows: Lent::of(&rows), seconds: Lent::of(&seconds), altered, ..self.clone() }
    }
}
