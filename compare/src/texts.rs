//! Calls that write text. FORMAT: "The listing", refusals 21 and 24.

use crate::lent::{around, Lent};
use crate::records::{any_bytes, any_reel, met_time, places, record_at, words};
use crate::run::{answer, Answer, Run};
use odr::{TextAnswer, LONGEST_LISTING};
use second::edition::EDITION_1985;
use second::gen::{self, Rng};
use second::lister::{self, put_text, LISTED, LONGEST_INPUT};

/// Compares a call that puts a text into a buffer: mostly of about the length that it needs, else of the longest listing's.
/// `outcome` names that of an answer's number. It gives whether the text was put.
fn put(
    run: &mut Run,
    (call, outcome): (&str, impl Fn(u8) -> String),
    input: &[u8],
    text: Result<String, u8>,
    library: fn(&[u8], &mut [u8]) -> TextAnswer,
) -> bool {
    let near = around(&mut run.rng, text.as_ref().map_or(60, String::len));
    let length = if run.rng.one_in(8) { LONGEST_LISTING } else { near };
    let mut input = Lent::of(input);
    let mut buffer = Lent::random(&mut run.rng, length);
    let mut after = buffer.body().to_vec();
    let expected = text.and_then(|text| put_text(&mut after, text.as_bytes()));
    let expected = answer(&expected, |&length| TextAnswer { refusal: 0, length });
    let actual = library(input.body(), buffer.body_mut());
    let parts = [("input", input.difference()), ("text", buffer.check(&after))];
    run.compare(call, &outcome(expected.number()), actual, expected, &parts);
    expected.number() == 0
}

pub fn record_line(run: &mut Run) {
    let record = any_bytes(&mut run.rng, &EDITION_1985);
    let outcome = |number| format!("{}{number}", words(LISTED, &record, number));
    if put(run, ("odr_record_line", outcome), &record, lister::line(&record), odr::record_line) {
        met_time(run, "odr_record_line", LISTED, &record, 0);
    }
}

/// A reel, few of them about as long as the lister takes, of any records or of the shortest.
fn any_input(rng: &mut Rng) -> Vec<u8> {
    let mut input = any_reel(rng, &EDITION_1985);
    if rng.one_in(64) {
        let length = rng.pick(&[LONGEST_INPUT - 1, LONGEST_INPUT, LONGEST_INPUT + 1, LONGEST_INPUT + 1000]);
        let (edition, slowest, shortest) = (&EDITION_1985, EDITION_1985.rates[6], rng.one_in(2));
        let least = slowest.lengths[0];
        while input.len() < length {
            input.extend(if shortest { gen::record_with(rng, edition, slowest, least) } else { gen::record(rng, edition) });
        }
        input.truncate(length);
    }
    input
}

pub fn list(run: &mut Run) {
    let input = any_input(&mut run.rng);
    let text = String::from_utf8_lossy(&lister::listing(&input)).into_owned();
    let refused = text.lines().last().and_then(|line| line.strip_prefix("refused,"));
    let others = if text.lines().nth(1) == Some("refused,3") { words(LISTED, record_at(&input, 0), 3) } else { "" };
    let listed = refused.map_or("0".to_string(), |number| format!("{others}line {number}"));
    let outcome = |number: u8| if number == 0 { listed.clone() } else { number.to_string() };
    let lines = text.lines().count() - 1 - usize::from(refused.is_some());
    if put(run, ("odr_list", outcome), &input, Ok(text), odr::list) {
        for place in places(LISTED, &input).into_iter().take(lines) {
            met_time(run, "odr_list", LISTED, record_at(&input, place), 0);
        }
    }
}
