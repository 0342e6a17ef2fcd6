//! A run of the differential tests: its cases, how often each outcome of each call was met, and the first difference, which ends
//! it. FORMAT, "Refusal numbers".

use second::edition::{Edition, EDITIONS, EDITION_1985};
use second::gen::Rng;
use std::fmt::Debug;

/// Each call with every outcome that must be met: the numbers that c/odr.h names, 0 for no refusal. First those that must be met
/// in each edition, the one that the call names, or of an index the one that it was opened with; then those besides. Kinds of one
/// number are told apart by words:
/// - `other's`: a record that the other edition accepts, or a rate that it has;
/// - `few bytes`: too few for a header of any edition, `finished`: at the end of a reel or past it;
/// - `value`, `least`, `greatest`, `below`, `above`: a value that is no field in 1985, the frequency offset at and past its ends;
/// - `segment`, `no segment`: whether 1985 has a segment of that number;
/// - `mixed`: an insert that names the other edition than the index has;
/// - `forged`: an opening that odr_open did not return, and behind it `edition`, only the edition is forged (for 13 to an unknown
///   one), or `rate`, the rate that is held is only of the other edition;
/// - `F`, `larger R` and so on, `limits`: of a consistency test, which of F, C and R is forged, or that several are;
/// - `beyond`, `damaged`: only cells beyond the R and C given were altered, or cells of those rows and seconds;
/// - `short`: a buffer of too few cells or bytes;
/// - `exported`, `imported`: of what the library itself exported or imported, which must be undone;
/// - `one past`, `far past`: a block's index that is the number of blocks, or larger;
/// - of an import, `changed` and so on: what was done to the blocks of an accepted record (compare/src/altered_blocks.rs), after
///   which all checks are right but before 27; `65536 blocks`, `65537 blocks`: as many, of which the first have right indices;
/// - of an import, `bad check` and `no block`: why it would be 27 or 28;
/// - of the first block with a bad check, `part`: a part block behind whole ones, `no block`: no whole one;
/// - `left open`: an answer of which FORMAT says no more than what `Said::Open` has.
///
/// A number with a star must be met on day 366 too. `{a|b}` stands for each of a and b, HZ for each rate of the edition, in the
/// second list for those of 1985. What follows is counted besides the number 0:
/// - `sample`, `last sample`, `block`, `last block`: the one asked for;
/// - `tag`: the time tag and the rate of the record;
/// - `below zero`: a time on the day before, of an insert that of sample 0;
/// - `none`, `some`, `only clipped`: how many samples of a channel, 1 to 4, of a record or of a second that is not empty.
const CALLS: [(&str, &str, &str); 24] = [
    ("odr_refusal", "0*,1-7,8*,9-11,other's 3", "25,few bytes 25"),
    ("odr_read_header", "0*,1-7,8*,9-11,other's 3", "25,few bytes 25"),
    (
        "odr_write_header",
        "0*,1-7,8*,9-11,22",
        "25,few bytes 25,1985 value 46 22,1985 value 47 22,1992 least 0,1992 greatest 0,1992 below 22,1992 above 22",
    ),
    ("odr_frequency_rate", "0*,1-7,8*,9-11,other's 3", "25,few bytes 25"),
    ("odr_sample_rate", "HZ 0,5", "25,1985 other's 5"),
    ("odr_read_samples", "0*,1-7,8*,9-12,other's 3", "25,few bytes 25"),
    ("odr_write_samples", "0*,1-7,8*,9-12,other's 3", "25,few bytes 25"),
    (
        "odr_sample_time",
        "0*,1-7,8*,9-12,other's 3,sample 0-2,last sample,tag 0 at HZ,tag 1 at HZ,tag 86399999 at HZ,below zero",
        "25,few bytes 25",
    ),
    ("odr_phases", "0*,1-7,8*,9-11,other's 3", "25,few bytes 25"),
    (
        "odr_totals",
        "0*,1-7,8*,9-11,other's 3,none clipped in 1-4,some clipped in 1-4,only clipped in 1-4",
        "25,few bytes 25",
    ),
    ("odr_segment", "this 1-11,earlier 1-11", "25,1985 this 0,1985 earlier 0,1985 20,1985 23,1992 segment 26,1992 no segment 26"),
    ("odr_step", "record 0*,finished 255,1-7,8*,9-11,other's 3", "25,finished 25"),
    ("odr_export", "0*,1-7,8*,9-11,21,other's 3,short 1-11,imported 0", "25,few bytes 25,short 25"),
    (
        "odr_export_block",
        "0*,1-7,8*,9-11,21,one past 28,far past 28,other's 3,short 1-11,short 28,block 0-8,last block",
        "25,few bytes 25,short 25",
    ),
    (
        "odr_import",
        "0*,1-7,8*,9-11,21,27,28,other's 3,short 1-11,short 27,short 28,exported 0,\
         {changed|exchanged|check above|two bad|bad and part|bad and wrong} 27,\
         {first number|later number|all numbers|word 2|first index|later index|not full|above full} 28,\
         {last empty|last above full|last shorter|padding|dropped|doubled|swapped|part|cut|no block|zeros|below 4} 28,\
         4 bytes 1,{last longer|last dropped|zeros shorter} 2,small check 0",
        "25,bad check 25,no block 25,1985 65536 blocks 2,1985 65537 blocks 27,1985 65537 blocks 28",
    ),
    ("odr_bad_block", "", "none,part none,no block none,found 0-8,found later,part found"),
    ("odr_open", "0*,1-7,8*,9-11,13-14,other's 3", "25,few bytes 25"),
    (
        "odr_insert",
        "0*,in place 0*,moved 0*,1-7,8*,9-11,15-18,25,mixed 1-7,mixed 8*,mixed 9-11,mixed 15,short 1-11,short 14,short 25,\
         forged 1-11,forged 13*,forged edition 13,forged rate 13,forged 14-15,forged edition 15,forged 16-17,forged 25,\
         forged left open,below zero",
        "",
    ),
    (
        "odr_remove",
        "0*,16,19,short 14,forged 13*,forged edition 13,forged rate 13,forged 14,forged 16,forged left open",
        "",
    ),
    (
        "odr_query",
        "0*,empty 0*,kept 0*,17,short 14,forged 13*,forged edition 13,forged rate 13,forged 14,forged 17,forged left open,\
         none clipped in 1-4,some clipped in 1-4,only clipped in 1-4",
        "",
    ),
    (
        "odr_second_means",
        "0*,empty 0*,17,short 14,forged 13*,forged edition 13,forged rate 13,forged 14,forged 17,forged left open",
        "",
    ),
    (
        "odr_is_consistent",
        "yes 0*,beyond yes 0*,damaged {yes|no} 0*,short 14,forged yes 0,forged beyond yes 0,forged damaged {yes|no} 0,\
         forged {F|larger R|smaller R|larger C|smaller C|limits} {|beyond |damaged }{yes|no} 0,\
         forged 13*,forged edition 13,forged rate 13,forged 14",
        "",
    ),
    (
        "odr_record_line",
        "",
        "0*,1-7,8*,9-11,other's 3,21,1985 tag 0 at HZ,1985 tag 1 at HZ,1985 tag 86399999 at HZ,1985 below zero",
    ),
    (
        "odr_list",
        "",
        "0,line 1-11,other's line 3,line 24,21,1985 tag 0 at HZ,1985 tag 1 at HZ,1985 tag 86399999 at HZ,1985 below zero",
    ),
];

const DAY_366: &str = "day 366 ";

/// The word before the number of an outcome that turns on a date, year and day: 0 or a refusal.
pub fn day_word((year, day): (u64, u64)) -> &'static str {
    if day == 366 && year <= 99 { DAY_366 } else { "" }
}

/// The outcome of a call that names an edition: of this number, and in words before it.
pub fn named(edition: u64, words: &str, number: u8) -> String {
    if number == 25 { format!("{words}{number}") } else { format!("{edition} {words}{number}") }
}

/// The outcomes of a call: those of its first list in each edition, and those of its second.
fn all_outcomes(each: &str, besides: &str) -> Vec<String> {
    let of = |edition: &Edition| -> Vec<String> {
        outcomes(edition, each).iter().map(|outcome| format!("{} {outcome}", edition.number)).collect()
    };
    [EDITIONS.map(of).concat(), outcomes(&EDITION_1985, besides)].concat()
}

/// An item with each choice of its first `{a|b}`, and of those behind it.
fn choices(item: &str) -> Vec<String> {
    let Some((before, rest)) = item.split_once('{') else { return vec![item.to_string()] };
    let (all, after) = rest.split_once('}').expect("an end of the choices");
    all.split('|').flat_map(|choice| choices(&format!("{before}{choice}{after}"))).collect()
}

/// The outcomes of such a list: a range stands for each of its numbers, HZ for each rate of the edition.
fn outcomes(edition: &Edition, list: &str) -> Vec<String> {
    let each = |item: String| {
        let (words, last) = item.split_at(item.rfind(' ').map_or(0, |at| at + 1));
        let ends = last.split_once('-').and_then(|(low, high)| Some((low.parse().ok()?, high.parse().ok()?)));
        match (ends, last.strip_suffix('*')) {
            (Some((low, high)), _) => (low..=high).map(|number: u8| format!("{words}{number}")).collect(),
            (_, Some(number)) => vec![format!("{words}{number}"), format!("{words}{DAY_366}{number}")],
            _ if item.contains("HZ") => edition.rates.iter().map(|rate| item.replace("HZ", &rate.hz.to_string())).collect(),
            _ => vec![item],
        }
    };
    list.split(',').filter(|item| !item.is_empty()).flat_map(choices).flat_map(each).collect()
}

/// An answer of the library. Beside a refusal's number every other member is 0.
pub trait Answer: Copy + Debug + PartialEq {
    fn refused(number: u8) -> Self;
    fn number(&self) -> u8;

    /// Equal, and floats bit by bit, so that -0 is not 0.
    fn same(self, other: Self) -> bool {
        self == other
    }
}

impl Answer for u8 {
    fn refused(number: u8) -> Self {
        number
    }

    fn number(&self) -> u8 {
        *self
    }
}

/// It has no refusals.
impl Answer for odr::BadBlockAnswer {
    fn refused(_: u8) -> Self {
        Self::default()
    }

    fn number(&self) -> u8 {
        0
    }
}

fn bits(floats: [f64; 2]) -> [u64; 2] {
    floats.map(f64::to_bits)
}

macro_rules! answers {
    ($($name:ident $number:ident $({ $same:item })?)*) => {$(
        impl Answer for odr::$name {
            fn refused($number: u8) -> Self {
                Self { $number, ..Default::default() }
            }

            fn number(&self) -> u8 {
                self.$number
            }

            $($same)?
        }
    )*};
}
answers! {
    FrequencyRateAnswer refusal SampleRateAnswer refusal TimeAnswer refusal TotalsAnswer refusal SegmentAnswer refusal
    StepAnswer answer LengthAnswer refusal OpenAnswer refusal SecondAnswer refusal ConsistencyAnswer refusal TextAnswer refusal
    PhasesAnswer refusal {
        fn same(self, other: Self) -> bool {
            self.refusal == other.refusal && bits([self.first, self.second]) == bits([other.first, other.second])
        }
    }
    MeansAnswer refusal {
        fn same(self, other: Self) -> bool {
            let floats = |answer: Self| answer.channels.map(|means| bits([means.mean, means.mean_square]));
            self.refusal == other.refusal && floats(self) == floats(other)
        }
    }
}

/// The answer that the library has to give where the second program gives this.
pub fn answer<T, A: Answer>(expected: &Result<T, u8>, given: impl FnOnce(&T) -> A) -> A {
    expected.as_ref().map_or_else(|&number| A::refused(number), given)
}

/// What FORMAT says of an answer.
pub enum Said<A> {
    Is(A),
    /// It turns on cells of which FORMAT says nothing: accepted, or refused with this number, if it is not 0.
    Open(u8),
}

impl<A: Answer> Said<A> {
    fn allows(&self, actual: A) -> bool {
        match *self {
            Said::Is(expected) => actual.same(expected),
            Said::Open(refusal) => [0, refusal].contains(&actual.number()),
        }
    }

    fn words(&self) -> String {
        match self {
            Said::Is(expected) => format!("{expected:?}"),
            Said::Open(refusal) => format!("0 or {refusal}, with whatever answer"),
        }
    }
}

/// A part of lent memory, and how it differs from what is expected.
pub type Part = (&'static str, Option<String>);

/// The cases of a call, and how often each outcome was met that must be.
struct Met {
    call: &'static str,
    cases: u64,
    counts: Vec<(String, u64)>,
}

impl Met {
    /// Counts an outcome, if it is one that must be met.
    fn count(&mut self, outcome: &str) -> bool {
        let count = self.counts.iter_mut().find(|count| count.0 == outcome);
        count.map(|count| count.1 += 1).is_some()
    }
}

pub struct Run {
    pub rng: Rng,
    pub cases: u64,
    seed: u64,
    met: Vec<Met>,
}

impl Run {
    pub fn new(seed: u64) -> Self {
        let none = |(call, each, besides)| {
            let counts = all_outcomes(each, besides).into_iter().map(|outcome| (outcome, 0)).collect();
            Met { call, cases: 0, counts }
        };
        Run { rng: Rng(seed), cases: 0, seed, met: CALLS.map(none).into() }
    }

    fn met(&mut self, call: &str) -> &mut Met {
        self.met.iter_mut().find(|met| met.call == call).expect("a call of the table")
    }

    /// One compared call whose answer FORMAT says.
    pub fn compare<A: Answer>(&mut self, call: &str, outcome: &str, actual: A, expected: A, parts: &[Part]) {
        self.compare_as(call, outcome, actual, Said::Is(expected), parts);
    }

    /// One compared call: the library's answer, every member of it, and each part of lent memory. A difference ends the run.
    pub fn compare_as<A: Answer>(&mut self, call: &str, outcome: &str, actual: A, said: Said<A>, parts: &[Part]) {
        self.cases += 1;
        let different: Vec<&Part> = parts.iter().filter(|part| part.1.is_some()).collect();
        let met = self.met(call);
        met.cases += 1;
        if said.allows(actual) && different.is_empty() && met.count(outcome) {
            return;
        }
        println!("DIFFERENT: {call}, seed {}, case {}, outcome {outcome}", self.seed, self.cases);
        println!("  the library answers {actual:?}\n  expected is {}", said.words());
        for (name, difference) in different {
            println!("  {name}: {}", difference.as_deref().unwrap_or(""));
        }
        std::process::exit(1);
    }

    /// Counts what a case that was compared met besides its outcome, if that must be met.
    pub fn met_besides(&mut self, call: &str, words: &str) {
        self.met(call).count(words);
    }

    /// Prints the table of outcomes, and gives those that were never met.
    pub fn report(&self) -> Vec<String> {
        for Met { call, cases, counts } in &self.met {
            let each: Vec<String> = counts.iter().map(|(outcome, count)| format!("{outcome}: {count}")).collect();
            println!("{call}: {cases} cases\n    {}", each.join(", "));
        }
        let unmet = |Met { call, counts, .. }: &Met| -> Vec<String> {
            counts.iter().filter(|count| count.1 == 0).map(|count| format!("{call} {}", count.0)).collect()
        };
        self.met.iter().flat_map(unmet).collect()
    }
}
