//! Benchmarks of the library, called as C calls it, against plain Rust in the same process (docs/BENCHMARKS.md). It prints what
//! it saw and whether a goal was met; only an answer that differs between the two makes it fail.

mod agree;
mod clock;
mod index;
mod plain;
mod records;
mod table;

use second::edition::{EDITION_1985, EDITION_1992};
use second::gen::Rng;

const SEED: u64 = 1985;

const METHOD: &str = "\
Both are built for release and take turns in one process, by the clock of the thread's own time. Times are medians of 101 rounds,
or of 31 where a call takes longer than a tenth of a second; a round is a batch of at least 1 ms. A ratio is the median of the
rounds' ratios, and the middle half of them is given. Records are in memory before a call. Hot is one record again and again,
distinct is 10,000 of them in turn, for calls that write to a record 5,000. Totals are of a record: both accept it first and then
take its samples in one pass. Export and import accept the record too, and import judges every check, field and byte of padding;
both write to one buffer again and again. What an answer costs to be handed back, by value or into lent memory, is in its call's
time. So is, for an inserted record, that its number and time tag are set first. Records are of 1985 where a row does not say
1992.";

fn main() {
    let mut rng = Rng(SEED);
    agree::check(&mut rng, &EDITION_1985, agree::same_1985);
    agree::check(&mut rng, &EDITION_1992, agree::same_1992);
    println!("{METHOD}");
    let mut pool = records::Pool::new(&mut rng, &EDITION_1985);
    records::measure(&mut pool);
    records::measure_1992(&records::Pool::new(&mut rng, &EDITION_1992));
    index::measure(&mut rng, &mut pool);
}
