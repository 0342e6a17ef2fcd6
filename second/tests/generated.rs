//! FORMAT whole: what the seeded generator makes is what it says, and the answers hang together over it.

use second::book::{open, Ledger, SecondTotals};
use second::edition::{edition_of, Edition, Rate, EDITIONS};
use second::gen::*;
use second::lister::listing;
use second::record::{accept, read_header, write_header, LAST_MS};
use second::reel::{step, Step};
use second::samples::{channels, write_samples};

/// The cells of a row, and of a second.
const CELLS: usize = 24;

/// Each rate of each edition.
fn rates() -> impl Iterator<Item = (&'static Edition, Rate)> {
    EDITIONS.into_iter().flat_map(|edition| edition.rates.iter().map(move |rate| (edition, *rate)))
}

#[test]
fn accepted_records_of_every_rate_and_length() {
    let mut rng = Rng(1);
    for edition in EDITIONS {
        for (rate, &words) in edition.rates.iter().flat_map(|rate| rate.lengths.iter().map(move |words| (*rate, words))) {
            for _ in 0..50 {
                let e = edition.number;
                let r = record_with(&mut rng, edition, rate, words);
                let header = read_header(e, &r).unwrap();
                assert_eq!(accept(other(edition).number, &r), Err(3));
                // Writing back what was read alters no byte.
                let mut same = r.clone();
                write_header(&mut same, &header).unwrap();
                let samples = channels(e, &r).unwrap();
                write_samples(e, &mut same, samples.each_ref().map(|c| c.as_slice())).unwrap();
                assert_eq!(same, r);
                // Fields and samples written over another record are read back the same.
                let mut another = record_with(&mut rng, edition, rate, words);
                let before = another.clone();
                write_header(&mut another, &header).unwrap();
                let end = edition.header_bytes();
                assert_eq!(another[end..], before[end..]);
                write_samples(e, &mut another, samples.each_ref().map(|c| c.as_slice())).unwrap();
                assert_eq!((read_header(e, &another), channels(e, &another)), (Ok(header), Ok(samples)));
            }
        }
    }
}

#[test]
fn tags_at_the_ends_of_the_day() {
    let mut rng = Rng(10);
    for (edition, rate) in rates() {
        let mut tag = || read_header(edition.number, &record_of(&mut rng, edition, rate)).unwrap().time_tag_ms;
        let made: Vec<u64> = (0..200).map(|_| tag()).collect();
        for tag in [0, 1, LAST_MS] {
            assert!(made.contains(&tag), "{} {} {tag}", edition.number, rate.hz);
        }
    }
}

#[test]
fn one_breach_gives_its_number() {
    let mut rng = Rng(2);
    for edition in EDITIONS {
        for number in 1..=11 {
            for _ in 0..300 {
                let mut r = record(&mut rng, edition);
                breach(&mut rng, edition, &mut r, number);
                assert_eq!(accept(edition.number, &r), Err(number));
            }
        }
    }
}

#[test]
fn several_breaches_give_the_first() {
    let mut rng = Rng(3);
    for edition in EDITIONS {
        let mut seen = [0; 12];
        for _ in 0..3000 {
            let mut r = record(&mut rng, edition);
            let first = breaches(&mut rng, edition, &mut r);
            assert_eq!(accept(edition.number, &r), Err(first));
            seen[usize::from(first)] += 1;
        }
        assert!(seen[1..].iter().all(|&count| count > 0), "{seen:?}");
    }
}

#[test]
fn foreign_records_give_3_5_or_6() {
    let mut rng = Rng(8);
    for edition in EDITIONS {
        let mut seen = [0; 12];
        for _ in 0..1000 {
            let r = foreign(&mut rng, edition);
            seen[usize::from(accept(edition.number, &r).err().unwrap_or(0))] += 1;
        }
        assert!(seen[3] > 0 && seen[5] > 0 && seen[6] > 0 && seen[3] + seen[5] + seen[6] == 1000, "{seen:?}");
    }
}

#[test]
fn unknown_editions() {
    let mut rng = Rng(9);
    let made: Vec<u64> = (0..2000).map(|_| unknown_edition(&mut rng)).collect();
    assert!(made.iter().all(|&edition| edition_of(edition).err() == Some(25)));
    let known = [1985, 1992];
    let near = known.iter().flat_map(|&e| [e - 1, e + 1, e % 100, e + (1 << 16), e + (1 << 32), e + (1 << 63)]);
    for edition in near.chain([0, 1, u64::MAX]) {
        assert!(made.contains(&edition), "{edition}");
    }
}

#[test]
fn anything_ends_with_an_answer() {
    let mut rng = Rng(4);
    for edition in EDITIONS {
        let mut seen = [0; 12];
        for i in 0..4000 {
            let r = match i % 3 {
                0 => cut(&mut rng, edition),
                1 => damaged(&mut rng, edition),
                _ => garbage(&mut rng),
            };
            seen[usize::from(accept(edition.number, &r).err().unwrap_or(0))] += 1;
            listing(&r);
            for place in [0, rng.within(0, 5000) as usize, usize::MAX] {
                step(edition.number, &r, place);
            }
        }
        assert!(seen[0] > 0 && seen[1] > 0 && seen[2] > 0, "{seen:?}");
    }
}

/// Walks a reel: the records' bytes, joined, and the step that ends it.
fn walk(edition: u64, reel: &[u8]) -> (Vec<u8>, Step) {
    let (mut place, mut joined) = (0, Vec::new());
    loop {
        match step(edition, reel, place) {
            Step::Record { bytes, next } => {
                joined.extend_from_slice(&reel[bytes]);
                place = next;
            }
            last => return (joined, last),
        }
    }
}

#[test]
fn reels() {
    let mut rng = Rng(5);
    for i in 0..600 {
        let edition = EDITIONS[i / 3 % 2];
        let count = rng.within(0, 13) as usize;
        let reel = match i % 3 {
            0 => reel(&mut rng, edition, count),
            1 => cut_reel(&mut rng, edition, count),
            _ => damaged_reel(&mut rng, edition, count),
        };
        let (joined, last) = walk(edition.number, &reel);
        assert_eq!(joined, reel[..joined.len()]);
        assert!(i % 3 != 0 || last == Step::Finished);
        assert!((last == Step::Finished) == (joined.len() == reel.len()));
        // The lister stays with 1985: a good reel of 1992 is 3 at once, a damaged one may begin with a record of 1985.
        let text = String::from_utf8(listing(&reel)).unwrap();
        let refused = text.lines().last().unwrap().strip_prefix("refused,").map(|n| n.parse().unwrap());
        assert_eq!(refused, if let (_, Step::Refused(n)) = walk(1985, &reel) { Some(n) } else { None });
        assert!(edition.number == 1985 || i % 3 != 0 || reel.is_empty() || refused == Some(3));
    }
}

#[test]
fn whole_seconds_are_kept() {
    let mut rng = Rng(6);
    for (edition, rate) in rates() {
        let pattern = record_of(&mut rng, edition, rate);
        let (rows, cells) = (CELLS * 200, CELLS * 3);
        let o = open(edition.number, &pattern, 86_397, 3, 200, rows, cells).unwrap();
        let mut ledger = Ledger::default();
        for r in session(&mut rng, edition, &pattern, 86_397, 3) {
            ledger.put(&o, edition.number, &r, rows, cells).unwrap();
        }
        for second in 86_397..86_400 {
            let t = ledger.ask(&o, second, rows, cells).unwrap();
            assert_eq!((t.records, t.origins, t.errors, t.kept), (rate.records_a_second, 1, 0, true));
        }
    }
}

/// Random calls on a book, against the second each number was last put into.
#[test]
fn histories() {
    let mut rng = Rng(7);
    for i in 0..120 {
        let edition = EDITIONS[i % 2];
        let rate = rng.pick(edition.rates);
        let pattern = record_of(&mut rng, edition, rate);
        let first = rng.within(0, 86_397);
        let (count, highest) = (rng.within(1, 3), rng.within(1, 3 * rate.records_a_second));
        let (rows, cells) = (CELLS * highest as usize, CELLS * count as usize);
        let o = open(edition.number, &pattern, first, count, highest, rows, cells).unwrap();
        let mut ledger = Ledger::default();
        let mut where_held = vec![None; highest as usize + 1];
        for _ in 0..300 {
            let before = ledger.clone();
            let number = 1 + rng.next() % (highest + 1);
            let tag = (1000 * first + rng.next() % (1000 * (count + 1))).min(86_399_999);
            let second = tag / 1000;
            match rng.next() % 4 {
                0 | 1 => {
                    let (origin, error) = (rng.one_in(3), rng.one_in(9));
                    let r = flagged(&mut rng, edition, &pattern, number, tag, [origin, error]);
                    let others = where_held.iter().enumerate();
                    let others = others.filter(|&(n, &s)| n as u64 != number && s == Some(second)).count();
                    let expected = if number > highest {
                        Err(16)
                    } else if second >= first + count {
                        Err(17)
                    } else if others as u64 == rate.records_a_second {
                        Err(18)
                    } else {
                        Ok(())
                    };
                    assert_eq!(ledger.put(&o, edition.number, &r, rows, cells), expected);
                    if expected.is_ok() {
                        where_held[number as usize] = Some(second);
                        assert_eq!(ledger.records[&(number as u16)], r);
                    } else {
                        assert_eq!(ledger, before);
                    }
                }
                2 => {
                    let held = where_held.get_mut(number as usize);
                    let expected = match held {
                        None => Err(16),
                        Some(held) => held.take().map(|_| ()).ok_or(19),
                    };
                    assert_eq!(ledger.take_out(&o, number, rows, cells), expected);
                }
                _ => {
                    let found = ledger.ask(&o, second, rows, cells);
                    if second >= first + count {
                        assert_eq!(found, Err(17));
                    } else {
                        let t = found.unwrap();
                        let held = where_held.iter().filter(|&&s| s == Some(second)).count() as u64;
                        assert_eq!(t.records, held);
                        assert!(held > 0 || t == SecondTotals::default());
                        assert!(t.kept == (held == rate.records_a_second && t.origins > 0 && t.errors == 0));
                    }
                    assert_eq!(ledger.book_test(&o, rows, cells), Ok(true));
                    assert_eq!(ledger, before);
                }
            }
        }
    }
}
