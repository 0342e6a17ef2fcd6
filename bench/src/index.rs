//! Calls on the index of seconds, and the listing, of records of 1985: the library alone, at two sizes of the index. FORMAT: "The
//! index of seconds", "The listing".

use crate::clock::{alone, each, pair, time, ROUNDS, SHORTEST, SLOW_ROUNDS};
use crate::records::Pool;
use crate::table::{head, lone, row, Goal};
use odr::{CELLS, EDITION_1985, LONGEST_LISTING};
use second::edition;
use second::gen::{self, set_tag, set_word, Rng};
use std::hint::black_box;
use std::time::Duration;

const FIRST_SECOND: u64 = 36_000;
const SECONDS: u64 = 3_600;
/// R of the two indexes.
const SIZES: [u64; 2] = [60_000, 600];
/// Records inserted, or removed, in a batch.
const BATCH: usize = 600;
const REMOVED: usize = 100;
const GROWTH: Goal = Goal { most: 1.5, limit: None };

/// An index and its cells; C is `count`, R `highest`.
struct Index {
    count: u64,
    highest: u64,
    opening: odr::Opening,
    rows: Vec<u32>,
    seconds: Vec<u32>,
    /// The numbers 1 to this one are held.
    held: u64,
}

impl Index {
    fn new(pool: &Pool, count: u64, highest: u64) -> Self {
        let [rows, seconds] = [highest, count].map(|blocks| vec![0; CELLS * blocks as usize]);
        let mut index = Index { count, highest, opening: odr::Opening::default(), rows, seconds, held: 0 };
        index.open(pool.at(0));
        index
    }

    fn open(&mut self, pattern: &[u8]) {
        let limits = [FIRST_SECOND, self.count, self.highest];
        let opened = odr::open(EDITION_1985, pattern, limits, &mut self.rows, &mut self.seconds);
        assert_eq!(opened.refusal, 0);
        self.opening = opened.opening;
        self.held = 0;
    }

    /// Inserts a record under a number. The numbers' seconds are spread evenly over the window; this one's is later by so many.
    fn insert(&mut self, record: &mut [u8], number: u64, later: u64) {
        let second = (self.count * (number - 1) / self.highest + later) % self.count;
        set_word(record, 2, number);
        set_tag(record, 7, 1000 * (FIRST_SECOND + second));
        assert_eq!(odr::insert(self.opening, EDITION_1985, black_box(record), &mut self.rows, &mut self.seconds), 0);
    }

    /// Inserts the next numbers, none of them held, from a place of the pool on; `step` 0 inserts one record again and again.
    fn insert_fresh(&mut self, pool: &mut Pool, from: usize, step: usize) -> f64 {
        if self.held + BATCH as u64 > self.highest {
            self.open(pool.at(0));
        }
        let next = self.held + 1;
        self.held += BATCH as u64;
        each(time(0, BATCH, |i| self.insert(pool.at_mut((from + i) * step), next + i as u64, 0)), BATCH)
    }

    fn fill(&mut self, pool: &mut Pool) {
        while self.held < self.highest {
            self.held += 1;
            self.insert(pool.at_mut(self.held as usize), self.held, 0);
        }
    }

    /// The i-th of some held numbers, spread over all.
    fn some(&self, i: usize) -> u64 {
        1 + i as u64 * 7_919 % self.highest
    }

    /// Replaces held numbers by records of a second later by so many than their place.
    fn replace(&mut self, pool: &mut Pool, later: u64) -> f64 {
        each(time(0, REMOVED, |i| self.insert(pool.at_mut(i), self.some(i), later)), REMOVED)
    }

    /// Removes numbers, and inserts them again outside the measured time.
    fn remove(&mut self, pool: &mut Pool) -> f64 {
        let mut spent = Duration::ZERO;
        let mut calls = 0;
        while spent < SHORTEST {
            spent += time(0, REMOVED, |i| {
                let number = self.some(i);
                assert_eq!(odr::remove(self.opening, number, &mut self.rows, &mut self.seconds), 0);
            });
            calls += REMOVED;
            (0..REMOVED).for_each(|i| self.insert(pool.at_mut(i), self.some(i), 0));
        }
        each(spent, calls)
    }

    /// Queries seconds, one after the other or with `step` 0 the same one.
    fn query(&self, step: u64) -> f64 {
        let queried = |i: usize| {
            let second = FIRST_SECOND + i as u64 * step % self.count;
            let answer = odr::query(self.opening, second, &self.rows, &self.seconds);
            assert_eq!(answer.refusal, 0);
            answer
        };
        let calls = 4 * SECONDS as usize;
        each(time(0, calls, queried), calls)
    }

    fn test_consistency(&self) {
        assert!(odr::is_consistent(self.opening, &self.rows, &self.seconds).consistent);
    }
}

/// A round of each of the two indexes; `round` gets the number of the round too.
fn grown(name: &str, indexes: &mut [Index; 2], goal: Option<Goal>, mut round: impl FnMut(&mut Index, usize) -> f64) {
    let mut rounds = 0;
    let pair = pair(|| {
        rounds += 1;
        [round(&mut indexes[0], rounds), round(&mut indexes[1], rounds)]
    });
    row(name, &pair, goal);
}

fn measure_index(pool: &mut Pool) {
    head("Index of 3,600 seconds, records of 4,390 bytes", "R = 60,000, ns", "R = 600, ns", "growth");
    let indexes = &mut SIZES.map(|highest| Index::new(pool, SECONDS, highest));
    grown("opening", indexes, None, |index, _| each(time(0, 10, |_| index.open(pool.at(0))), 10));
    for (kind, step) in [("hot", 0), ("distinct", 1)] {
        let mut from = 0;
        let fresh = |index: &mut Index, _| {
            from += BATCH;
            index.insert_fresh(pool, from, step)
        };
        grown(&format!("fresh insert, {kind} records"), indexes, Some(GROWTH), fresh);
    }
    indexes.iter_mut().for_each(|index| index.fill(pool));
    grown("replacement in place, every number held", indexes, None, |index, _| index.replace(pool, 0));
    grown("replacement in another second, every number held", indexes, None, |index, n| index.replace(pool, n as u64 % 2));
    // Back to their places.
    indexes.iter_mut().for_each(|index| _ = index.replace(pool, 0));
    grown("remove, every number held", indexes, None, |index, _| index.remove(pool));
    grown("query, one second again and again", indexes, None, |index, _| index.query(0));
    grown("query, each second in turn", indexes, None, |index, _| index.query(1));
}

fn measure_test(pool: &mut Pool) {
    println!("\n{:<58} {:>14}", "Consistency test, every number held", "library, ns");
    for (highest, seconds) in [(60, 60), (600, 600), (600, 3_600), (6_000, 3_600), (60_000, 1_200)] {
        let mut index = Index::new(pool, seconds, highest);
        index.fill(pool);
        let rounds = if highest == 60_000 { SLOW_ROUNDS } else { ROUNDS };
        let times = alone(rounds, |_| index.test_consistency());
        lone(&format!("R = {highest}, {seconds} seconds"), times, highest * seconds, "row and second");
    }
}

fn measure_listing(rng: &mut Rng) {
    println!("\n{:<58} {:>14}", "Listing", "library, ns");
    let edition = &edition::EDITION_1985;
    for (rate, words, records) in [(edition.rates[0], 2_195, 14), (edition.rates[6], 395, 82)] {
        let reel: Vec<u8> = (0..records).flat_map(|_| gen::record_with(rng, edition, rate, words)).collect();
        let mut text = [0; LONGEST_LISTING];
        let list = |_| assert_eq!(odr::list(black_box(&reel), &mut text).refusal, 0);
        lone(&format!("reel of {} bytes, {records} records", reel.len()), alone(ROUNDS, list), records, "record");
    }
}

pub fn measure(rng: &mut Rng, pool: &mut Pool) {
    measure_index(pool);
    measure_test(pool);
    measure_listing(rng);
}
