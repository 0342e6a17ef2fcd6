//! Calls on records, measured against plain Rust: totals, acceptance and header, samples out and in, the header written, blocks;
//! of 1992 acceptance and header.

use crate::agree::{parts, parts_mut, Channels};
use crate::clock::versus;
use crate::plain::{blocks, header, header_1992, samples, totals, write};
use crate::table::{head, row, Goal};
use odr::{EDITION_1985, EDITION_1992, HEADER_VALUES, LONGEST_EXPORT, LONGEST_RECORD};
use second::edition::Edition;
use second::gen::{self, Rng};
use std::hint::black_box;

/// The samples of a channel in a record of the longest length.
const COUNT: usize = 1_000;
/// Records of the pool, and of each of its halves.
const RECORDS: usize = 10_000;
const HALF: usize = RECORDS / 2;
const TOTALS: Goal = Goal { most: 1.0, limit: Some(1.5) };
const HEADER: Goal = Goal { most: 1.5, limit: None };
const WRITING: Goal = Goal { most: 3.0, limit: Some(8.0) };
const BLOCKS: Goal = Goal { most: 1.5, limit: None };

/// Records of one reel, at 50,000 samples a second and of the longest length of their edition, in one piece of memory. Their
/// samples are random, and so are their fields but for those of the reel. Or the blocks of each of such records.
pub struct Pool {
    bytes: Vec<u8>,
    /// Of a record, or of its blocks.
    length: usize,
}

impl Pool {
    pub fn new(rng: &mut Rng, edition: &Edition) -> Self {
        let rate = edition.rates[0];
        let words = rate.lengths.iter().copied().max().expect("a rate has a length");
        let pattern = gen::record_with(rng, edition, rate, words);
        let record = |_| {
            let mut r = gen::record_with(rng, edition, rate, words);
            r[1] = pattern[1];
            r[8..12].copy_from_slice(&pattern[8..12]);
            r
        };
        Pool { bytes: (0..RECORDS).flat_map(record).collect(), length: pattern.len() }
    }

    /// The blocks of each record, of 1985.
    fn exported(&self) -> Self {
        let mut bytes = vec![0; RECORDS * LONGEST_EXPORT];
        for (i, blocks) in bytes.chunks_exact_mut(LONGEST_EXPORT).enumerate() {
            assert_eq!(blocks::export(self.at(i), blocks), Ok(LONGEST_EXPORT));
        }
        Pool { bytes, length: LONGEST_EXPORT }
    }

    /// Record i, over and over.
    pub fn at(&self, i: usize) -> &[u8] {
        &self.bytes[i % RECORDS * self.length..][..self.length]
    }

    pub fn at_mut(&mut self, i: usize) -> &mut [u8] {
        &mut self.bytes[i % RECORDS * self.length..][..self.length]
    }
}

/// Measures a call on one record, then on distinct ones. The two programs are half of the pool apart, so that none finds what the
/// other has just read.
fn hot_and_distinct<A, B>(
    name: &str,
    goal: Option<Goal>,
    pool: &Pool,
    mut library: impl FnMut(&[u8]) -> A,
    mut rust: impl FnMut(&[u8]) -> B,
) {
    let one = pool.at(0);
    let hot = versus(|_| library(black_box(one)), |_| rust(black_box(one)));
    row(&format!("{name}, hot"), &hot, goal);
    let distinct = versus(|i| library(black_box(pool.at(i))), |i| rust(black_box(pool.at(i + HALF))));
    row(&format!("{name}, distinct"), &distinct, goal);
}

fn measure_reading(pool: &Pool) {
    let library = |r: &[u8]| odr::totals(EDITION_1985, r);
    hot_and_distinct("acceptance and totals, 4 x 1,000 samples", Some(TOTALS), pool, library, totals::totals);
    let mut values = [0; HEADER_VALUES];
    let library = |r: &[u8]| odr::read_header(EDITION_1985, r, &mut values);
    hot_and_distinct("acceptance and header, 46 numbers", Some(HEADER), pool, library, header::read_header);
    hot_and_distinct("acceptance alone", Some(HEADER), pool, |r| odr::refusal(EDITION_1985, r), header::accept);
    let mut channels = [(); 2].map(|_| [(); 4].map(|_| vec![0; COUNT]));
    let [ours, theirs] = &mut channels;
    let library = |r: &[u8]| odr::read_samples(EDITION_1985, r, parts_mut(ours));
    hot_and_distinct("samples out, 4 x 1,000", None, pool, library, |r| samples::read_samples(r, parts_mut(theirs)));
}

/// Records cut into blocks, and blocks put together, in one buffer of each program.
fn measure_blocks(pool: &Pool) {
    let (mut ours, mut theirs) = ([0; LONGEST_EXPORT], [0; LONGEST_EXPORT]);
    let library = |r: &[u8]| odr::export(EDITION_1985, r, black_box(&mut ours));
    hot_and_distinct("export, 9 blocks", Some(BLOCKS), pool, library, |r| blocks::export(r, black_box(&mut theirs)));
    let (mut ours, mut theirs) = ([0; LONGEST_RECORD], [0; LONGEST_RECORD]);
    let library = |b: &[u8]| odr::import(EDITION_1985, b, black_box(&mut ours));
    let rust = |b: &[u8]| blocks::import(b, black_box(&mut theirs));
    hot_and_distinct("import, 9 blocks", Some(BLOCKS), &pool.exported(), library, rust);
}

/// Record i of a half of the pool; `step` 0 is one record again and again.
fn nth(half: &mut [u8], length: usize, i: usize, step: usize) -> &mut [u8] {
    black_box(&mut half[i * step % HALF * length..][..length])
}

/// Calls that write one record's samples, or its header, into others; each program has its half of the pool.
fn measure_writing(pool: &mut Pool) {
    let mut channels: Channels = [(); 4].map(|_| vec![0; COUNT]);
    assert_eq!(odr::read_samples(EDITION_1985, pool.at(1), parts_mut(&mut channels)), 0);
    let header = header::read_header(pool.at(1)).expect("an accepted record");
    let mut values = [0; HEADER_VALUES];
    assert_eq!(odr::read_header(EDITION_1985, pool.at(1), &mut values), 0);
    let length = pool.length;
    let (ours, theirs) = pool.bytes.split_at_mut(HALF * length);
    for (kind, step) in [("hot", 0), ("distinct", 1)] {
        let library = |i: usize| odr::write_samples(EDITION_1985, nth(ours, length, i, step), parts(&channels));
        let rust = |i: usize| samples::write_samples(nth(theirs, length, i, step), parts(&channels));
        row(&format!("samples in, 4 x 1,000, {kind}"), &versus(library, rust), None);
    }
    for (kind, step) in [("hot", 0), ("distinct", 1)] {
        let library = |i: usize| odr::write_header(EDITION_1985, nth(ours, length, i, step), black_box(&values));
        let rust = |i: usize| write::write_header(nth(theirs, length, i, step), black_box(&header));
        row(&format!("header written, 46 numbers, {kind}"), &versus(library, rust), Some(WRITING));
    }
}

pub fn measure(pool: &mut Pool) {
    head("One record of 1985, of 4,390 bytes", "library, ns", "Rust, ns", "ratio");
    measure_reading(pool);
    measure_blocks(pool);
    measure_writing(pool);
}

/// Acceptance and header, in which the editions differ most.
pub fn measure_1992(pool: &Pool) {
    head("One record of 1992, of 4,166 bytes", "library, ns", "Rust, ns", "ratio");
    let mut values = [0; HEADER_VALUES];
    let library = |r: &[u8]| odr::read_header(EDITION_1992, r, &mut values);
    hot_and_distinct("1992: acceptance and header, 48 numbers", Some(HEADER), pool, library, header_1992::read_header);
    hot_and_distinct("1992: acceptance alone", Some(HEADER), pool, |r| odr::refusal(EDITION_1992, r), header_1992::accept);
}
