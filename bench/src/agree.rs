//! What is measured gives the same answers: the library and plain Rust on records of every kind, before anything is timed.

use crate::plain::blocks::{check as block_check, cut, export, import, BLOCK, PAYLOAD};
use crate::plain::{header, header_1992, samples, totals, write};
use compare::records::any_bytes;
use odr::{EDITION_1985, EDITION_1992, HEADER_VALUES, LONGEST_EXPORT};
use second::edition::Edition;
use second::gen::Rng;

const CASES: usize = 20_000;

/// The samples of four channels.
pub type Channels = [Vec<i8>; 4];

pub fn parts(channels: &Channels) -> [&[i8]; 4] {
    channels.each_ref().map(Vec::as_slice)
}

pub fn parts_mut(channels: &mut Channels) -> [&mut [i8]; 4] {
    channels.each_mut().map(Vec::as_mut_slice)
}

/// The refusal as the library gives it.
pub fn number<T>(answer: &Result<T, u8>) -> u8 {
    answer.as_ref().map_or_else(|&number| number, |_| 0)
}

fn same_totals(record: &[u8]) {
    let library = odr::totals(EDITION_1985, record);
    let rust = totals::totals(record);
    assert_eq!(library.refusal, number(&rust));
    let channel = |t: totals::Total| odr::Total {
        sum: t.sum,
        squares: t.squares,
        least: t.least,
        greatest: t.greatest,
        clipped: t.clipped,
    };
    assert_eq!(library.channels, rust.unwrap_or_default().map(channel));
}

/// Read, then written with one number changed into other bytes. The library's last two values have no field in 1985.
fn same_header(rng: &mut Rng, record: &[u8]) {
    let mut values = [u64::MAX; HEADER_VALUES];
    let refusal = odr::read_header(EDITION_1985, record, &mut values);
    let read = header::read_header(record);
    assert_eq!([refusal, odr::refusal(EDITION_1985, record)], [number(&read), number(&header::accept(record))]);
    let Ok(mut header) = read else { return };
    let numbers: Vec<u64> = header.numbers().into_iter().map(|value| *value).collect();
    assert_eq!(values.to_vec(), [&numbers[..], &[0, 0]].concat());
    let place = rng.next() as usize % numbers.len();
    let change = rng.next() >> (rng.next() % 64);
    values[place] ^= change;
    *header.numbers()[place] ^= change;
    let mut library = rng.bytes(record.len());
    let mut rust = library.clone();
    let refusal = odr::write_header(EDITION_1985, &mut library, &values);
    assert_eq!(refusal, number(&write::write_header(&mut rust, &header)));
    assert_eq!(library, rust);
}

/// Out to channels, then in to another record of the same header.
fn same_samples(rng: &mut Rng, record: &[u8]) {
    let mut library: Channels = [(); 4].map(|_| vec![0; if rng.one_in(16) { 99 } else { 1001 }]);
    let mut rust = library.clone();
    let refusal = odr::read_samples(EDITION_1985, record, parts_mut(&mut library));
    assert_eq!(refusal, number(&samples::read_samples(record, parts_mut(&mut rust))));
    assert_eq!(library, rust);
    let head = record.len().min(header::HEADER);
    let mut written = [&record[..head], &rng.bytes(record.len() - head)].concat();
    let mut again = written.clone();
    let refusal = odr::write_samples(EDITION_1985, &mut written, parts(&library));
    assert_eq!(refusal, number(&samples::write_samples(&mut again, parts(&library))));
    assert_eq!(written, again);
}

/// One byte is another, most often one of a block's fields, or of the number in the record's header. The check fits it or not.
fn damage_block(rng: &mut Rng, blocks: &mut [u8]) {
    let count = (blocks.len() / BLOCK) as u64;
    let block = &mut blocks[rng.within(0, count - 1) as usize * BLOCK..][..BLOCK];
    let at = rng.next() as usize % if rng.one_in(4) { BLOCK } else { 10 };
    block[at] ^= 1 << (rng.next() % 8);
    if at < BLOCK - 2 && !rng.one_in(4) {
        let check = block_check(block);
        block[BLOCK - 2..].copy_from_slice(&check.to_be_bytes());
    }
}

/// The blocks of any bytes: as they are half of the time, else with a byte changed, with another block behind them, without their
/// first one, or cut.
fn any_blocks(rng: &mut Rng, bytes: &[u8]) -> Vec<u8> {
    let number = bytes.get(2..4).map_or(0, |two| u16::from_be_bytes([two[0], two[1]]));
    let mut blocks = vec![0; BLOCK * bytes.len().div_ceil(PAYLOAD)];
    cut(number, bytes, &mut blocks);
    match rng.next() % 16 {
        _ if blocks.is_empty() => {}
        0..=4 => damage_block(rng, &mut blocks),
        5 => blocks.extend_from_within(blocks.len() - BLOCK..),
        6 => drop(blocks.drain(..BLOCK)),
        7 => blocks.truncate(rng.next() as usize % blocks.len()),
        _ => {}
    }
    blocks
}

/// A lent buffer, now and then too short.
fn room(rng: &mut Rng) -> Vec<u8> {
    let length = if rng.one_in(8) { rng.next() as usize % LONGEST_EXPORT } else { LONGEST_EXPORT + 1 };
    rng.bytes(length)
}

fn same_length(library: odr::LengthAnswer, rust: Result<usize, u8>) {
    assert_eq!((library.refusal, library.length), (number(&rust), rust.unwrap_or(0)));
}

/// Cut into blocks, and blocks put together, with enough room or too little.
fn same_blocks(rng: &mut Rng, record: &[u8]) {
    let mut library = room(rng);
    let mut rust = library.clone();
    same_length(odr::export(EDITION_1985, record, &mut library), export(record, &mut rust));
    assert_eq!(library, rust);
    let blocks = any_blocks(rng, record);
    library = room(rng);
    rust = library.clone();
    same_length(odr::import(EDITION_1985, &blocks, &mut library), import(&blocks, &mut rust));
    assert_eq!(library, rust);
}

pub fn same_1985(rng: &mut Rng, record: &[u8]) {
    same_totals(record);
    same_header(rng, record);
    same_samples(rng, record);
    same_blocks(rng, record);
}

/// Accepted and read; a refused header stays as it was.
pub fn same_1992(rng: &mut Rng, record: &[u8]) {
    let before = rng.next();
    let mut values = [before; HEADER_VALUES];
    let refusal = odr::read_header(EDITION_1992, record, &mut values);
    let read = header_1992::read_header(record);
    assert_eq!([refusal, odr::refusal(EDITION_1992, record)], [number(&read), number(&header_1992::accept(record))]);
    assert_eq!(values.to_vec(), read.map_or(vec![before; HEADER_VALUES], |header| header.numbers()));
}

/// Ends the program where an answer differs; prints the cases, and how many of them were accepted records.
pub fn check(rng: &mut Rng, edition: &Edition, same: impl Fn(&mut Rng, &[u8])) {
    let mut accepted = 0;
    for _ in 0..CASES {
        let record = any_bytes(rng, edition);
        accepted += usize::from(odr::refusal(edition.number, &record) == 0);
        same(rng, &record);
    }
    let number = edition.number;
    println!("{number}: the library and plain Rust gave the same answers for {CASES} inputs, {accepted} of them accepted.");
}
