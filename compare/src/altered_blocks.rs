//! Blocks to be imported: those of any bytes, and such as export does not write. FORMAT, "Blocks".

use crate::records::any_bytes;
use odr::{BLOCK_BYTES, PAYLOAD_BYTES};
use second::blocks::{check, cut};
use second::edition::{Edition, EDITION_1992};
use second::gen::{self, set_check, set_word, word, Rng};
use std::ops::RangeInclusive;

/// The words of a block that are its record number, its index, its payload's length, word 2 of its payload, and its check.
const NUMBER: usize = 1;
const INDEX: usize = 2;
const LENGTH: usize = 3;
const WORD_2: usize = 5;
const CHECK: usize = 256;

/// The bytes of a block before its payload, and before its check.
const FIELDS: usize = 6;
const CHECKED: usize = 510;

/// Alters blocks of any number, none too; where it needs other ones, it leaves them.
type Alteration = fn(&mut Rng, &mut Vec<u8>);

/// In the words of an outcome, what is done to the blocks of an accepted record, which then get the number that `CALLS` of
/// compare/src/run.rs has behind the same words. But for those of 27 every check is made right again.
const ALTERATIONS: [(&str, Alteration); 31] = [
    ("changed ", changed),
    ("exchanged ", exchanged),
    ("check above ", check_above),
    ("two bad ", two_bad),
    ("bad and part ", bad_and_part),
    ("bad and wrong ", bad_and_wrong),
    ("first number ", |rng, blocks| field(rng, blocks, 0, NUMBER)),
    ("later number ", |rng, blocks| later(rng, blocks, NUMBER)),
    ("all numbers ", all_numbers),
    ("word 2 ", |rng, blocks| field(rng, blocks, 0, WORD_2)),
    ("first index ", |rng, blocks| field(rng, blocks, 0, INDEX)),
    ("later index ", |rng, blocks| later(rng, blocks, INDEX)),
    ("not full ", not_full),
    ("above full ", above_full),
    ("last empty ", last_empty),
    ("last above full ", last_above_full),
    ("last shorter ", last_shorter),
    ("padding ", padding),
    ("dropped ", dropped),
    ("doubled ", doubled),
    ("swapped ", swapped),
    ("part ", part),
    ("cut ", cut_within),
    ("no block ", |_, blocks| blocks.clear()),
    ("zeros ", |_, blocks| blocks.extend([0; BLOCK_BYTES])),
    ("below 4 ", |rng, blocks| lone(rng, blocks, &[1, 2, 3])),
    ("4 bytes ", |rng, blocks| lone(rng, blocks, &[4])),
    ("last longer ", last_longer),
    ("last dropped ", last_dropped),
    ("zeros shorter ", zeros_shorter),
    ("small check ", small_check),
];

/// Blocks, and in the words of an outcome how they were altered, if that alone makes the number: of any bytes, of an accepted
/// record altered once, or of any bytes altered more than once.
pub fn any_blocks(rng: &mut Rng, edition: &Edition) -> (&'static str, Vec<u8>) {
    let kind = rng.next() % 8;
    if (3..=6).contains(&kind) {
        let (words, alter) = rng.pick(&ALTERATIONS);
        let mut blocks = blocks_of(&gen::record(rng, edition));
        alter(rng, &mut blocks);
        return (words, blocks);
    }
    let mut blocks = blocks_of(&any_bytes(rng, edition));
    for _ in 0..if kind == 7 { rng.within(1, 3) } else { 0 } {
        rng.pick(&ALTERATIONS).1(rng, &mut blocks);
    }
    ("", blocks)
}

/// The blocks of any bytes: of too few for a record number a block of number 0.
fn blocks_of(bytes: &[u8]) -> Vec<u8> {
    cut(bytes).unwrap_or_else(|| {
        let mut block = vec![0; BLOCK_BYTES];
        set_word(&mut block, LENGTH, bytes.len() as u64);
        block[FIELDS..FIELDS + bytes.len()].copy_from_slice(bytes);
        set_check(&mut block);
        block
    })
}

fn count(blocks: &[u8]) -> usize {
    blocks.len() / BLOCK_BYTES
}

fn block_mut(blocks: &mut [u8], index: usize) -> &mut [u8] {
    &mut blocks[BLOCK_BYTES * index..BLOCK_BYTES * (index + 1)]
}

/// A block of some: at an end one time in four.
fn any_index(rng: &mut Rng, count: usize) -> usize {
    rng.within(0, count as u64 - 1) as usize
}

/// Two blocks of some, in their order.
fn any_pair(rng: &mut Rng, count: usize) -> Option<[usize; 2]> {
    if count < 2 {
        return None;
    }
    let low = any_index(rng, count - 1);
    Some([low, low + 1 + any_index(rng, count - 1 - low)])
}

/// Another byte than this one: a bit away, beside it, an end, or any.
fn other_byte(rng: &mut Rng, byte: u8) -> u8 {
    let (bit, any) = (1 << (rng.next() % 8), rng.next() as u8);
    let other = rng.pick(&[byte ^ bit, byte.wrapping_add(1), byte.wrapping_sub(1), 0, 255, any]);
    if other == byte { byte ^ bit } else { other }
}

/// Another word than this one: a bit away, beside it, with its bytes exchanged, an end, or any.
fn other_word(rng: &mut Rng, word: u64) -> u64 {
    let (bit, any) = (1 << (rng.next() % 16), rng.next());
    let exchanged = u64::from((word as u16).swap_bytes());
    let other = rng.pick(&[word ^ bit, word + 1, word.wrapping_sub(1), exchanged, 0, 65_535, any]) & 65_535;
    if other == word { word ^ bit } else { other }
}

// Bad checks.

/// One byte of a block is another: of a field, of the payload and its padding, or of the check.
fn changed_in(rng: &mut Rng, blocks: &mut [u8], index: usize) {
    let (any, field, check) = (rng.within(0, 511), rng.within(0, 5), rng.within(510, 511));
    let at = BLOCK_BYTES * index + rng.pick(&[any, any, field, check]) as usize;
    blocks[at] = other_byte(rng, blocks[at]);
}

fn changed(rng: &mut Rng, blocks: &mut Vec<u8>) {
    if count(blocks) > 0 {
        let index = any_index(rng, count(blocks));
        changed_in(rng, blocks, index);
    }
}

fn two_bad(rng: &mut Rng, blocks: &mut Vec<u8>) {
    if let Some(pair) = any_pair(rng, count(blocks)) {
        pair.into_iter().for_each(|index| changed_in(rng, blocks, index));
    }
}

/// Two unequal bytes of a block's first 510 change places, half of the time the nearest ones.
fn exchanged(rng: &mut Rng, blocks: &mut Vec<u8>) {
    if count(blocks) == 0 {
        return;
    }
    let index = any_index(rng, count(blocks));
    let block = block_mut(blocks, index);
    let (any, field) = (rng.within(0, 509), rng.within(0, 5));
    let at = rng.pick(&[any, any, field]) as usize;
    let unequal: Vec<usize> = (0..CHECKED).filter(|&other| block[other] != block[at]).collect();
    if let Some(&nearest) = unequal.iter().min_by_key(|other| other.abs_diff(at)) {
        block.swap(at, if rng.one_in(2) { nearest } else { rng.pick(&unequal) });
    }
}

/// Bytes of a full block 0 that no refusal judges become such that its check is 14 or less, and so that 65,521 more fits it too.
fn small_check(rng: &mut Rng, blocks: &mut Vec<u8>) {
    if count(blocks) == 0 || word(blocks, LENGTH) != PAYLOAD_BYTES as u64 {
        return;
    }
    let block = block_mut(blocks, 0);
    let first = FIELDS + EDITION_1992.header_bytes();
    let mut sum = check(block) as i64;
    while sum > 14 {
        let (at, byte) = (first + rng.next() as usize % (CHECKED - first), rng.next() as u8);
        sum = (sum + (i64::from(byte) - i64::from(block[at])) * (at as i64 + 1)).rem_euclid(65_521);
        block[at] = byte;
    }
    set_check(block);
}

fn check_above(rng: &mut Rng, blocks: &mut Vec<u8>) {
    small_check(rng, blocks);
    if count(blocks) > 0 && word(blocks, CHECK) <= 14 {
        let above = word(blocks, CHECK) + 65_521;
        set_word(blocks, CHECK, above);
    }
}

fn bad_and_part(rng: &mut Rng, blocks: &mut Vec<u8>) {
    changed(rng, blocks);
    part(rng, blocks);
}

/// A bad check in one block, and a wrong index in another before or behind it.
fn bad_and_wrong(rng: &mut Rng, blocks: &mut Vec<u8>) {
    if let Some([low, high]) = any_pair(rng, count(blocks)) {
        let (bad, wrong) = if rng.one_in(2) { (low, high) } else { (high, low) };
        changed_in(rng, blocks, bad);
        field(rng, blocks, wrong, INDEX);
    }
}

// Wrong fields and padding, with right checks.

fn field(rng: &mut Rng, blocks: &mut [u8], index: usize, field: usize) {
    if index < count(blocks) {
        let block = block_mut(blocks, index);
        set_word(block, field, other_word(rng, word(block, field)));
        set_check(block);
    }
}

/// A field of a block but block 0.
fn later(rng: &mut Rng, blocks: &mut [u8], which: usize) {
    if count(blocks) > 1 {
        let index = 1 + any_index(rng, count(blocks) - 1);
        field(rng, blocks, index, which);
    }
}

fn all_numbers(rng: &mut Rng, blocks: &mut Vec<u8>) {
    if count(blocks) == 0 {
        return;
    }
    let number = other_word(rng, word(blocks, NUMBER));
    for block in blocks.chunks_exact_mut(BLOCK_BYTES) {
        set_word(block, NUMBER, number);
        set_check(block);
    }
}

fn set_length(blocks: &mut [u8], index: usize, length: u64) {
    let block = block_mut(blocks, index);
    set_word(block, LENGTH, length);
    set_check(block);
}

/// Half of the time the bytes that a length of 504 or less leaves out become 0, so that only the length may be wrong.
fn set_length_alone(rng: &mut Rng, blocks: &mut [u8], index: usize, length: u64) {
    if rng.one_in(2) {
        block_mut(blocks, index)[FIELDS + length as usize..CHECKED].fill(0);
    }
    set_length(blocks, index, length);
}

/// A length below 504 in a block but the last.
fn not_full(rng: &mut Rng, blocks: &mut Vec<u8>) {
    if count(blocks) > 1 {
        let (index, any) = (any_index(rng, count(blocks) - 1), rng.within(0, 503));
        let length = rng.pick(&[0, 1, 3, 4, 503, any]);
        set_length_alone(rng, blocks, index, length);
    }
}

/// A length above 504, also one with the low bits of the own.
fn above(rng: &mut Rng, own: u64) -> u64 {
    let any = rng.within(505, 65_535);
    rng.pick(&[505, 506, 512, own + 512, own + 1024, own + 32_768, 65_535, any])
}

/// A length above 504 in a block but the last.
fn above_full(rng: &mut Rng, blocks: &mut Vec<u8>) {
    if count(blocks) > 1 {
        let index = any_index(rng, count(blocks) - 1);
        set_length(blocks, index, above(rng, 504));
    }
}

fn last_above_full(rng: &mut Rng, blocks: &mut Vec<u8>) {
    if let Some((last, own)) = last_with(blocks, 0..=504) {
        set_length(blocks, last, above(rng, own));
    }
}

fn last_empty(rng: &mut Rng, blocks: &mut Vec<u8>) {
    if let Some((last, _)) = last_with(blocks, 0..=65_535) {
        set_length_alone(rng, blocks, last, 0);
    }
}

/// The last block and its length, if that is one of `lengths`.
fn last_with(blocks: &[u8], lengths: RangeInclusive<u64>) -> Option<(usize, u64)> {
    let last = count(blocks).checked_sub(1)?;
    let own = word(&blocks[BLOCK_BYTES * last..], LENGTH);
    lengths.contains(&own).then_some((last, own))
}

/// The last block's length takes in padding, which is right; the record's own length is not.
fn last_longer(rng: &mut Rng, blocks: &mut Vec<u8>) {
    if let Some((last, own)) = last_with(blocks, 1..=503) {
        let any = rng.within(own + 1, 504);
        set_length(blocks, last, rng.pick(&[own + 1, 503.max(own + 1), 504, any]));
    }
}

/// A length of 1 or more that is less than the last block's own.
fn shorter(rng: &mut Rng, blocks: &[u8]) -> Option<(usize, u64)> {
    let (last, own) = last_with(blocks, 2..=504)?;
    let any = rng.within(1, own - 1);
    Some((last, rng.pick(&[1, 3.min(own - 1), own - 1, any])))
}

/// The last block's length leaves out bytes of its payload that are not all 0.
fn last_shorter(rng: &mut Rng, blocks: &mut Vec<u8>) {
    if let Some((last, length)) = shorter(rng, blocks) {
        let block = block_mut(blocks, last);
        let own = word(block, LENGTH) as usize;
        block[FIELDS + own - 1] |= 1;
        set_length(blocks, last, length);
    }
}

/// The last block's length leaves out bytes that are 0, which is right; the record's own length is not.
fn zeros_shorter(rng: &mut Rng, blocks: &mut Vec<u8>) {
    if let Some((last, length)) = shorter(rng, blocks) {
        block_mut(blocks, last)[FIELDS + length as usize..CHECKED].fill(0);
        set_length(blocks, last, length);
    }
}

/// A byte behind the last one used: the first, the last or any.
fn padding(rng: &mut Rng, blocks: &mut Vec<u8>) {
    if let Some((last, own)) = last_with(blocks, 0..=503) {
        let at = rng.within(FIELDS as u64 + own, CHECKED as u64 - 1) as usize;
        let block = block_mut(blocks, last);
        block[at] = other_byte(rng, 0);
        set_check(block);
    }
}

// Blocks that are missing, out of place or in part.

/// Not the last one.
fn dropped(rng: &mut Rng, blocks: &mut Vec<u8>) {
    if count(blocks) > 1 {
        let index = any_index(rng, count(blocks) - 1);
        blocks.drain(BLOCK_BYTES * index..BLOCK_BYTES * (index + 1));
    }
}

/// What is left ends with a full block, so that only the record's own length is wrong.
fn last_dropped(_: &mut Rng, blocks: &mut Vec<u8>) {
    let last = count(blocks).saturating_sub(1);
    blocks.truncate(BLOCK_BYTES * last);
}

/// A block stands twice: the second time behind the first, or behind all.
fn doubled(rng: &mut Rng, blocks: &mut Vec<u8>) {
    if count(blocks) == 0 {
        return;
    }
    let index = any_index(rng, count(blocks));
    let block = block_mut(blocks, index).to_vec();
    let place = BLOCK_BYTES * if rng.one_in(2) { index + 1 } else { count(blocks) };
    blocks.splice(place..place, block);
}

fn swapped(rng: &mut Rng, blocks: &mut Vec<u8>) {
    if let Some([low, high]) = any_pair(rng, count(blocks)) {
        let (before, behind) = blocks.split_at_mut(BLOCK_BYTES * high);
        block_mut(before, low).swap_with_slice(block_mut(behind, 0));
    }
}

/// Bytes behind the blocks that are none: zeros, any, or those of the blocks' start.
fn part(rng: &mut Rng, blocks: &mut Vec<u8>) {
    let length = rng.within(1, BLOCK_BYTES as u64 - 1) as usize;
    let tail = match rng.next() % 3 {
        0 => vec![0; length],
        1 => rng.bytes(length),
        _ => blocks.iter().copied().take(length).collect(),
    };
    blocks.extend(tail);
}

/// The blocks end within one of them.
fn cut_within(rng: &mut Rng, blocks: &mut Vec<u8>) {
    if count(blocks) > 0 {
        let index = any_index(rng, count(blocks));
        blocks.truncate(BLOCK_BYTES * index + rng.within(1, BLOCK_BYTES as u64 - 1) as usize);
    }
}

/// Block 0 alone, with only the first bytes of its payload, and the number that they give it.
fn lone(rng: &mut Rng, blocks: &mut Vec<u8>, lengths: &[u64]) {
    if count(blocks) == 0 {
        return;
    }
    let length = rng.pick(lengths);
    blocks.truncate(BLOCK_BYTES);
    blocks[FIELDS + length as usize..].fill(0);
    let number = word(blocks, WORD_2);
    set_word(blocks, NUMBER, number);
    set_length(blocks, 0, length);
}
