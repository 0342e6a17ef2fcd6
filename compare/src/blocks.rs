//! Calls on blocks. FORMAT, "Blocks": export, import, one block and the first with a bad check.

use crate::altered_blocks::any_blocks;
use crate::lent::{around, Lent};
use crate::records::{any_edition, any_record, made_for, outcome};
use crate::run::{answer, named, Run};
use odr::{BadBlockAnswer, LengthAnswer, BLOCK_BYTES, PAYLOAD_BYTES};
use second::blocks::{self, cut, joined};
use second::edition::EDITION_1985;
use second::gen::{self, set_check, Rng};
use second::lister::put_text;

/// Compares a call that puts bytes into a buffer of so many that hold anything. `outcome` names that of an answer's number; it
/// gives the library's number and what it wrote.
fn put(
    run: &mut Run,
    (call, outcome): (&str, impl Fn(u8) -> String),
    (input, room): (&[u8], usize),
    second: impl Fn(&[u8], &mut [u8]) -> Result<usize, u8>,
    library: impl Fn(&[u8], &mut [u8]) -> LengthAnswer,
) -> (u8, Vec<u8>) {
    let mut input = Lent::of(input);
    let mut buffer = Lent::random(&mut run.rng, room);
    let mut after = buffer.body().to_vec();
    let expected = answer(&second(input.body(), &mut after), |&length| LengthAnswer { refusal: 0, length });
    let actual = library(input.body(), buffer.body_mut());
    let parts = [("input", input.difference()), ("buffer", buffer.check(&after))];
    run.compare(call, &outcome(expected.refusal), actual, expected, &parts);
    (actual.refusal, buffer.body()[..actual.length].to_vec())
}

/// The outcome of a call that a record gives this number, where the buffer is too short or not: 21 is the last one to be judged.
fn outcome_in(short: bool, edition: u64, record: &[u8], number: u8) -> String {
    if short && ![0, 21].contains(&number) { named(edition, "short ", number) } else { outcome(edition, record, number) }
}

/// Export, and of what it wrote import, which gives the record again.
pub fn export(run: &mut Run) {
    let (edition, record) = any_record(&mut run.rng);
    let record = record.body();
    let needed = BLOCK_BYTES * record.len().div_ceil(PAYLOAD_BYTES);
    let room = around(&mut run.rng, needed);
    let outcome = |number| outcome_in(room < needed, edition, record, number);
    let second = |record: &[u8], out: &mut [u8]| blocks::export(edition, record, out);
    let library = |record: &[u8], out: &mut [u8]| odr::export(edition, record, out);
    let (refusal, written) = put(run, ("odr_export", outcome), (record, room), second, library);
    if refusal == 0 {
        let outcome = |number| named(edition, "exported ", number);
        let library = |blocks: &[u8], out: &mut [u8]| odr::import(edition, blocks, out);
        put(run, ("odr_import", outcome), (&written, record.len()), |_, out| put_text(out, record), library);
    }
}

/// A block's index: of one of `count`, the one behind the last, or one whose low bits are those of a block that is there, or those
/// of its place in the blocks or in the record.
fn any_index(rng: &mut Rng, count: usize) -> usize {
    let any = rng.within(0, count as u64 - 1) as usize;
    let far = rng.pick(&[count + 1, any + 256, any + 65_536, any + (1 << 32), any + (1 << 55), any + (1 << 61), usize::MAX]);
    rng.pick(&[0, any, any, any, count - 1, count, count, far])
}

pub fn export_block(run: &mut Run) {
    let (edition, record) = any_record(&mut run.rng);
    let record = record.body();
    let count = record.len().div_ceil(PAYLOAD_BYTES);
    let (index, room) = (any_index(&mut run.rng, count.max(1)), around(&mut run.rng, BLOCK_BYTES));
    let outcome = |number| match number {
        28 if room >= BLOCK_BYTES => named(edition, if index == count { "one past " } else { "far past " }, number),
        _ => outcome_in(room < BLOCK_BYTES, edition, record, number),
    };
    let second = |record: &[u8], out: &mut [u8]| blocks::export_block(edition, record, index, out);
    let library = |record: &[u8], out: &mut [u8]| odr::export_block(edition, record, index, out);
    let (refusal, _) = put(run, ("odr_export_block", outcome), (record, room), second, library);
    if refusal == 0 {
        run.met_besides("odr_export_block", &format!("{edition} block {index}"));
        if index + 1 == count {
            run.met_besides("odr_export_block", &format!("{edition} last block"));
        }
    }
}

/// The bytes of the record that blocks carry, or all of theirs where a length is none.
fn carried(blocks: &[u8]) -> usize {
    joined(blocks).map_or(blocks.len(), |record| record.len())
}

/// The outcome of an import: `words` are those of blocks that were altered in one way, and decide.
fn import_outcome(words: &str, short: bool, edition: u64, blocks: &[u8], number: u8) -> String {
    match number {
        25 if blocks.is_empty() => named(edition, "no block ", number),
        25 if blocks::bad_block(blocks).is_some() => named(edition, "bad check ", number),
        25 => named(edition, "", number),
        _ if words.is_empty() => outcome_in(short, edition, &joined(blocks).unwrap_or_default(), number),
        _ => named(edition, words, number),
    }
}

/// Import of blocks as a record of the edition named; the first one with a bad check, which there is exactly where the answer is
/// 27; and of an accepted record export, which gives the blocks again.
fn import_into(run: &mut Run, room: usize, edition: u64, words: &str, given: &[u8]) {
    let outcome = |number| import_outcome(words, room < carried(given), edition, given, number);
    let second = |blocks: &[u8], out: &mut [u8]| blocks::import(edition, blocks, out);
    let library = |blocks: &[u8], out: &mut [u8]| odr::import(edition, blocks, out);
    let (refusal, record) = put(run, ("odr_import", outcome), (given, room), second, library);
    bad_block(run, given, if refusal == 25 { None } else { Some(refusal == 27) });
    if refusal == 0 {
        let outcome = |number| named(edition, "imported ", number);
        let library = |record: &[u8], out: &mut [u8]| odr::export(edition, record, out);
        put(run, ("odr_export", outcome), (&record, given.len()), |_, out| put_text(out, given), library);
    }
}

pub fn import(run: &mut Run) {
    let edition = any_edition(&mut run.rng);
    let made = made_for(&mut run.rng, edition);
    let (words, given) = any_blocks(&mut run.rng, made);
    let needed = carried(&given);
    let room = around(&mut run.rng, needed);
    import_into(run, room, edition, if room < needed { "" } else { words }, &given);
}

/// The first block with a bad check, or none; `told` is whether import told that there is one, if it did.
fn bad_block(run: &mut Run, given: &[u8], told: Option<bool>) {
    let found = blocks::bad_block(given);
    let part = given.len() % BLOCK_BYTES != 0;
    let outcome = match found {
        None if given.len() < BLOCK_BYTES => "no block none".to_string(),
        None => if part { "part none".to_string() } else { "none".to_string() },
        Some(_) if part => "part found".to_string(),
        Some(index) if index > 8 => "found later".to_string(),
        Some(index) => format!("found {index}"),
    };
    let expected = BadBlockAnswer { found: found.is_some(), index: found.unwrap_or(0) };
    let mut lent = Lent::of(given);
    let actual = odr::bad_block(lent.body());
    let apart = told.filter(|&told| told != actual.found).map(|_| "not as import tells".to_string());
    run.compare("odr_bad_block", &outcome, actual, expected, &[("blocks", lent.difference()), ("27", apart)]);
}

/// As many blocks as there are indices, and one more, whose index cannot be right, with a right check and with a bad one; no room.
pub fn most_blocks(run: &mut Run) {
    let edition = &EDITION_1985;
    let mut record = gen::record(&mut run.rng, edition);
    record.resize(PAYLOAD_BYTES << 16, 0);
    let mut blocks = cut(&record).expect("an index for each block");
    import_into(run, 0, edition.number, "65536 blocks ", &blocks);
    // Like the last one, with the low bits of the index that it would have.
    blocks.extend_from_within(BLOCK_BYTES * 65_535..);
    let last = &mut blocks[BLOCK_BYTES << 16..];
    last[2..4].fill(0);
    set_check(last);
    import_into(run, 0, edition.number, "65537 blocks ", &blocks);
    blocks[BLOCK_BYTES << 16] ^= 1;
    import_into(run, 0, edition.number, "65537 blocks ", &blocks);
}
