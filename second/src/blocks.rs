//! FORMAT, "Blocks": a record cut into blocks of 512 bytes for delivery, and put together again.

use crate::bits::bits;
use crate::edition::edition_of;
use crate::lister::put_text;
use crate::record::accept;

pub const BLOCK: usize = 512;
/// The payload of a full block; record number, index and length stand before it.
pub const PAYLOAD: usize = 504;
const FIELDS: usize = 6;
/// The bytes that the check is of, and behind which it stands.
const CHECKED: usize = FIELDS + PAYLOAD;

/// The check of a block by its first 510 bytes, 0 to 65,520.
pub fn check(block: &[u8]) -> u64 {
    (1..).zip(&block[..CHECKED]).map(|(place, &byte): (u64, _)| place * u64::from(byte)).sum::<u64>() % 65_521
}

/// The index of the first whole block whose check is bad. What stands behind the last whole block is not looked at.
pub fn bad_block(blocks: &[u8]) -> Option<usize> {
    blocks.chunks_exact(BLOCK).position(|block| bits(block, 256, 1, 16) != check(block))
}

fn block(number: [u8; 2], index: u16, payload: &[u8]) -> Vec<u8> {
    let mut block = [number, index.to_be_bytes(), (payload.len() as u16).to_be_bytes()].concat();
    block.extend(payload);
    block.resize(CHECKED, 0);
    let check = check(&block) as u16;
    block.extend(check.to_be_bytes());
    block
}

/// The blocks of any bytes, accepted or not: none where they have no word 2, or more blocks than two bytes of index count.
pub fn cut(record: &[u8]) -> Option<Vec<u8>> {
    let number = [*record.get(2)?, *record.get(3)?];
    let mut blocks = Vec::new();
    for (index, payload) in record.chunks(PAYLOAD).enumerate() {
        blocks.extend(block(number, u16::try_from(index).ok()?, payload));
    }
    Some(blocks)
}

/// The payloads of whole blocks, one after the other: none where a length is above 504.
pub fn joined(blocks: &[u8]) -> Option<Vec<u8>> {
    let mut record = Vec::new();
    for block in blocks.chunks_exact(BLOCK) {
        record.extend(block[FIELDS..CHECKED].get(..bits(block, 3, 1, 16) as usize)?);
    }
    Some(record)
}

/// The blocks of an accepted record, which always has some.
fn blocks(edition: u64, record: &[u8]) -> Result<Vec<u8>, u8> {
    accept(edition, record)?;
    cut(record).ok_or(28)
}

/// Puts the blocks of a record into a lent buffer and gives their length: 25, 1 to 11, then 21.
pub fn export(edition: u64, record: &[u8], buffer: &mut [u8]) -> Result<usize, u8> {
    put_text(buffer, &blocks(edition, record)?)
}

/// As `export`, but only the block of an index, counted from 0: 28 where there is none, before 21.
pub fn export_block(edition: u64, record: &[u8], index: usize, buffer: &mut [u8]) -> Result<usize, u8> {
    let blocks = blocks(edition, record)?;
    put_text(buffer, blocks.chunks(BLOCK).nth(index).ok_or(28)?)
}

/// Puts the record that blocks carry into a lent buffer and gives its length. What 28 refuses is told by cutting the record again:
/// blocks that are missing, in part, or with another length, number, index or padding, are not the ones that come out.
pub fn import(edition: u64, blocks: &[u8], buffer: &mut [u8]) -> Result<usize, u8> {
    edition_of(edition)?;
    if bad_block(blocks).is_some() {
        return Err(27);
    }
    let record = joined(blocks).filter(|record| cut(record).as_deref() == Some(blocks)).ok_or(28)?;
    accept(edition, &record)?;
    put_text(buffer, &record)
}
