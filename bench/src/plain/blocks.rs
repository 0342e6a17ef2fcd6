//! A record of 1985 cut into blocks of 512 bytes, and put together again. FORMAT: "Blocks".

use super::header::{accept, accept_start};

pub const BLOCK: usize = 512;
pub const PAYLOAD: usize = 504;
/// Record number, index and length stand before the payload, two bytes each.
const FIELDS: usize = 6;
/// The bytes before the check.
const CHECKED: usize = FIELDS + PAYLOAD;

/// The check of a block: its bytes, each times its place from 1 on, modulo 65,521. The sum is below 2^25.
pub fn check(block: &[u8]) -> u16 {
    let sum: u32 = block[..CHECKED].iter().zip(1..).map(|(&byte, place)| u32::from(byte) * place).sum();
    (sum % 65_521) as u16
}

/// The number of two bytes at a place.
fn two_bytes(block: &[u8], at: usize) -> u16 {
    u16::from_be_bytes([block[at], block[at + 1]])
}

fn set_two_bytes(block: &mut [u8], at: usize, value: u16) {
    block[at..at + 2].copy_from_slice(&value.to_be_bytes());
}

fn write_block(block: &mut [u8], number: u16, index: usize, payload: &[u8]) {
    set_two_bytes(block, 0, number);
    set_two_bytes(block, 2, index as u16);
    set_two_bytes(block, 4, payload.len() as u16);
    let (used, rest) = block[FIELDS..CHECKED].split_at_mut(payload.len());
    used.copy_from_slice(payload);
    rest.fill(0);
    set_two_bytes(block, CHECKED, check(block));
}

/// The blocks of any bytes, whether they are a record or not; `out` has just their length.
#[inline]
pub fn cut(number: u16, bytes: &[u8], out: &mut [u8]) {
    for (index, (payload, block)) in bytes.chunks(PAYLOAD).zip(out.chunks_exact_mut(BLOCK)).enumerate() {
        write_block(block, number, index, payload);
    }
}

#[inline(never)]
pub fn export(record: &[u8], out: &mut [u8]) -> Result<usize, u8> {
    accept(record)?;
    let length = BLOCK * record.len().div_ceil(PAYLOAD);
    let out = out.get_mut(..length).ok_or(21)?;
    cut(two_bytes(record, 2), record, out);
    Ok(length)
}

/// The bytes that blocks carry, where there are some, all are whole, and their lengths, numbers, indices and padding are right.
fn carried(blocks: &[u8]) -> Option<usize> {
    if blocks.is_empty() || blocks.len() % BLOCK != 0 {
        return None;
    }
    let last = blocks.len() / BLOCK - 1;
    let number = two_bytes(blocks, FIELDS + 2);
    let mut length = 0;
    for (index, block) in blocks.chunks_exact(BLOCK).enumerate() {
        let used = usize::from(two_bytes(block, 4));
        let least = match index {
            _ if index < last => PAYLOAD,
            0 => 4,
            _ => 1,
        };
        if used < least || used > PAYLOAD || two_bytes(block, 0) != number || usize::from(two_bytes(block, 2)) != index {
            return None;
        }
        // All bytes joined, and not up to the first that is not 0: the compiler has vector instructions for that.
        if block[FIELDS + used..CHECKED].iter().fold(0, |all, &byte| all | byte) != 0 {
            return None;
        }
        length += used;
    }
    Some(length)
}

#[inline(never)]
pub fn import(blocks: &[u8], out: &mut [u8]) -> Result<usize, u8> {
    if blocks.chunks_exact(BLOCK).any(|block| two_bytes(block, CHECKED) != check(block)) {
        return Err(27);
    }
    let length = carried(blocks).ok_or(28)?;
    accept_start(&blocks[FIELDS..][..length.min(PAYLOAD)], length)?;
    let out = out.get_mut(..length).ok_or(21)?;
    for (block, part) in blocks.chunks_exact(BLOCK).zip(out.chunks_mut(PAYLOAD)) {
        part.copy_from_slice(&block[FIELDS..][..part.len()]);
    }
    Ok(length)
}
