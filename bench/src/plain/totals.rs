//! Totals of the four channels of a record of 1985. FORMAT: "The index of seconds". It is the work of the library's call:
//! acceptance, then one pass over the record's own stretch of samples.

use super::header::{accept, HEADER};

#[derive(Clone, Copy, Debug, Default, PartialEq, Eq)]
pub struct Total {
    pub sum: i64,
    pub squares: u64,
    pub least: i8,
    pub greatest: i8,
    pub clipped: u32,
}

/// Four bytes a set of samples, of which an accepted record has 100 or more.
#[inline(never)]
pub fn totals(record: &[u8]) -> Result<[Total; 4], u8> {
    let count = accept(record)?;
    let mut totals = [Total { sum: 0, squares: 0, least: i8::MAX, greatest: i8::MIN, clipped: 0 }; 4];
    for set in record[HEADER..HEADER + 4 * count].chunks_exact(4) {
        for (total, &byte) in totals.iter_mut().zip(set) {
            let sample = byte as i8;
            total.sum += i64::from(sample);
            total.squares += (i64::from(sample) * i64::from(sample)) as u64;
            total.least = total.least.min(sample);
            total.greatest = total.greatest.max(sample);
            total.clipped += u32::from(sample == i8::MIN || sample == i8::MAX);
        }
    }
    Ok(totals)
}
