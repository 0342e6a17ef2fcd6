//! FORMAT, "Monitor segments".

use crate::edition::edition_of;
use crate::record::record_rate;

/// Segment number, first and last monitor word; the order is that of the status bits.
pub const SEGMENTS: [(u64, usize, usize); 7] =
    [(7, 6, 50), (5, 51, 63), (2, 64, 78), (6, 79, 93), (10, 94, 108), (4, 109, 128), (8, 129, 148)];

pub fn segment(edition: u64, this: &[u8], earlier: &[u8], number: u64) -> Result<Vec<u8>, u8> {
    let this_n = record_rate(edition, this)?.n as usize;
    let earlier_n = record_rate(edition, earlier)?.n as usize;
    if !edition_of(edition)?.has_segments {
        return Err(26);
    }
    let at = SEGMENTS.iter().position(|segment| segment.0 == number).ok_or(20)?;
    let (_, first, last) = SEGMENTS[at];
    for (record, n) in [(this, this_n), (earlier, earlier_n)] {
        if record[2 * n] >> (7 - at) & 1 == 1 {
            return Ok(record[2 * (n + first - 1)..2 * (n + last)].to_vec());
        }
    }
    Err(23)
}
