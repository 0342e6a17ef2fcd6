//! FORMAT, "The reel": one step of the walk.

use crate::edition::edition_of;
use crate::record::accept;
use std::ops::Range;

#[derive(Clone, Debug, PartialEq, Eq)]
pub enum Step {
    Finished,
    Record { bytes: Range<usize>, next: usize },
    Refused(u8),
}

pub fn step(edition: u64, reel: &[u8], place: usize) -> Step {
    let header_words = match edition_of(edition) {
        Ok(edition) => edition.header_words,
        Err(number) => return Step::Refused(number),
    };
    if place >= reel.len() {
        return Step::Finished;
    }
    let left = &reel[place..];
    if left.len() < 2 * header_words {
        return Step::Refused(1);
    }
    let words = usize::from(u16::from_be_bytes([left[4], left[5]]));
    if words < header_words {
        return Step::Refused(1);
    }
    if 2 * words > left.len() {
        return Step::Refused(2);
    }
    match accept(edition, &left[..2 * words]) {
        Ok(()) => Step::Record { bytes: place..place + 2 * words, next: place + 2 * words },
        Err(number) => Step::Refused(number),
    }
}
