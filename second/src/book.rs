//! FORMAT, "The index of seconds" and "The ledger": records held by number, every answer worked out from nothing.

use crate::edition::{edition_of, Rate};
use crate::header::Header;
use crate::record::{is_date, read_header};
use crate::samples::{channels, means, total, Means, Total};
use std::collections::BTreeMap;

/// The cells of a row, and of a second.
pub const CELLS: u64 = 24;

/// What opening returns: the limits given, the edition named and the pattern's values, which 15 compares.
#[derive(Clone, Debug, PartialEq, Eq)]
pub struct Opening {
    pub first_second: u64,
    pub count: u64,
    pub highest: u64,
    pub edition: u64,
    pub rate: u64,
    pub year: u64,
    pub day: u64,
    pub tape: u64,
    pub spacecraft: u64,
    pub spc: u64,
}

#[derive(Clone, Debug, Default, PartialEq, Eq)]
pub struct SecondTotals {
    pub records: u64,
    pub origins: u64,
    pub errors: u64,
    pub channels: [Total; 4],
    pub kept: bool,
}

#[derive(Clone, Debug, Default, PartialEq, Eq)]
pub struct Ledger {
    pub records: BTreeMap<u16, Vec<u8>>,
}

/// 13, then 14.
fn judge(o: &Opening, row_cells_len: usize, second_cells_len: usize) -> Result<(), u8> {
    let limits = (1..=65_535).contains(&o.highest)
        && (1..=86_400).contains(&o.count)
        && o.first_second <= 86_400 - o.count;
    let pattern = o.rate().is_ok() && o.tape != 0 && is_date(o.year, o.day);
    if !limits || !pattern {
        return Err(13);
    }
    if (row_cells_len as u64) < CELLS * o.highest || (second_cells_len as u64) < CELLS * o.count {
        return Err(14);
    }
    Ok(())
}

pub fn open(
    edition: u64,
    pattern: &[u8],
    first_second: u64,
    count: u64,
    highest: u64,
    row_cells_len: usize,
    second_cells_len: usize,
) -> Result<Opening, u8> {
    let h = read_header(edition, pattern)?;
    let opening = Opening {
        first_second,
        count,
        highest,
        edition,
        rate: h.sample_rate_hz,
        year: h.year,
        day: h.day,
        tape: h.tape_number,
        spacecraft: h.spacecraft,
        spc: h.spc,
    };
    judge(&opening, row_cells_len, second_cells_len)?;
    Ok(opening)
}

impl Opening {
    /// The held rate's row in the held edition's table.
    fn rate(&self) -> Result<Rate, u8> {
        edition_of(self.edition)?.rate(self.rate)
    }

    fn same_reel(&self, h: &Header) -> bool {
        self.edition == h.edition().number
            && (self.rate, self.year, self.day) == (h.sample_rate_hz, h.year, h.day)
            && (self.tape, self.spacecraft, self.spc) == (h.tape_number, h.spacecraft, h.spc)
    }

    fn window(&self, second: u64) -> Result<(), u8> {
        let window = self.first_second..self.first_second + self.count;
        if window.contains(&second) { Ok(()) } else { Err(17) }
    }

    fn number(&self, number: u64) -> Result<u16, u8> {
        if (1..=self.highest).contains(&number) { u16::try_from(number).map_err(|_| 16) } else { Err(16) }
    }

    fn full(&self) -> u64 {
        self.rate().map_or(0, |rate| rate.records_a_second)
    }
}

impl Ledger {
    /// The held records of a second, which are of the opening's edition: number, header, bytes.
    fn of_second(&self, o: &Opening, second: u64) -> Vec<(u16, Header, &[u8])> {
        self.records
            .iter()
            .filter_map(|(&number, bytes)| Some((number, read_header(o.edition, bytes).ok()?, bytes.as_slice())))
            .filter(|(_, h, _)| h.time_tag_ms / 1000 == second)
            .collect()
    }

    /// Puts a record of the edition named.
    pub fn put(
        &mut self,
        o: &Opening,
        edition: u64,
        record: &[u8],
        row_cells_len: usize,
        second_cells_len: usize,
    ) -> Result<(), u8> {
        let h = read_header(edition, record)?;
        judge(o, row_cells_len, second_cells_len)?;
        if !o.same_reel(&h) {
            return Err(15);
        }
        let number = o.number(h.record_number)?;
        let second = h.time_tag_ms / 1000;
        o.window(second)?;
        let others = self.of_second(o, second).iter().filter(|held| held.0 != number).count();
        if others as u64 >= o.full() {
            return Err(18);
        }
        self.records.insert(number, record.to_vec());
        Ok(())
    }

    pub fn take_out(&mut self, o: &Opening, number: u64, row_cells_len: usize, second_cells_len: usize) -> Result<(), u8> {
        judge(o, row_cells_len, second_cells_len)?;
        let number = o.number(number)?;
        self.records.remove(&number).map(|_| ()).ok_or(19)
    }

    /// Every sample of each channel in a second's held records.
    fn samples(&self, o: &Opening, second: u64) -> Result<[Vec<i8>; 4], u8> {
        let mut samples: [Vec<i8>; 4] = Default::default();
        for (_, _, bytes) in self.of_second(o, second) {
            for (all, more) in samples.iter_mut().zip(channels(o.edition, bytes)?) {
                all.extend(more);
            }
        }
        Ok(samples)
    }

    pub fn ask(&self, o: &Opening, second: u64, row_cells_len: usize, second_cells_len: usize) -> Result<SecondTotals, u8> {
        judge(o, row_cells_len, second_cells_len)?;
        o.window(second)?;
        let held = self.of_second(o, second);
        let records = held.len() as u64;
        let origins = held.iter().filter(|(_, h, _)| h.clock_origin == 1).count() as u64;
        let errors = held.iter().filter(|(_, h, _)| h.copy_error == 1).count() as u64;
        let kept = records == o.full() && origins >= 1 && errors == 0;
        let channels = self.samples(o, second)?.map(|samples| total(&samples));
        Ok(SecondTotals { records, origins, errors, channels, kept })
    }

    /// The means of each channel over the samples that the second's held records have: asked as the totals are.
    pub fn means(&self, o: &Opening, second: u64, row_cells_len: usize, second_cells_len: usize) -> Result<[Means; 4], u8> {
        judge(o, row_cells_len, second_cells_len)?;
        o.window(second)?;
        Ok(self.samples(o, second)?.map(|samples| means(total(&samples), samples.len() as u64)))
    }

    /// The ledger's book test: yes, but for 13 and 14.
    pub fn book_test(&self, o: &Opening, row_cells_len: usize, second_cells_len: usize) -> Result<bool, u8> {
        judge(o, row_cells_len, second_cells_len)?;
        Ok(true)
    }
}
