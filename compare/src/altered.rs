//! Values and cells that no history left, for the consistency test, whose answer FORMAT ("The index of seconds") states on any:
//! another F, C or R than opening returned, with buffers that hold as many cells, and cells altered within the R and C given, or
//! beyond them.

use crate::cells::{block, place, seconds_from, SECOND_CELL};
use odr::CELLS;
use second::book::Opening;
use second::gen::Rng;

const DAY: u64 = 86_400;
const HIGHEST: u64 = 65_535;

/// What a test is given.
pub struct Altered {
    pub given: Opening,
    pub rows: Vec<u32>,
    pub seconds: Vec<u32>,
}

/// A number near this one, from `low` to `high`; at an end perhaps the same.
fn near(rng: &mut Rng, number: u64, low: u64, high: u64) -> u64 {
    let step = rng.within(1, 4);
    let near = if rng.one_in(2) { number.saturating_sub(step) } else { number + step };
    near.clamp(low, high)
}

/// What a cell may hold: any number, so that sums pass 2^32, an end, or a small one.
fn any_cell(rng: &mut Rng) -> u32 {
    let (any, small) = (rng.next() as u32, (rng.next() % 1000) as u32);
    rng.pick(&[any, any, small, 0, 1, u32::MAX])
}

/// A row or a second beyond those that a history had: most often 0, else anything, where half of the time the first cell is 0, so
/// that a row is not held.
fn new_block(rng: &mut Rng) -> [u32; CELLS] {
    let mut block = [0; CELLS];
    if rng.one_in(4) {
        block = block.map(|_| any_cell(rng));
        block[0] *= (rng.next() % 2) as u32;
    }
    block
}

/// Gives a buffer of `now` rows or seconds those that `then` has more, and sometimes cells beyond them. Fewer need no other buffer.
fn lengthen(rng: &mut Rng, cells: &mut Vec<u32>, now: u64, then: u64) {
    if then > now {
        cells.truncate(block(now).start);
        (now..then).for_each(|_| cells.extend(new_block(rng)));
        let spare = rng.pick(&[0, 0, 1, 25]);
        cells.extend((0..spare).map(|_| any_cell(rng)));
    }
}

impl Altered {
    /// Gives another F, C or R, or several of them: none that 13 refuses, and cells enough for 14.
    pub fn limits(&mut self, rng: &mut Rng) {
        let Opening { first_second: first, count, highest, .. } = self.given;
        let which = rng.pick(&[1, 1, 2, 2, 4, 4, 3, 5, 6, 7]);
        if which & 1 == 1 {
            self.given.highest = near(rng, highest, 1, HIGHEST);
            lengthen(rng, &mut self.rows, highest, self.given.highest);
        }
        if which & 2 == 2 {
            self.given.count = near(rng, count, 1, DAY - first);
            lengthen(rng, &mut self.seconds, count, self.given.count);
        }
        if which & 4 == 4 {
            let last = DAY - self.given.count;
            let (near, any) = (near(rng, first, 0, last), rng.within(0, last));
            self.given.first_second = rng.pick(&[near, near, near, any]);
        }
    }

    /// Alters cells beyond the rows and seconds given, which no answer turns on.
    pub fn beyond(&mut self, rng: &mut Rng) {
        let ends = [self.given.highest, self.given.count].map(|blocks| block(blocks).start);
        for (cells, end) in [&mut self.rows, &mut self.seconds].into_iter().zip(ends) {
            cells.resize(cells.len().max(end + rng.pick(&[1, 23, 24, 48])), 0);
            cells[end..].iter_mut().take(2 * CELLS).for_each(|cell| *cell = any_cell(rng));
        }
    }

    /// Alters some cells of the rows and seconds given. Half of the time the second cells then become those that the rows give, in
    /// half of these with every row's second inside the window, so that the answer is yes; in a quarter one more cell is altered.
    pub fn within(&mut self, rng: &mut Rng) {
        (0..rng.within(1, 3)).for_each(|_| self.alter(rng));
        if rng.one_in(2) {
            if rng.one_in(2) {
                self.rows_into_window(rng);
            }
            let right = seconds_from(&self.given, &self.rows);
            self.seconds[..right.len()].copy_from_slice(&right);
            if rng.one_in(4) {
                self.alter(rng);
            }
        }
    }

    /// A row, counted from 0: a held one half of the time, if any is.
    fn any_row(&self, rng: &mut Rng) -> u64 {
        let any = rng.within(0, self.given.highest - 1);
        let held: Vec<u64> = (0..self.given.highest).filter(|&i| self.rows[block(i).start] != 0).collect();
        if held.is_empty() || rng.one_in(2) { any } else { rng.pick(&held) }
    }

    fn second_in_window(&self, rng: &mut Rng) -> u32 {
        (self.given.first_second + rng.within(0, self.given.count - 1)) as u32
    }

    fn alter(&mut self, rng: &mut Rng) {
        let Opening { first_second: first, count, .. } = self.given;
        let (row, other, inside) = (self.any_row(rng), self.any_row(rng), self.second_in_window(rng));
        let (start, end) = (block(row).start, first + count);
        match rng.next() % 6 {
            // A row's second at an end of the window, beside it, or with the low bits of one in it.
            0 => {
                let near = [first.wrapping_sub(1), first, end - 1, end, end + 65_535, u64::MAX];
                self.rows[start + SECOND_CELL] = rng.pick(&near) as u32;
            }
            1 => self.rows[start + rng.next() as usize % CELLS] = any_cell(rng),
            // A held row that holds anything else.
            2 => {
                self.rows[block(row)].fill_with(|| any_cell(rng));
                self.rows[start] |= 1;
                self.rows[start + SECOND_CELL] = inside;
            }
            // Rows that change places give the same seconds.
            3 => (0..CELLS).for_each(|j| self.rows.swap(start + j, block(other).start + j)),
            _ => {
                let at = rng.within(0, block(count).start as u64 - 1) as usize;
                self.seconds[at] = self.seconds[at].wrapping_add(1 + rng.next() as u32 % 1000);
            }
        }
    }

    /// Gives every row whose second is outside the window one inside.
    fn rows_into_window(&mut self, rng: &mut Rng) {
        for i in 0..self.given.highest {
            if place(&self.given, &self.rows[block(i)]).is_none() {
                self.rows[block(i).start + SECOND_CELL] = self.second_in_window(rng);
            }
        }
    }
}
