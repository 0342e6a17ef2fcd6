//! The consistency test on any cells: FORMAT's sentence of it and its table of cells ("The index of seconds"), worked out by one
//! pass over the rows. It takes the opening's value and the cells and nothing of a history.

use odr::CELLS;
use second::book::Opening;
use std::ops::Range;

/// The cell of a row that holds its second.
pub const SECOND_CELL: usize = 3;

/// The cells of a second that hold the greatest of its rows' cells: the second, and of channel c (1 to 4) those at 5c - 1 and
/// 5c + 3. The others hold sums.
const GREATEST: [usize; 9] = [SECOND_CELL, 4, 8, 9, 13, 14, 18, 19, 23];

/// The cells of row or second `i`, counted from 0.
pub fn block(i: u64) -> Range<usize> {
    CELLS * i as usize..CELLS * (i as usize + 1)
}

/// The rows of numbers 1 to R that are held: those whose first cell is not 0.
fn held<'a>(o: &Opening, rows: &'a [u32]) -> impl Iterator<Item = &'a [u32]> {
    rows.chunks_exact(CELLS).take(o.highest as usize).filter(|row| row[0] != 0)
}

/// The place among the seconds of the window of the second that a row holds; none where that is outside.
pub fn place(o: &Opening, row: &[u32]) -> Option<u64> {
    u64::from(row[SECOND_CELL]).checked_sub(o.first_second).filter(|&place| place < o.count)
}

fn add(second: &mut [u32], row: &[u32]) {
    for (j, (cell, &more)) in second.iter_mut().zip(row).enumerate() {
        *cell = if GREATEST.contains(&j) { more.max(*cell) } else { cell.wrapping_add(more) };
    }
}

/// The cells of every second of the window, as the rows give them.
pub fn seconds_from(o: &Opening, rows: &[u32]) -> Vec<u32> {
    let mut seconds = vec![0; block(o.count).start];
    for row in held(o, rows) {
        if let Some(place) = place(o, row) {
            add(&mut seconds[block(place)], row);
        }
    }
    seconds
}

/// Whether no held row's second is outside the window and the second cells are those that the rows give. The buffers are large
/// enough: 14 is judged before.
pub fn is_consistent(o: &Opening, rows: &[u32], seconds: &[u32]) -> bool {
    let inside = held(o, rows).all(|row| place(o, row).is_some());
    inside && seconds.starts_with(&seconds_from(o, rows))
}
