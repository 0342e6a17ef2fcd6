//! Samples of a record of 1985 out to four channels and back in. FORMAT: "Samples".

use super::header::{accept, HEADER};

/// The samples that each of four channels has in a record, where buffers of these lengths hold them: 1 to 11, 12.
fn count(record: &[u8], lengths: [usize; 4]) -> Result<usize, u8> {
    let count = accept(record)?;
    if lengths.iter().any(|&length| length < count) {
        return Err(12);
    }
    Ok(count)
}

#[inline(never)]
pub fn read_samples(record: &[u8], [one, two, three, four]: [&mut [i8]; 4]) -> Result<(), u8> {
    let count = count(record, [one.len(), two.len(), three.len(), four.len()])?;
    let sets = record[HEADER..HEADER + 4 * count].chunks_exact(4);
    for ((((set, one), two), three), four) in sets.zip(one).zip(two).zip(three).zip(four) {
        *one = set[0] as i8;
        *two = set[1] as i8;
        *three = set[2] as i8;
        *four = set[3] as i8;
    }
    Ok(())
}

#[inline(never)]
pub fn write_samples(record: &mut [u8], [one, two, three, four]: [&[i8]; 4]) -> Result<(), u8> {
    let count = count(record, [one.len(), two.len(), three.len(), four.len()])?;
    let sets = record[HEADER..HEADER + 4 * count].chunks_exact_mut(4);
    for ((((set, one), two), three), four) in sets.zip(one).zip(two).zip(three).zip(four) {
        set[0] = *one as u8;
        set[1] = *two as u8;
        set[2] = *three as u8;
        set[3] = *four as u8;
    }
    Ok(())
}
