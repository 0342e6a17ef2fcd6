//! FORMAT, "Blocks" and refusals 27, 28 and 21 of blocks: values worked by hand from request #106, what it says of one byte changed
//! and of two exchanged, and each number's boundary.

use second::blocks::{bad_block, check, cut, export, export_block, import, joined, BLOCK, PAYLOAD};
use second::edition::EDITIONS;
use second::gen::{breach, other, record, record_of, record_with, set_check, set_word, unknown_edition, word, Rng};
use second::record::accept;

/// The 780 bytes of the listing's case.
fn case() -> Vec<u8> {
    let mut r = vec![0; 780];
    for (w, value) in [
        (1, 0x8101), (2, 0x0001), (3, 0x0186), (6, 0xAC18), (7, 0x0293), (8, 0x2E00),
        (16, 0x4200), (26, 0x0012), (27, 0x3452), (37, 0x00C8), (38, 0xA55A),
    ] {
        set_word(&mut r, w, value);
    }
    r
}

/// The case's blocks.
fn case_blocks() -> Vec<u8> {
    exported(1985, &case())
}

/// The blocks of an accepted record.
fn exported(edition: u64, record: &[u8]) -> Vec<u8> {
    let mut out = vec![9; 4608];
    let length = export(edition, record, &mut out).unwrap();
    assert!(out[length..].iter().all(|&byte| byte == 9));
    out.truncate(length);
    out
}

/// What importing gives in a buffer of so many bytes: the record, or the refusal of a call that wrote nothing.
fn imported_into(room: usize, edition: u64, blocks: &[u8]) -> Result<Vec<u8>, u8> {
    let mut out = vec![9; room];
    let answer = import(edition, blocks, &mut out);
    assert!(out[answer.unwrap_or(0)..].iter().all(|&byte| byte == 9));
    answer.map(|length| out[..length].to_vec())
}

fn imported(blocks: &[u8]) -> Result<Vec<u8>, u8> {
    imported_into(6000, 1985, blocks)
}

/// The bytes of block `index`.
fn block_mut(blocks: &mut [u8], index: usize) -> &mut [u8] {
    &mut blocks[BLOCK * index..BLOCK * (index + 1)]
}

/// The refusal of the case's blocks, 0 for none, after a change of block `index`, whose check is then made right.
fn answer(index: usize, change: impl FnOnce(&mut [u8])) -> u8 {
    let mut blocks = case_blocks();
    change(block_mut(&mut blocks, index));
    set_check(block_mut(&mut blocks, index));
    assert_eq!(bad_block(&blocks), None);
    imported(&blocks).err().unwrap_or(0)
}

/// A block of these fields and bytes of payload, with a right check.
fn block(number: u64, index: u64, length: u64, payload: &[u8]) -> Vec<u8> {
    let mut block = vec![0; BLOCK];
    for (w, value) in [(1, number), (2, index), (3, length)] {
        set_word(&mut block, w, value);
    }
    block[6..6 + payload.len()].copy_from_slice(payload);
    set_check(&mut block);
    block
}

// Values worked by hand.

#[test]
fn checks() {
    assert_eq!(check(&[0; 510]), 0);
    // One byte: at place 257, 255 gives 65,535; at the last, 130,050.
    let lines = [(1, 1, 1), (2, 1, 2), (510, 1, 510), (1, 255, 255), (256, 255, 65_280), (257, 255, 14), (510, 255, 64_529)];
    for (place, byte, sum) in lines {
        let mut block = [0; BLOCK];
        block[place - 1] = byte;
        assert_eq!(check(&block), sum);
    }
    // The places add up to 130,305.
    assert_eq!(check(&[1; 510]), 64_784);
    assert_eq!(check(&[255; 510]), 8_628);
    // The last two bytes are not summed.
    assert_eq!(check(&[&[1; 510][..], &[7, 7]].concat()), 64_784);
}

#[test]
fn blocks_of_the_listings_case() {
    let (r, blocks) = (case(), case_blocks());
    assert_eq!(blocks.len(), 2 * BLOCK);
    // Record number 1, index 0, 504 bytes; the sum of 20 products is 59,554.
    assert_eq!(blocks[..6], [0, 1, 0, 0, 1, 0xF8]);
    assert_eq!(blocks[6..510], r[..504]);
    assert_eq!(blocks[510..512], [0xE8, 0xA2]);
    // Record number 1, index 1, 276 bytes, all of them 0; 2 and 4 and 5 and 6 times 20.
    assert_eq!(blocks[512..518], [0, 1, 0, 1, 1, 0x14]);
    assert_eq!(blocks[518..1022], [0; 504]);
    assert_eq!(blocks[1022..], [0, 131]);
    assert_eq!(imported(&blocks), Ok(r));
}

#[test]
fn blocks_of_every_length() {
    // The record's bytes, its blocks, the last one's payload.
    let lines = [
        (780, 2, 276), (790, 2, 286), (2380, 5, 364), (2390, 5, 374), (4380, 9, 348), (4390, 9, 358),
        (566, 2, 62), (666, 2, 162), (966, 2, 462), (1166, 3, 158), (2166, 5, 150), (2666, 6, 146), (4166, 9, 134),
    ];
    let mut rng = Rng(20);
    let mut seen = vec![];
    for edition in EDITIONS {
        for (rate, &words) in edition.rates.iter().flat_map(|rate| rate.lengths.iter().map(move |words| (*rate, words))) {
            let r = record_with(&mut rng, edition, rate, words);
            let blocks = exported(edition.number, &r);
            let &(_, count, last) = lines.iter().find(|line| line.0 == r.len()).unwrap();
            assert_eq!(blocks.len(), 512 * count);
            for (i, b) in blocks.chunks(512).enumerate() {
                let length = if i + 1 == count { last } else { 504 };
                assert_eq!((word(b, 1), word(b, 2), word(b, 3)), (word(&r, 2), i as u64, length as u64));
                assert_eq!(b[6..6 + length], r[504 * i..504 * i + length]);
                assert!(b[6 + length..510].iter().all(|&byte| byte == 0));
                assert_eq!(word(b, 256), check(b));
            }
            seen.push(r.len());
        }
    }
    assert!(lines.iter().all(|line| seen.contains(&line.0)));
}

// Export and import undo each other.

#[test]
fn round_trips() {
    let mut rng = Rng(21);
    for edition in EDITIONS {
        let e = edition.number;
        for (rate, &words) in edition.rates.iter().flat_map(|rate| rate.lengths.iter().map(move |words| (*rate, words))) {
            for _ in 0..20 {
                let r = record_with(&mut rng, edition, rate, words);
                let blocks = exported(e, &r);
                assert_eq!((cut(&r), joined(&blocks)), (Some(blocks.clone()), Some(r.clone())));
                assert_eq!(imported_into(r.len(), e, &blocks), Ok(r.clone()));
                assert_eq!(imported_into(r.len() + 5, e, &blocks), Ok(r.clone()));
                for room in [0, 1, r.len() - 1] {
                    assert_eq!(imported_into(room, e, &blocks), Err(21));
                }
                assert_eq!(imported_into(6000, other(edition).number, &blocks), Err(3));
                assert_eq!(imported_into(6000, unknown_edition(&mut rng), &blocks), Err(25));
            }
        }
    }
}

#[test]
fn room_for_blocks() {
    let (r, blocks) = (case(), case_blocks());
    for room in [0, 1, 511, 512, 1023] {
        let mut out = vec![9; room];
        assert_eq!(export(1985, &r, &mut out), Err(21));
        assert_eq!(out, vec![9; room]);
    }
    let mut out = vec![9; 1025];
    assert_eq!(export(1985, &r, &mut out[..1024]), Ok(1024));
    assert_eq!(out, [blocks, vec![9]].concat());
    // 25 and the record's own come before 21.
    assert_eq!([1985, 1992, 1993].map(|edition| export(edition, &r[..79], &mut [])), [Err(1), Err(1), Err(25)]);
    assert_eq!(export(1992, &r, &mut []), Err(3));
}

#[test]
fn one_block_alone() {
    let mut rng = Rng(22);
    for edition in EDITIONS {
        for _ in 0..100 {
            let r = record(&mut rng, edition);
            let blocks = exported(edition.number, &r);
            let count = blocks.len() / BLOCK;
            for (i, expected) in blocks.chunks(BLOCK).enumerate() {
                let mut out = [9; BLOCK + 1];
                assert_eq!(export_block(edition.number, &r, i, &mut out), Ok(BLOCK));
                assert_eq!((&out[..BLOCK], out[BLOCK]), (expected, 9));
                assert_eq!(export_block(edition.number, &r, i, &mut out[..BLOCK - 1]), Err(21));
            }
            // 25, the record's own and 28, in this order, come before 21.
            for i in [count, count + 1, 128, 65_535, 65_536, usize::MAX / BLOCK, usize::MAX / BLOCK + 1, usize::MAX] {
                assert_eq!(export_block(edition.number, &r, i, &mut []), Err(28));
                assert_eq!(export_block(other(edition).number, &r, i, &mut []), Err(3));
                assert_eq!(export_block(unknown_edition(&mut rng), &r, i, &mut []), Err(25));
            }
        }
    }
}

// The check.

/// The blocks of a record that has five.
fn long_blocks(rng: &mut Rng) -> Vec<u8> {
    let edition = EDITIONS[0];
    let r = record_with(rng, edition, edition.rates[5], 1190);
    exported(1985, &r)
}

#[test]
fn one_byte_changed() {
    let mut rng = Rng(23);
    let all = [(case_blocks(), 0), (case_blocks(), 1), (long_blocks(&mut rng), 2), (long_blocks(&mut rng), 4)];
    for (mut blocks, index) in all {
        assert_eq!(bad_block(&blocks), None);
        for at in BLOCK * index..BLOCK * (index + 1) {
            for flip in 1..=255 {
                blocks[at] ^= flip;
                assert_eq!(bad_block(&blocks), Some(index));
                assert!(![1, 128].contains(&flip) || imported(&blocks) == Err(27));
                blocks[at] ^= flip;
            }
        }
    }
}

#[test]
fn two_bytes_exchanged() {
    let mut rng = Rng(24);
    for (mut blocks, index) in [(case_blocks(), 0), (long_blocks(&mut rng), 1), (long_blocks(&mut rng), 4)] {
        let start = BLOCK * index;
        for (i, j) in (0..510).flat_map(|j| (0..j).map(move |i| (start + i, start + j))) {
            blocks.swap(i, j);
            let bad = if blocks[i] == blocks[j] { None } else { Some(index) };
            assert_eq!(bad_block(&blocks), bad);
            assert!(i % 100 != 0 || imported(&blocks).err() == bad.map(|_| 27));
            blocks.swap(i, j);
        }
    }
}

#[test]
fn only_the_remainder_is_a_check() {
    // 5 and 1488 of the length and 63,750 of the last byte leave 278 to 65,521: the check is `more`, which 65,521 more also fits.
    for more in 0..=14 {
        let mut blocks = block(0, 0, 504, &[]);
        blocks[509] = 125;
        blocks[277 + more] = 1;
        for stored in 0..=65_535 {
            set_word(&mut blocks, 256, stored);
            assert_eq!(bad_block(&blocks), if stored == more as u64 { None } else { Some(0) });
        }
        set_word(&mut blocks, 256, more as u64 + 65_521);
        assert_eq!(imported(&blocks), Err(27));
        // With the check right, the record's own: word 3 is 0.
        set_word(&mut blocks, 256, more as u64);
        assert_eq!(imported(&blocks), Err(2));
    }
}

#[test]
fn the_first_bad_block() {
    let blocks = long_blocks(&mut Rng(25));
    for (i, j) in (0..5).flat_map(|i| (i..5).map(move |j| (i, j))) {
        let mut bad = blocks.clone();
        bad[BLOCK * i + 100] ^= 1;
        bad[BLOCK * j + 510] ^= 16;
        assert_eq!((bad_block(&bad), imported(&bad)), (Some(i), Err(27)));
        // Only whole blocks are looked at, cut from the start on.
        assert_eq!(bad_block(&bad[..BLOCK * (i + 1) - 1]), None);
        assert_eq!(bad_block(&bad[..BLOCK * (i + 1)]), Some(i));
    }
    assert_eq!((bad_block(&[]), bad_block(&[1; 511]), bad_block(&[1; 512])), (None, None, Some(0)));
    assert_eq!(bad_block(&[vec![0; 512], vec![0; 511], vec![1]].concat()), Some(1));
}

// 28.

#[test]
fn no_block_and_part_blocks() {
    let blocks = case_blocks();
    for length in [0, 1, 511, 513, 1023] {
        assert_eq!(imported(&blocks[..length]), Err(28));
    }
    // The second block is missing, the first one is whole: the record's own.
    assert_eq!(imported(&blocks[..512]), Err(2));
    for tail in [1, 2, 100, 511] {
        assert_eq!(imported(&[blocks.clone(), vec![0; tail]].concat()), Err(28));
    }
    // A block of zeros has a right check, and no payload.
    assert_eq!(imported(&[0; 512]), Err(28));
    assert_eq!(imported(&[blocks, vec![0; 512]].concat()), Err(28));
}

#[test]
fn lengths() {
    // Of block 0, which is not the last.
    for length in [0, 1, 3, 4, 503, 505, 512, 760, 65_535] {
        assert_eq!(answer(0, |b| set_word(b, 3, length)), 28, "{length}");
    }
    assert_eq!(answer(0, |b| set_word(b, 3, 504)), 0);
    // Of the last, whose bytes are all 0, so that every length of 1 to 504 is right here: then the record has a wrong length.
    for length in [0, 505, 65_535] {
        assert_eq!(answer(1, |b| set_word(b, 3, length)), 28, "{length}");
    }
    for length in [1, 3, 275, 277, 503, 504] {
        assert_eq!(answer(1, |b| set_word(b, 3, length)), 2, "{length}");
    }
    assert_eq!(answer(1, |b| set_word(b, 3, 276)), 0);
}

#[test]
fn lengths_of_all_bytes() {
    // One block, and two with one byte in the second. Below 4 there is no record number: 28, else the record's own.
    let mut r = case();
    set_word(&mut r, 3, 252);
    let zeros = [0; 505];
    for (length, own) in [(0, 28), (1, 28), (2, 28), (3, 28), (4, 1), (79, 1), (80, 2), (503, 2), (504, 6)] {
        let number = if length < 4 { 0 } else { 1 };
        assert_eq!(imported(&block(number, 0, length as u64, &r[..length])), Err(own), "{length}");
        assert_eq!(cut(&r[..length]), (length > 3).then(|| block(number, 0, length as u64, &r[..length])));
        let own = if own == 6 { 2 } else { own };
        assert_eq!(imported(&block(0, 0, length as u64, &zeros[..length])), Err(own), "{length}");
    }
    let two = cut(&r[..505]).unwrap();
    assert_eq!((two.len(), word(&two[512..], 3)), (1024, 1));
    assert_eq!(imported(&two), Err(2));
    // 505 bytes do not stand in one block.
    assert_eq!(imported(&block(1, 0, 505, &r[..504])), Err(28));
}

#[test]
fn numbers() {
    for index in [0, 1] {
        for number in [0, 2, 256, 257, 65_535] {
            assert_eq!(answer(index, |b| set_word(b, 1, number)), 28);
        }
    }
    // Word 2 of block 0's payload decides, for block 0 too.
    assert_eq!(answer(0, |b| b[9] = 2), 28);
    assert_eq!(answer(0, |b| b[8] = 1), 28);
    let mut both = case_blocks();
    for index in [0, 1] {
        set_word(block_mut(&mut both, index), 1, 2);
        set_check(block_mut(&mut both, index));
    }
    assert_eq!(imported(&both), Err(28));
    // Record number 0 all over passes 28 and is 7.
    let mut r = case();
    set_word(&mut r, 2, 0);
    assert_eq!(imported(&cut(&r).unwrap()), Err(7));
}

#[test]
fn indices() {
    for (index, wrong) in [(0, [1, 2, 256]), (1, [0, 2, 257])] {
        for value in wrong {
            assert_eq!(answer(index, |b| set_word(b, 2, value)), 28);
        }
    }
    let blocks = long_blocks(&mut Rng(26));
    let chosen = |which: &[usize]| which.iter().flat_map(|&i| blocks[BLOCK * i..BLOCK * (i + 1)].to_vec()).collect::<Vec<u8>>();
    assert!(imported(&chosen(&[0, 1, 2, 3, 4])).is_ok());
    for wrong in [&[1, 2, 3, 4][..], &[0, 2, 3, 4], &[0, 0, 1, 2, 3, 4], &[0, 1, 2, 3, 4, 4], &[1, 0, 2, 3, 4], &[0, 1, 2, 4, 3]] {
        assert_eq!(imported(&chosen(wrong)), Err(28));
    }
    // Without the last, the blocks are right, and the record is too short.
    assert_eq!(imported(&chosen(&[0, 1, 2, 3])), Err(2));
}

#[test]
fn padding() {
    for at in 6 + 276..510 {
        for byte in [1, 128, 255] {
            assert_eq!(answer(1, |b| b[at] = byte), 28);
        }
    }
    // The last byte of the payload is none.
    assert_eq!(answer(1, |b| b[6 + 275] = 255), 0);
}

#[test]
fn more_blocks_than_indices() {
    // 65,536 blocks have right indices, and are a record that word 3 cannot count. One more has none, whatever it says.
    let mut record = case();
    record.resize(PAYLOAD * 65_536, 0);
    let mut blocks = cut(&record).unwrap();
    assert_eq!((blocks.len(), word(&blocks[BLOCK * 65_535..], 2)), (BLOCK * 65_536, 65_535));
    assert_eq!(imported(&blocks), Err(2));
    for index in [0, 65_535] {
        blocks.truncate(BLOCK * 65_536);
        blocks.extend(block(1, index, 504, &[]));
        assert_eq!((bad_block(&blocks), imported(&blocks)), (None, Err(28)));
    }
    record.push(0);
    assert_eq!(cut(&record), None);
    blocks[BLOCK * 65_536 + 511] ^= 1;
    assert_eq!((bad_block(&blocks), imported(&blocks)), (Some(65_536), Err(27)));
}

// The order of refusals.

#[test]
fn order() {
    // 27 and 28 at once: 27, in whichever block it is; 25 before both.
    let blocks = case_blocks();
    for at in [100, 511, 700, 1023] {
        let mut bad = blocks.clone();
        bad[at] ^= 1;
        for tail in [0, 1, 511, 512] {
            let bad = [bad.clone(), vec![0; tail]].concat();
            assert_eq!((imported(&bad), imported_into(0, 1985, &bad)), (Err(27), Err(27)));
            assert_eq!((imported_into(0, 1992, &bad), imported_into(0, 1986, &bad)), (Err(27), Err(25)));
        }
        bad.copy_within(512.., 0);
        assert_eq!(imported(&bad), Err(if at < 512 { 28 } else { 27 }));
    }
    assert_eq!((imported_into(0, 0, &[]), imported_into(0, 1985, &[])), (Err(25), Err(28)));

    // 28 before the record's own, and that before 21.
    let mut rng = Rng(27);
    for edition in EDITIONS {
        for number in 1..=11 {
            for _ in 0..30 {
                let mut r = record(&mut rng, edition);
                breach(&mut rng, edition, &mut r, number);
                let Some(blocks) = cut(&r) else { continue };
                for room in [0, r.len(), 9000] {
                    assert_eq!(imported_into(room, edition.number, &blocks), Err(number));
                    assert_eq!(imported_into(room, edition.number, &[blocks.clone(), vec![0]].concat()), Err(28));
                }
            }
        }
    }
}

/// 28 by 02's list of what is wrong, block by block.
fn wrong(blocks: &[u8]) -> bool {
    let count = blocks.len() / BLOCK;
    let one = |(i, b): (usize, &[u8])| {
        let (length, last) = (word(b, 3) as usize, i + 1 == count);
        let right = if last { (1..=504).contains(&length) } else { length == 504 };
        !right
            || i == 0 && length < 4
            || word(b, 1) != word(&blocks[6..], 2)
            || word(b, 2) != i as u64
            || b[6 + length..510].iter().any(|&byte| byte != 0)
    };
    count == 0 || blocks.len() % BLOCK != 0 || blocks.chunks(BLOCK).enumerate().any(one)
}

/// Alters a field, the length, a byte or the last byte of a block, at times to what it was, and makes its check right.
fn alter(rng: &mut Rng, b: &mut [u8]) {
    let (field, small) = (1 + rng.next() as usize % 3, rng.within(0, 3));
    match rng.next() % 4 {
        0 => set_word(b, field, word(b, field) ^ small),
        1 => set_word(b, 3, rng.pick(&[0, 1, 3, 4, 62, 276, 503, 504, 505])),
        2 => b[6 + rng.next() as usize % PAYLOAD] = small as u8,
        _ => b[509] = small as u8,
    }
    set_check(b);
}

#[test]
fn accepted_blocks_are_exported_ones() {
    // One block or two, altered: the list decides 28, and what is accepted is what export writes.
    let mut rng = Rng(28);
    let mut seen = [0; 3];
    for i in 0..6000 {
        let (edition, slowest) = (EDITIONS[i % 2], EDITIONS[i % 2].rates[EDITIONS[i % 2].rates.len() - 1]);
        let r = record_of(&mut rng, edition, slowest);
        let mut blocks = cut(&r[..rng.pick(&[r.len(), r.len(), r.len(), 504, 505, 503, 5, 4])]).unwrap();
        let count = blocks.len() / BLOCK;
        for _ in 0..rng.within(0, 2) {
            let index = rng.next() as usize % count;
            alter(&mut rng, block_mut(&mut blocks, index));
        }
        let answer = imported_into(6000, edition.number, &blocks);
        assert_eq!(answer == Err(28), wrong(&blocks));
        match &answer {
            Ok(again) => assert_eq!(exported(edition.number, again), blocks),
            Err(28) => {}
            &Err(own) => assert_eq!(accept(edition.number, &joined(&blocks).unwrap()), Err(own)),
        }
        seen[match answer { Ok(_) => 0, Err(28) => 1, Err(_) => 2 }] += 1;
    }
    assert!(seen.iter().all(|&count| count > 500), "{seen:?}");
}
