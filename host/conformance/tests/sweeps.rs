//! Whole ranges of inputs, none left out.

use conformance::{
    agreed, any_book, harbour, mend, mend_block, one_forbidden, refused, regular, rising_rows,
    row_bytes, show, tiny, write, Book, Random, Region, RowByte, Sheet, Tally, ANY, BLOCK,
    FORBIDDEN, LONGEST, ROWS_OF_A_BLOCK,
};
use reference::book_refusals;
use std::collections::BTreeSet;

/// A book of 33 blocks whose sheets have the widths 1, 2, 3 and 4 in turn, this one first, and columns of
/// different V.
fn longest_from(width: u8) -> Book {
    let counts: Vec<u8> = (0..16).map(|column| 32 - 2 * column).collect();
    let sheets = (0..8).map(|s| {
        let width = (s + width - 1) % 4 + 1;
        Sheet {
            forbidden: false,
            columns: (0..width).map(|i| s + 2 * i).collect(),
            rows: vec![vec![0; width.into()]; 508],
        }
    });
    let sheets = sheets.collect();
    Book { counts, sheets }
}

fn longest() -> Book {
    longest_from(1)
}

/// The longest book with sheets of so many rows.
fn shorter(rows: &[usize]) -> Book {
    let mut book = longest();
    book.sheets.truncate(rows.len());
    for (sheet, &n) in book.sheets.iter_mut().zip(rows) {
        sheet.rows.truncate(n);
    }
    book
}

/// A book without values in its rows that needs so many blocks.
fn needing(blocks: usize) -> Book {
    let mut book = tiny();
    let mut left = blocks - 1;
    while left > 0 {
        let taken = left.min(4);
        book.sheets.push(Sheet {
            forbidden: false,
            columns: vec![0],
            rows: vec![vec![0]; taken * ROWS_OF_A_BLOCK],
        });
        left -= taken;
    }
    book
}

/// The agreed number with one byte changed and its block mended; the bytes are as before after it.
fn agreed_with(bytes: &mut [u8], at: usize, value: u8) -> u64 {
    let old = bytes[at];
    bytes[at] = value;
    mend_block(bytes, at / BLOCK);
    let number = agreed(bytes);
    bytes[at] = old;
    mend_block(bytes, at / BLOCK);
    number
}

#[test]
fn every_length_to_35_blocks() {
    let mut bytes = write(&longest());
    bytes.resize(35 * BLOCK, 0);
    mend(&mut bytes);
    for length in 0..=bytes.len() {
        let blocks = length / BLOCK;
        let expected = if length % BLOCK != 0 || blocks == 0 || blocks > LONGEST {
            refused(1, 0)
        } else if blocks < LONGEST {
            refused(4, LONGEST)
        } else {
            16 * 16 + 8
        };
        assert_eq!(agreed(&bytes[..length]), expected, "length {length}");
    }
    assert_eq!(agreed(&vec![0; 1 << 20]), refused(1, 0));
}

#[test]
fn every_bit_of_every_check() {
    let mut bytes = write(&longest());
    for block in 0..LONGEST {
        for bit in 0..32 {
            bytes[block * BLOCK + 508 + bit / 8] ^= 1 << (bit % 8);
            assert_eq!(agreed(&bytes), refused(2, block), "bit {bit}");
            bytes[block * BLOCK + 508 + bit / 8] ^= 1 << (bit % 8);
        }
    }
}

#[test]
fn every_pair_of_wrong_checks() {
    let whole = write(&longest());
    for first in 0..LONGEST {
        for second in first + 1..LONGEST {
            let mut bytes = whole.clone();
            bytes[first * BLOCK + 7] ^= 1;
            bytes[second * BLOCK + 500] ^= 128;
            assert_eq!(agreed(&bytes), refused(2, first), "and {second}");
        }
    }
}

#[test]
fn every_byte_of_harbour_as_every_other() {
    let whole = write(&harbour());
    let rows = row_bytes(&harbour());
    let mut bytes = whole.clone();
    for at in 0..whole.len() {
        let of_a_row = rows.iter().find(|byte| byte.at == at);
        for change in 1..=255 {
            let value = whole[at] ^ change;
            bytes[at] = value;
            assert_eq!(agreed(&bytes), refused(2, at / BLOCK), "at {at}");
            let number = agreed_with(&mut bytes, at, value);
            if let Some(byte) = of_a_row {
                let right = byte.may_be(value);
                let expected = if right { 50 } else { byte.refused() };
                assert_eq!(number, expected, "{value} in {byte:?}");
            }
            bytes.copy_from_slice(&whole);
        }
    }
}

#[test]
fn every_byte_of_a_full_head_as_every_other() {
    let mut bytes = write(&regular(16, 32, 8, 0, 3));
    for at in 0..508 {
        for change in 1..=255 {
            let value = bytes[at] ^ change;
            let number = agreed_with(&mut bytes, at, value);
            assert!(at < 88 || number == refused(3, at), "at {at}");
        }
    }
}

#[test]
fn every_number_of_blocks_for_every_number_needed() {
    for needed in 1..=LONGEST {
        let whole = write(&needing(needed));
        assert_eq!(whole.len(), needed * BLOCK);
        for blocks in 1..=LONGEST {
            let mut bytes = whole.clone();
            bytes.resize(blocks * BLOCK, 0);
            mend(&mut bytes);
            let number = agreed(&bytes);
            if blocks == needed {
                assert!(number < 65_536);
            } else {
                assert_eq!(number, refused(4, needed), "{blocks} blocks");
            }
        }
    }
}

/// Of two books, so that each row of each block has a value in one of them, and a zero after its
/// values in one: refusals 5 and 6 come with every place that they can have, and no other.
#[test]
fn every_row_byte_at_its_limit() {
    let mut given = BTreeSet::new();
    for book in [longest_from(1), longest_from(2)] {
        let mut bytes = write(&book);
        let rows = row_bytes(&book);
        assert_eq!(rows.len(), 32 * 508);
        for byte in rows {
            let below = agreed_with(&mut bytes, byte.at, byte.limit - 1);
            assert_eq!(below, 264, "{byte:?}");
            let number = agreed_with(&mut bytes, byte.at, byte.limit);
            assert_eq!(number, byte.refused(), "{byte:?}");
            given.insert(number);
        }
    }
    assert!(given == every_place(&[5, 6]), "every place of 5 and of 6");
}

/// Each of these refusals with every place that it can have.
fn every_place(refusals: &[u64]) -> BTreeSet<u64> {
    let of_rows = book_refusals().into_iter();
    let of_rows = of_rows.filter(|(refusal, _)| refusals.contains(refusal));
    let numbers = of_rows.flat_map(|(refusal, places)| {
        let places = places.into_iter();
        places.map(move |place| refused(refusal, place))
    });
    numbers.collect()
}

/// Forbidden sheets of so many rows, which rise by the last value; of the widths 2, 3 and 4 in turn.
fn rising(rows: &[usize]) -> Book {
    let sheet = |(s, &rows): (usize, &usize)| {
        let width = 2 + s % 3;
        let row = |r: usize| {
            let mut row = vec![(s % 2) as u8; width];
            row[width - 2..].copy_from_slice(&[(r / 32) as u8, (r % 32) as u8]);
            row
        };
        Sheet {
            forbidden: true,
            columns: (0..width as u8).map(|i| s as u8 + 2 * i).collect(),
            rows: (0..rows).map(row).collect(),
        }
    };
    Book {
        counts: vec![32; 16],
        sheets: rows.iter().enumerate().map(sheet).collect(),
    }
}

/// Every row of every block that has one before it in its sheet, made equal to that one, and lower; and the one before
/// it made as high as this one: refusal 7 comes with every place that it can have, and no other. The first row of a sheet
/// may be anything that is lower than the second.
#[test]
fn every_row_that_doesnt_rise() {
    let mut given = BTreeSet::new();
    // So that the first row of every block but the first is a later one of its sheet in one of these.
    for rows in [&[508; 8][..], &[300, 508, 508, 508, 508, 508, 508, 508]] {
        let book = rising(rows);
        let bytes = write(&book);
        let figure = agreed(&bytes);
        assert_eq!(figure, 16 * 16 + 8);
        for rows in rising_rows(&book) {
            for (r, &row) in rows.iter().enumerate().skip(1) {
                let before = rows[r - 1];
                for (from, to) in [(before, row), (rows[0], row), (row, before)] {
                    let mut bytes = bytes.clone();
                    bytes.copy_within(from..from + 4, to);
                    mend_block(&mut bytes, to / BLOCK);
                    let number = agreed(&bytes);
                    assert_eq!(number, refused(7, row / 4), "row {r}, {from} to {to}");
                    given.insert(number);
                }
            }
        }
    }
    assert!(given == every_place(&[7]), "every place of 7");
}

/// Every row byte of forbidden sheets as any: 5 for a value, 6 for a zero, used or not, at its own place; and so where the
/// rows don't rise too.
#[test]
fn every_byte_of_forbidden_rows_as_any() {
    let book = rising(&[3, 126, 127, 128, 1]);
    let mut bytes = write(&book);
    let mut fallen = bytes.clone();
    let rows = rising_rows(&book);
    fallen.copy_within(rows[0][1]..rows[0][1] + 4, rows[0][2]);
    mend_block(&mut fallen, 1);
    assert_eq!(agreed(&fallen), refused(7, rows[0][2] / 4));
    let mut tally = Tally::default();
    for byte in row_bytes(&book) {
        assert!(!byte.any && !byte.may_be(ANY));
        for bytes in [&mut bytes, &mut fallen] {
            let number = agreed_with(bytes, byte.at, ANY);
            assert_eq!(number, byte.refused(), "{byte:?}");
            tally.add(&format!("{:?}", byte.region), 1);
        }
    }
    assert_eq!(tally.kinds(), 3);
}

/// Every two bytes next to each other in two rows of a forbidden sheet: the first byte that differs decides.
#[test]
fn every_pair_of_rows() {
    let all: Vec<[u8; 4]> = (0..81)
        .map(|n| [n / 27, n / 9 % 3, n / 3 % 3, n % 3])
        .collect();
    let mut bytes = write(&one_forbidden(&[3; 4], vec![vec![0; 4], vec![1; 4]]));
    for (i, one) in all.iter().enumerate() {
        for (j, other) in all.iter().enumerate() {
            bytes[512..520].copy_from_slice(&[*one, *other].concat());
            mend_block(&mut bytes, 1);
            let expected = if i < j { 65 } else { refused(7, 129) };
            assert_eq!(agreed(&bytes), expected, "{one:?}, {other:?}");
        }
    }
}

/// Every width byte of sheets of each width, with the number that it gives: of the same width either kind is right, another
/// one makes a column number wrong, and any other byte is wrong itself.
#[test]
fn every_width_byte() {
    for width in 1..=4 {
        let book = one_forbidden(&[2; 4][..width], vec![vec![0; width], vec![1; width]]);
        let figure = agreed(&write(&book));
        for byte in 0..=255 {
            let mut bytes = write(&book);
            let number = agreed_with(&mut bytes, 24, byte);
            let expected = match usize::from(byte % FORBIDDEN) {
                said if !(1..=4).contains(&said) => refused(3, 24),
                said if said == width => figure,
                // A number after the width, which must be zero; or a zero in the place of a number.
                said => refused(3, 25 + said.min(width)),
            };
            assert_eq!(number, expected, "width byte {byte} for {width}");
        }
    }
}

/// Of two books that have every row with and without a zero after its values: any passes for a value, and
/// is 6 for a zero, at its own place; the byte before it is too large for either.
#[test]
fn every_row_byte_as_any() {
    let [mut passed, mut filler] = [0; 2];
    for book in [longest_from(1), longest_from(2)] {
        let mut bytes = write(&book);
        for byte in row_bytes(&book) {
            let number = agreed_with(&mut bytes, byte.at, 254);
            assert_eq!(number, byte.refused(), "{byte:?}");
            let number = agreed_with(&mut bytes, byte.at, ANY);
            if byte.region == Region::RowValue {
                assert_eq!(number, 264, "{byte:?}");
                passed += 1;
            } else {
                assert_eq!(number, refused(6, byte.at / 4), "{byte:?}");
                filler += 1;
            }
        }
    }
    // Of the widths 1 to 4 there are four sheets each.
    assert_eq!((passed, filler), (4 * 10 * 508, 4 * 6 * 508));
}

#[test]
fn every_byte_of_unused_rows() {
    let book = shorter(&[1, 126, 128, 200, 254, 255, 381, 383]);
    let mut bytes = write(&book);
    let mut unused = row_bytes(&book);
    unused.retain(|byte| byte.region == Region::UnusedRow);
    assert_eq!(unused.len(), 4 * (126 + 1 + 126 + 54 + 126 + 125));
    for byte in unused {
        for value in [1, 32, 254, ANY] {
            let number = agreed_with(&mut bytes, byte.at, value);
            assert_eq!(number, byte.refused(), "{value} in {byte:?}");
        }
    }
}

/// How two bytes of rows lie to each other.
fn apart(first: &RowByte, second: &RowByte) -> &'static str {
    match second.at / 4 - first.at / 4 {
        0 => "in one row",
        1 => "in neighbouring rows",
        _ if first.sheet != second.sheet => "in two sheets",
        _ if first.at / BLOCK != second.at / BLOCK => "in two blocks",
        _ => "in one block",
    }
}

/// Two faults in one book, each pair of all bytes of the first rows and the last of every block: the
/// first in the file counts, whichever it is.
#[test]
fn every_pair_of_row_faults() {
    // In the last block of a sheet the second row is unused, or the last one, or none.
    let book = shorter(&[128, 127, 126, 255, 1]);
    let mut chosen = row_bytes(&book);
    chosen.retain(|byte| [0, 1, 125, 126].contains(&(byte.at % BLOCK / 4)));
    let mut tally = Tally::default();
    for (i, first) in chosen.iter().enumerate() {
        let mut bytes = write(&book);
        bytes[first.at] = first.limit;
        mend_block(&mut bytes, first.at / BLOCK);
        for second in &chosen[i + 1..] {
            let number = agreed_with(&mut bytes, second.at, 254);
            assert_eq!(number, first.refused(), "{first:?}, {second:?}");
            let [one, other] = [first, second].map(RowByte::refusal);
            tally.add(&format!("{one}, then {other} {}", apart(first, second)), 1);
        }
    }
    show(&format!(
        "pairs of row faults, by their refusals\n\n{tally}"
    ));
    // Either before either, in five ways; but in one row no value comes after a zero.
    assert_eq!(tally.kinds(), 4 * 5 - 1);
}

/// In a head alone, and with the rows that it names where there may be so many.
#[test]
fn every_row_count_of_a_sheet() {
    for n in 0..=u16::MAX {
        let mut bytes = write(&regular(1, 1, 1, 0, 1));
        bytes[30..32].copy_from_slice(&n.to_le_bytes());
        mend(&mut bytes);
        let blocks = 1 + usize::from(n).div_ceil(ROWS_OF_A_BLOCK);
        let expected = match n {
            0 => 16 + 1,
            1..=508 => refused(4, blocks),
            _ => refused(3, 30),
        };
        assert_eq!(agreed(&bytes), expected, "{n} rows");
        if n <= 4_000 {
            let bytes = write(&regular(1, 2, 1, n.into(), 1));
            assert_eq!(bytes.len(), blocks * BLOCK, "{n} rows");
            let expected = if n <= 508 { 16 + 1 } else { refused(3, 30) };
            assert_eq!(agreed(&bytes), expected, "{n} rows");
        }
    }
}

#[test]
fn every_described_book_is_accepted_and_decodes_to_itself() {
    let random = &mut Random::new(1);
    for _ in 0..2_000 {
        let book = any_book(random);
        let bytes = write(&book);
        let figure = book.counts.len() * 16 + book.sheets.len();
        assert_eq!(agreed(&bytes), figure as u64);
        assert_eq!(reference::decode(&bytes), Some(book));
    }
}
