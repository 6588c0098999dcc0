//! Forbidden sheets, by hand: the width byte, rows that rise and rows that don't, 255 in them, and what they
//! strike.

use super::{described, described_harbour, harbour};
use crate::answers;
use crate::choices::allows_every_choice;
use crate::finish::{finish, one_of_each};
use crate::{all_values, allows, check, closure, decode, fallen_rows, right_check, row_faults};
use crate::{turned, Book, Outcome, Sheet, ANY, BLOCK};

/// A book of these columns' values and one forbidden sheet over all of them.
fn forbidding(counts: &[u8], rows: &[&[u8]]) -> Book {
    let columns: Vec<u8> = (0..counts.len() as u8).collect();
    let mut book = described(counts, &[(&columns, rows)]);
    book.sheets[0].forbidden = true;
    book
}

/// H's bytes with these changed, and its checks made right.
fn changed(changes: &[(usize, u8)]) -> Vec<u8> {
    let mut bytes = harbour();
    changes.iter().for_each(|&(at, byte)| bytes[at] = byte);
    for b in 0..bytes.len() / BLOCK {
        let check = right_check(&bytes[b * BLOCK..][..BLOCK], b);
        bytes[b * BLOCK + 508..][..4].copy_from_slice(&check.to_le_bytes());
    }
    bytes
}

const WRONG_WIDTH: u64 = 3 * 65_536 + 24;

/// Sheet 0 of H has two columns, and its rows rise. With another width its columns are wrong: at 1 and 129 the
/// second must be zero, at 3, 4, 131 and 132 the third must be above it.
#[test]
fn every_width_byte() {
    for byte in 0..=255 {
        let expected = match byte {
            2 | 130 => 50,
            1 | 129 => 3 * 65_536 + 26,
            3 | 4 | 131 | 132 => 3 * 65_536 + 27,
            _ => WRONG_WIDTH,
        };
        assert_eq!(
            check(&changed(&[(24, byte)])),
            expected,
            "width byte {byte}"
        );
    }
    let mut book = described_harbour();
    book.sheets[0].forbidden = true;
    assert_eq!(decode(&changed(&[(24, 130)])), Some(book));
}

/// Rows 00 10 11 21 of H's sheet 0 stand at 512, 516, 520 and 524.
#[test]
fn rows_that_rise_and_rows_that_dont() {
    for (changes, place) in [
        (&[][..], None),
        // 00 01 11 21 rises by the last value, and the second row's first comes to nothing
        (&[(516, 0), (517, 1)], None),
        // 00 00
        (&[(516, 0)], Some(129)),
        // 10 10
        (&[(521, 0)], Some(130)),
        // 11 01: the last byte alone would rise
        (&[(524, 0)], Some(131)),
        // 01 10 rises by the first byte, though the last falls
        (&[(513, 1)], None),
        // 21 10, and 11 11
        (&[(512, 2), (513, 1), (524, 1)], Some(129)),
        (&[(524, 1)], Some(131)),
    ] {
        let mut changes = changes.to_vec();
        assert_eq!(check(&changed(&changes)), 50);
        changes.push((24, 130));
        let expected = place.map_or(50, |place| 7 * 65_536 + place);
        assert_eq!(check(&changed(&changes)), expected, "{changes:?}");
        // Sheet 1 then says 5 or 6, and so does a zero before the row.
        for (at, byte, number) in [
            (1025, 2, 5 * 65_536 + 256),
            (1026, 1, 6 * 65_536 + 256),
            (515, 1, 6 * 65_536 + 128),
        ] {
            let also = [&changes[..], &[(at, byte)]].concat();
            assert_eq!(check(&changed(&also)), number, "{also:?}");
        }
    }
}

/// In each sheet alone, and in both: the first in the file. Sheet 1 has rows 00 01 11 at 1024, 1028 and 1032.
#[test]
fn falls_in_two_sheets() {
    let falls = [(516, 0), (1032, 0)];
    for (kinds, places) in [
        (&[(24, 130)][..], vec![516]),
        (&[(32, 130)], vec![1032]),
        (&[(24, 130), (32, 130)], vec![516, 1032]),
        (&[], vec![]),
    ] {
        let bytes = changed(&[&falls[..], kinds].concat());
        assert_eq!(fallen_rows(&bytes), places);
        let expected = places.first().map_or(50, |at| 7 * 65_536 + at / 4);
        assert_eq!(check(&bytes), expected as u64);
    }
}

/// A forbidden sheet of 128 rows, of values 0 0, 0 1 and so on up to 7 15: row 126 ends block 1 and row 127
/// begins block 2, with a check between them.
#[test]
fn a_fall_at_the_end_of_a_block() {
    let mut bytes = vec![0; 3 * 512];
    bytes[24..32].copy_from_slice(&[130, 0, 1, 0, 0, 0, 128, 0]);
    bytes[4..6].copy_from_slice(&[2, 1]);
    bytes[8..10].fill(16);
    for r in 0..128 {
        let at = 512 + 4 * r + 4 * (r / 127);
        bytes[at..at + 2].copy_from_slice(&[(r / 16) as u8, (r % 16) as u8]);
    }
    // The check is no row, whatever it says.
    bytes[1020..1024].fill(255);
    assert_eq!(fallen_rows(&bytes), []);
    for (at, value, fallen) in [
        (1017, 13, vec![1016]),
        (1017, 15, vec![1024]),
        (1025, 14, vec![1024]),
        (1024, 0, vec![1024]),
        // An unused row is none that must rise.
        (1028, 1, vec![]),
    ] {
        let mut bytes = bytes.clone();
        bytes[at] = value;
        assert_eq!(fallen_rows(&bytes), fallen, "{value} at {at}");
    }
}

/// "255 is refused with 5" in each of the k places; after them, and in unused rows, it is 6 as before.
#[test]
fn any_in_every_place() {
    for width in 1..=4 {
        for row in 0..3 {
            for i in 0..4 {
                for forbidden in [false, true] {
                    let mut bytes = vec![0; 2 * 512];
                    bytes[4..6].copy_from_slice(&[4, 1]);
                    bytes[8..12].fill(3);
                    bytes[24] = width + if forbidden { 128 } else { 0 };
                    (0..width).for_each(|c| bytes[25 + usize::from(c)] = c);
                    bytes[30] = 2;
                    let offset = 512 + 4 * row + i;
                    bytes[offset] = ANY;
                    let used = row < 2 && i < usize::from(width);
                    let expected = match (used, forbidden) {
                        (true, true) => Some((5, offset)),
                        (true, false) => None,
                        _ => Some((6, offset)),
                    };
                    assert!(row_faults(&bytes).into_iter().eq(expected), "{offset}");
                }
            }
        }
    }
}

/// The settled domains of all values.
fn opening(book: &Book) -> Vec<u32> {
    let all: Vec<u32> = book.counts.iter().map(|&count| all_values(count)).collect();
    closure(book, &all)
}

/// "no rows forbid nothing", of every width; a sheet of the same rows without the mark allows nothing then.
#[test]
fn no_rows() {
    for width in 1..=4 {
        let counts = &[1, 32, 2, 32][..width];
        let book = forbidding(counts, &[]);
        let all = [1, u32::MAX, 3, u32::MAX];
        assert_eq!(opening(&book), all[..width]);
        assert_eq!(answers::done(&book, &opening(&book)), 1);
        let mut plain = book;
        plain.sheets[0].forbidden = false;
        assert_eq!(opening(&plain), vec![0; width]);
    }
}

/// Every combination forbidden, and every one but one.
#[test]
fn all_rows() {
    for counts in [&[3][..], &[2, 3], &[2, 1, 2], &[2, 2, 2, 2]] {
        let values: Vec<Vec<u8>> = counts.iter().map(|&count| (0..count).collect()).collect();
        let all = one_of_each(&values);
        let rows: Vec<&[u8]> = all.iter().map(|row| &row[..]).collect();
        assert_eq!(opening(&forbidding(counts, &rows)), vec![0; counts.len()]);
        for left in 0..all.len() {
            let mut rows = rows.clone();
            let set = rows.remove(left);
            let book = forbidding(counts, &rows);
            let alone: Vec<u32> = set.iter().map(|value| 1 << value).collect();
            assert_eq!(opening(&book), alone);
            assert_eq!(answers::done(&book, &alone), 1);
            assert!(allows(&book.sheets[0], set));
        }
    }
}

/// Two columns of two values and 00 forbidden. With column 1 narrowed to 0 the row is as live as before, and 0 of
/// column 0 has nothing left; narrowed to 1 the row goes, and nothing is struck.
#[test]
fn struck_without_a_row_cut() {
    let book = forbidding(&[2, 2], &[&[0, 0]]);
    assert_eq!(opening(&book), [3, 3]);
    assert!(!allows_every_choice(&book.sheets[0], &[3, 3]));
    assert_eq!(closure(&book, &[3, 1]), [2, 1]);
    assert_eq!(closure(&book, &[1, 3]), [1, 2]);
    assert_eq!(closure(&book, &[3, 2]), [3, 2]);
    assert!(allows_every_choice(&book.sheets[0], &[3, 2]));
    assert_eq!(closure(&book, &[1, 1]), [0, 0]);
}

/// Of three columns of two values: 0 of column 0 with all four of the others is forbidden, and goes; with it go
/// the rows. Done then, though nothing of the others is lost.
#[test]
fn a_strike_that_ends_its_own_rows() {
    let rows: [&[u8]; 4] = [&[0, 0, 0], &[0, 0, 1], &[0, 1, 0], &[0, 1, 1]];
    let book = forbidding(&[2, 2, 2], &rows);
    assert_eq!(opening(&book), [2, 3, 3]);
    assert_eq!(answers::done(&book, &[2, 3, 3]), 1);
    for without in 0..4 {
        let mut rows = rows.to_vec();
        rows.remove(without);
        assert_eq!(opening(&forbidding(&[2, 2, 2], &rows)), [3, 3, 3]);
    }
}

/// Width 1: the rows are the values that go. Done at once, and dead without any other.
#[test]
fn one_column() {
    let book = forbidding(&[4], &[&[0], &[2]]);
    assert_eq!(opening(&book), [10]);
    assert_eq!(answers::done(&book, &[10]), 1);
    assert_eq!(closure(&book, &[5]), [0]);
    assert_eq!(finish(&book, &[10], 9), (Outcome::Found(vec![1]), 1));
}

/// H with motor 1 and board 1 forbidden too: each value has another pair in each sheet alone, and stays; but
/// width 2 wants motor 1, which wants board 1.
#[test]
fn harbour_with_a_forbidden_pair() {
    let mut book = described_harbour();
    book.sheets.push(Sheet {
        forbidden: true,
        columns: vec![1, 2],
        rows: vec![vec![1, 1]],
    });
    let domains = opening(&book);
    assert_eq!(domains, [7, 3, 3]);
    assert_eq!(answers::done(&book, &domains), 0);
    assert_eq!(closure(&book, &[4, 3, 3]), [0; 3]);
    assert_eq!(closure(&book, &[3, 1, 3]), [3, 1, 3]);
    assert_eq!(answers::done(&book, &[3, 1, 3]), 7);
    // Width 0 and board 0 in the place of that pair: the first set is another one, by one try.
    book.sheets[2].columns = vec![0, 2];
    book.sheets[2].rows = vec![vec![0, 0]];
    let domains = opening(&book);
    assert_eq!(domains, [7, 3, 3]);
    assert_eq!(answers::done(&book, &domains), 0);
    assert_eq!(closure(&book, &[7, 3, 1]), [2, 1, 1]);
    let found = (Outcome::Found(vec![0, 0, 1]), 1);
    assert_eq!(finish(&book, &domains, 9), found);
}

/// Columns that differ in pairs by what is forbidden, as K7 says it by what is allowed.
#[test]
fn three_that_differ() {
    let equal: Vec<Vec<u8>> = vec![vec![0, 0], vec![1, 1]];
    let sheet = |columns: [u8; 2]| Sheet {
        forbidden: true,
        columns: columns.to_vec(),
        rows: equal.clone(),
    };
    let book = Book {
        counts: vec![2; 3],
        sheets: [[0, 1], [0, 2], [1, 2]].map(sheet).to_vec(),
    };
    assert_eq!(opening(&book), [3, 3, 3]);
    assert_eq!(finish(&book, &[3, 3, 3], 9), (Outcome::None, 2));
    assert_eq!(answers::done(&book, &[3, 3, 3]), 0);
}

/// By hand, both ways, and there and back.
#[test]
fn a_sheet_turned_over() {
    let book = described(&[2, 3], &[(&[0, 1], &[&[1, ANY], &[0, 2], &[1, 1]])]);
    let over = turned(&book, &book.sheets[0]);
    assert!(over.forbidden);
    assert_eq!(over.rows, [[0, 0], [0, 1]]);
    let back = turned(&book, &over);
    assert!(!back.forbidden);
    assert_eq!(back.rows, [[0, 2], [1, 0], [1, 1], [1, 2]]);
    assert_eq!(turned(&book, &back), over);
}

/// Four columns of 32 values: with three of them single, 31 rows leave one value of the last and 32 leave none.
#[test]
fn the_largest_columns() {
    let row = |value: u8| vec![5, 6, 7, value];
    for (rows, left) in [(31, 1 << 31), (32, 0)] {
        let rows: Vec<Vec<u8>> = (0..rows).map(row).collect();
        let rows: Vec<&[u8]> = rows.iter().map(|row| &row[..]).collect();
        let book = forbidding(&[32; 4], &rows);
        assert_eq!(opening(&book), [u32::MAX; 4]);
        let settled = closure(&book, &[1 << 5, 1 << 6, 1 << 7, u32::MAX]);
        assert_eq!(settled[3], left);
    }
}
