//! Short rows, by hand: which bytes may be any, what such a row matches, and the same rows written out.

use super::defined::without_short_rows;
use super::described;
use crate::cells::{is_right, matched};
use crate::finish::finish;
use crate::{all_values, closure, is_short, lies_in, row_faults, written_out, Book, Outcome, ANY};

/// The bytes of a book of one sheet: so many of four columns, of 3 values each, and two rows. The check of
/// row bytes looks at nothing else.
fn two_rows(width: u8) -> Vec<u8> {
    let mut bytes = vec![0; 2 * 512];
    bytes[4..6].copy_from_slice(&[4, 1]);
    bytes[8..12].fill(3);
    bytes[24] = width;
    for column in 0..width {
        bytes[25 + usize::from(column)] = column;
    }
    bytes[30] = 2;
    bytes
}

/// In each of a row's four places, for each width, in the first row, in the last and in an unused one.
#[test]
fn any_in_every_place() {
    for width in 1..=4 {
        for row in 0..3 {
            for i in 0..4 {
                let used = row < 2 && i < usize::from(width);
                let offset = 512 + 4 * row + i;
                for byte in 0..=255 {
                    let mut bytes = two_rows(width);
                    bytes[offset] = byte;
                    let expected = match byte {
                        0 => None,
                        1 | 2 | ANY if used => None,
                        _ if used => Some((5, offset)),
                        _ => Some((6, offset)),
                    };
                    let faults = row_faults(&bytes);
                    assert!(faults.into_iter().eq(expected), "{byte} at {offset}");
                }
            }
        }
    }
}

/// Any is no fault, and hides none: a value after it, a zero after it, and the next row are looked at.
#[test]
fn faults_beside_any() {
    for (changes, fault) in [
        (&[(512, ANY), (513, 3)][..], (5, 513)),
        (&[(512, ANY), (513, ANY), (514, ANY)], (6, 514)),
        (&[(513, ANY), (516, 254)], (5, 516)),
        (&[(516, ANY), (517, ANY), (520, ANY)], (6, 520)),
    ] {
        let mut bytes = two_rows(2);
        changes.iter().for_each(|&(at, byte)| bytes[at] = byte);
        assert_eq!(row_faults(&bytes), [fault]);
    }
}

/// Whatever V is: any is right, and the bytes from V to 254 are not.
#[test]
fn any_whatever_the_values() {
    for count in 1..=32 {
        for byte in 0..=255 {
            let right = usize::from(byte) < count || byte == ANY;
            assert_eq!(is_right(byte, count), right, "{byte} of {count}");
        }
    }
}

#[test]
fn what_a_cell_matches() {
    for domain in [0, 1, 6, 1 << 31, u32::MAX] {
        assert_eq!(matched(ANY, domain), domain);
        for value in 0..32 {
            assert_eq!(matched(value, domain), domain & 1 << value);
        }
    }
}

/// A row that has another value, and one that has none.
#[test]
fn when_a_short_row_lies_in_a_box() {
    let rows: &[&[u8]] = &[&[1, ANY], &[ANY, ANY]];
    let book = described(&[3, 3], &[(&[0, 2], rows)]);
    let sheet = &book.sheets[0];
    for (domains, first, second) in [
        ([7, 0, 7], true, true),
        ([2, 0, 4], true, true),
        ([5, 0, 7], false, true),
        ([7, 7, 0], false, false),
        ([0, 7, 7], false, false),
    ] {
        let lies = sheet.rows.iter().map(|row| lies_in(sheet, row, &domains));
        assert!(lies.eq([first, second]), "{domains:?}");
    }
}

/// The settled domains of all values.
fn opening(book: &Book) -> Vec<u32> {
    let all: Vec<u32> = book.counts.iter().map(|&count| all_values(count)).collect();
    closure(book, &all)
}

#[test]
fn a_sheet_of_short_rows_alone() {
    // Motor 0 goes with any board, and board 2 with any motor; so motor 1 wants board 2.
    let book = described(&[2, 3], &[(&[0, 1], &[&[0, ANY], &[ANY, 2]])]);
    assert_eq!(opening(&book), [3, 7]);
    assert_eq!(closure(&book, &[2, 7]), [2, 4]);
    assert_eq!(closure(&book, &[3, 3]), [1, 3]);
    assert_eq!(closure(&book, &[2, 3]), [0, 0]);
    assert_eq!(finish(&book, &[3, 7], 9), (Outcome::Found(vec![0, 0]), 2));
    assert_eq!(finish(&book, &[2, 4], 9), (Outcome::Found(vec![1, 2]), 0));
}

/// Of every width, with columns of 1 value and of 32: nothing is bound.
#[test]
fn a_row_that_is_all_any() {
    for width in 1..=4 {
        let columns = &[0, 1, 2, 3][..width];
        let book = described(&[1, 32, 2, 32], &[(columns, &[&[ANY; 4][..width]])]);
        assert_eq!(opening(&book), [1, u32::MAX, 3, u32::MAX]);
        assert_eq!(closure(&book, &[1, 1 << 31, 2, 6]), [1, 1 << 31, 2, 6]);
        assert_eq!(closure(&book, &[1, 6, 3, 0]), [0; 4]);
    }
}

/// Sheet 1 strikes board 0 and board 1; any of sheet 0 carries board 2 alone then, and a narrowed column
/// keeps what it was narrowed to.
#[test]
fn what_a_column_has_lost_stays_lost() {
    let sheets: [(&[u8], &[&[u8]]); 2] = [(&[0, 1], &[&[0, ANY]]), (&[1, 2], &[&[2, 0], &[2, 1]])];
    let book = described(&[2, 3, 2], &sheets);
    assert_eq!(opening(&book), [1, 4, 3]);
    assert_eq!(closure(&book, &[3, 5, 2]), [1, 4, 2]);
    let alone = described(&[2, 3, 2], &sheets[..1]);
    assert_eq!(closure(&alone, &[3, 5, 2]), [1, 5, 2]);
}

/// A row that goes takes with it what any kept; a dead session has no row, however short.
#[test]
fn a_short_row_that_goes() {
    let book = described(&[2, 4], &[(&[0, 1], &[&[0, ANY], &[1, 3]])]);
    assert_eq!(opening(&book), [3, 15]);
    assert_eq!(closure(&book, &[2, 15]), [2, 8]);
    assert_eq!(closure(&book, &[2, 7]), [0, 0]);
    assert_eq!(closure(&book, &[3, 0]), [0, 0]);
    assert_eq!(finish(&book, &[0, 0], 9), (Outcome::None, 0));
    let all = described(&[2, 4], &[(&[0, 1], &[&[ANY, ANY]]), (&[0], &[])]);
    assert_eq!(opening(&all), [0, 0]);
}

/// Any is no value: the lowest that is left is taken for it, and in a set of many columns too.
#[test]
fn the_first_full_set_by_short_rows() {
    let rows: &[&[u8]] = &[&[2, 0], &[ANY, 3]];
    let book = described(&[4, 4], &[(&[0, 1], rows)]);
    assert_eq!(finish(&book, &[15, 9], 9), (Outcome::Found(vec![0, 3]), 1));
    assert_eq!(finish(&book, &[12, 9], 9), (Outcome::Found(vec![2, 0]), 2));
    let many: Vec<(&[u8], &[&[u8]])> = vec![(&[0, 15], rows), (&[3, 7, 15], &[&[ANY, 2, ANY]])];
    let book = described(&[4; 16], &many);
    let mut first = vec![0; 16];
    (first[7], first[15]) = (2, 3);
    // Columns 7 and 15 are single before their turn.
    let found = (Outcome::Found(first), 14);
    assert_eq!(finish(&book, &opening(&book), 14), found);
}

/// By hand, and how many: one for each way to take the values.
#[test]
fn rows_written_out() {
    let rows: &[&[u8]] = &[&[1, 0], &[ANY, 1], &[0, ANY], &[ANY, ANY]];
    let book = described(&[2, 3], &[(&[0, 1], rows), (&[1], &[&[2]]), (&[0], &[])]);
    let written: &[&[u8]] = &[
        // 1 0 as it is; any 1; 0 any; any any
        &[1, 0],
        &[0, 1],
        &[1, 1],
        &[0, 0],
        &[0, 1],
        &[0, 2],
        &[0, 0],
        &[0, 1],
        &[0, 2],
        &[1, 0],
        &[1, 1],
        &[1, 2],
    ];
    let expected = described(&[2, 3], &[(&[0, 1], written), (&[1], &[&[2]]), (&[0], &[])]);
    assert_eq!(written_out(&book), expected);
    assert_eq!(written_out(&expected), expected);
    assert_eq!(without_short_rows(&book).sheets[0].rows, [[1, 0]]);
    let short: Vec<bool> = rows.iter().map(|row| is_short(row)).collect();
    assert_eq!(short, [false, true, true, true]);
    for (counts, many) in [([1, 1], 1), ([32, 1], 32), ([32, 32], 1_024)] {
        let book = described(&counts, &[(&[0, 1], &[&[ANY, ANY]])]);
        assert_eq!(written_out(&book).sheets[0].rows.len(), many);
    }
}
