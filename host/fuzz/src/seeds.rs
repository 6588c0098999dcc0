//! The first inputs of a fuzz run: the conformance kit, small sweeps, and seeded books and lists.

use crate::{described, described_by_seed, raw, LONGEST_INPUT, MENDED};
use conformance::{back, changed, contradicting, finish, harbour, kit, last_four_forbidden};
use conformance::{narrow, one_forbidden, one_large_column, one_sheet, regular, rising_rows};
use conformance::{stairs, tiny};
use conformance::{tries_of_contradicting, write, Book, Case, Run, Sheet, ANY, FINISH, MARK};
use std::ops::Range;

/// The first inputs, always the same: the vectors of the conformance kit, sweeps over single bytes, over pairs
/// of row bytes and over row counts, sheets that are done or nearly, limits of finishes, forbidden sheets and rows
/// of these that don't rise, and so many seeded runs and seeded books, damaged ones among them.
pub fn seeds(count: u64) -> Vec<Vec<u8>> {
    let mut seeds = Vec::new();
    for vector in kit::vectors() {
        seeds.push(raw(0, &vector.book, &vector.orders));
        seeds.extend(both(&vector.book, &vector.orders));
    }
    seeds.extend(wrong_bytes(&tiny(), 4..96, 255));
    seeds.extend(wrong_bytes(&harbour(), 4..96, 255));
    for value in [5, 254, ANY] {
        seeds.extend(wrong_bytes(&regular(4, 5, 1, 3, 4), 512..528, value));
    }
    for value in [5, ANY] {
        seeds.extend(wrong_pairs(&regular(4, 5, 1, 3, 2), 512..528, value));
    }
    for rows in 1..127 {
        // The last byte of the last unused row, however many there are.
        seeds.extend(wrong_bytes(&regular(4, 5, 1, rows, 4), 1019..1020, 1));
    }
    seeds.extend((0..=508).filter(|rows| rows % 64 < 2).map(row_count));
    seeds.extend((1..=508).filter(|rows| rows % 64 < 2).map(last_row));
    seeds.push(rows_past_a_gap());
    for rows in (1..=508).filter(|rows| rows % 64 < 2) {
        seeds.extend([0, 1].map(|value| last_short_row(rows, value)));
    }
    seeds.extend(done_sheets());
    seeds.extend((0..7).map(last_rows_of_a_word));
    seeds.extend(limits());
    seeds.extend(forbidden_sheets());
    seeds.extend(large_columns());
    seeds.extend(last_four_counted());
    seeds.extend(rows_that_dont_rise());
    for seed in 0..count {
        let run = Run::new(seed);
        seeds.extend(both(&run.book, &run.orders));
        seeds.push(raw(0, &Case::new(seed).bytes, &[]));
    }
    seeds.retain(|seed| seed.len() <= LONGEST_INPUT);
    seeds
}

/// A book as its bytes, whose checks are then mended, and described if it is accepted.
fn both(book: &[u8], orders: &[u8]) -> impl Iterator<Item = Vec<u8>> {
    let described = reference::decode(book).map(|book| described(&book, orders));
    [raw(MENDED, book, orders)].into_iter().chain(described)
}

/// A book with each of these bytes made this value, one at a time, and the checks mended. Any is right in
/// some places.
fn wrong_bytes(book: &Book, places: Range<usize>, value: u8) -> impl Iterator<Item = Vec<u8>> {
    let bytes = write(book);
    places.map(move |at| {
        let mut bytes = bytes.clone();
        bytes[at] = value;
        raw(MENDED, &bytes, &[])
    })
}

/// The same with two at a time: the first of two faults counts.
fn wrong_pairs(book: &Book, places: Range<usize>, value: u8) -> Vec<Vec<u8>> {
    let mut pairs = Vec::new();
    for first in places.clone() {
        for second in first + 1..places.end {
            let bytes = changed(book, &[(first, value), (second, value)]);
            pairs.push(raw(MENDED, &bytes, &[]));
        }
    }
    pairs
}

/// A sheet of so many rows and one of 30 more: live rows are kept in words of 64.
fn row_count(rows: usize) -> Vec<u8> {
    let orders = [narrow(0, 0xFF_FFFF), FINISH, narrow(3, 0xFFFF), FINISH].concat();
    described_by_seed(
        &[32; 4],
        &[0b1001, 0b110],
        &[rows, (rows + 30).min(508)],
        &orders,
    )
}

/// A sheet of so many rows that are all different, narrowed to its last: nothing else shows that it is there.
fn last_row(rows: usize) -> Vec<u8> {
    let row = |r: usize| vec![(r % 32) as u8, (r / 32) as u8];
    let last = row(rows - 1);
    let orders = [narrow(0, 1 << last[0]), narrow(1, 1 << last[1]), FINISH].concat();
    two_columns((0..rows).map(row).collect(), &orders)
}

/// A sheet of so many rows 0 0, the last of them 1 and any, narrowed to it; and to the first of each 64, which
/// has this value and 4, if the value is 1.
fn last_short_row(rows: usize, value: u8) -> Vec<u8> {
    let row = |r: usize| match r % 64 {
        _ if r + 1 == rows => vec![1, ANY],
        0 => vec![value, 4],
        _ => vec![0, 0],
    };
    let orders = [narrow(1, 0xF0), FINISH, narrow(0, 2), FINISH].concat();
    two_columns((0..rows).map(row).collect(), &orders)
}

/// Thirty rows, one that a narrow cuts away, and behind it rows that each have a value of their own.
fn rows_past_a_gap() -> Vec<u8> {
    let row = |r: u8| match r {
        30 => vec![1, 0],
        _ => vec![0, r.saturating_sub(30)],
    };
    two_columns((0..50).map(row).collect(), &[narrow(0, 1), FINISH].concat())
}

/// Two sheets of each width from 2 to 4, over columns of two values: the first allows every choice, the second all but
/// the last, and is done when a value of that is gone. By plain rows, with the first row of each twice; and by short
/// ones.
fn done_sheets() -> Vec<Vec<u8>> {
    let mut seeds = Vec::new();
    for width in 2..=4_u8 {
        let plain = |n: u8| (0..width).map(|i| n >> i & 1).collect();
        let mut all: Vec<Vec<u8>> = (0..1 << width).map(plain).collect();
        all.insert(0, all[0].clone());
        let mut stairs = stairs(&vec![2; width.into()]);
        stairs.push(vec![1; width.into()]);
        for rows in [all, stairs] {
            let sheet = |first: u8, rows: &[Vec<u8>]| Sheet {
                forbidden: false,
                columns: (first..first + width).collect(),
                rows: rows.to_vec(),
            };
            let book = Book {
                counts: vec![2; 2 * usize::from(width)],
                sheets: vec![sheet(0, &rows), sheet(width, &rows[..rows.len() - 1])],
            };
            let orders = [MARK, narrow(width, 1), back(1), narrow(width, 2), FINISH].concat();
            seeds.extend(both(&write(&book), &orders));
        }
    }
    seeds
}

/// A narrow leaves the last four rows of this word of 64 and no other: the sheet is done by them alone.
fn last_rows_of_a_word(word: usize) -> Vec<u8> {
    let first = 64 * word + 60;
    let row = |r: usize| match r.checked_sub(first) {
        Some(n) => vec![n as u8 & 1, n as u8 >> 1, 0],
        None => vec![0, 0, 1],
    };
    let book = one_sheet(&[2; 3], (0..first + 4).map(row).collect());
    raw(MENDED, &write(&book), &narrow(2, 1))
}

/// Finishes with limits on both sides of what they need, and of the largest: of a set, of none, and of a search that
/// no limit ends.
fn limits() -> Vec<Vec<u8>> {
    let mut seeds = Vec::new();
    for (book, needed) in [
        (harbour(), 2),
        (contradicting(&[], 2), 2),
        (
            contradicting(&[3, 2], 3),
            tries_of_contradicting(&[3, 2], 3),
        ),
        (contradicting(&[32; 13], 2), 256),
    ] {
        for limit in [
            1,
            needed - 1,
            needed,
            needed + 1,
            0,
            65_535,
            65_536,
            1 << 24,
        ] {
            seeds.extend(both(&write(&book), &finish(limit)));
        }
    }
    seeds
}

/// Forbidden sheets of each width over columns of two values: without rows, with one, with all but one that have 0 in
/// the first column, with all of these, with all but one of all, and with all. Then of each number of rows around a word of
/// 64, in two columns: a narrow to the last row's values leaves nothing, and one to its second value strikes. At last
/// every width byte.
fn forbidden_sheets() -> Vec<Vec<u8>> {
    let mut seeds = Vec::new();
    for width in 1..=4_usize {
        let value = |n: usize, i: usize| (n >> (width - 1 - i) & 1) as u8;
        let row = |n: usize| (0..width).map(|i| value(n, i)).collect();
        let all: Vec<Vec<u8>> = (0..1 << width).map(row).collect();
        let half = all.len() / 2;
        for rows in [0, 1, half - 1, half, all.len() - 1, all.len()] {
            let mut book = one_forbidden(&vec![2; width], all[..rows].to_vec());
            book.counts.push(3);
            let last = width as u8 - 1;
            let orders = [MARK, narrow(last, 1), FINISH, back(1), narrow(0, 1), FINISH];
            seeds.extend(both(&write(&book), &orders.concat()));
        }
    }
    for rows in (1..=508).filter(|rows| rows % 64 < 2 || rows % 127 < 2) {
        let book = one_forbidden(&[17, 32], rising(rows));
        let (first, second) = ((rows - 1) / 32, (rows - 1) % 32);
        let orders = [
            MARK,
            narrow(1, 1 << second),
            FINISH,
            back(1),
            narrow(0, 1 << first | 1 << 16),
            FINISH,
        ];
        seeds.extend(both(&write(&book), &orders.concat()));
    }
    let bytes = write(&one_forbidden(&[5; 2], rising(3)));
    seeds.extend((0..=255).map(|byte| {
        let mut bytes = bytes.clone();
        bytes[24] = byte;
        raw(MENDED, &bytes, &FINISH)
    }));
    seeds
}

/// Forbidden sheets of one large column beside small ones, at each place: whether values have to be counted is decided by
/// the choices of the others at that place alone. One value of it goes at the opening; without the last row it goes with a
/// narrow of a small column. At last a narrow leaves that value alone.
fn large_columns() -> Vec<Vec<u8>> {
    let mut seeds = Vec::new();
    for (place, whole) in one_large_column() {
        let mut nearly = whole.clone();
        let last = nearly.sheets[0].rows.pop().expect("a row");
        let small = (place + 1) % last.len();
        let orders = [
            MARK,
            narrow(small as u8, 7 & !(1 << last[small])),
            FINISH,
            back(1),
            narrow(place as u8, 1 << last[place]),
            FINISH,
        ];
        for book in [whole, nearly] {
            seeds.extend(both(&write(&book), &orders.concat()));
        }
    }
    seeds
}

/// Forbidden sheets that are counted in a state in which a word has rows among its last four alone.
fn last_four_counted() -> Vec<Vec<u8>> {
    let mut seeds = Vec::new();
    for book in last_four_forbidden() {
        let last = book.counts.len() as u8 - 1;
        let orders = [
            MARK,
            narrow(0, 1 << 30),
            FINISH,
            back(1),
            narrow(last, 2),
            FINISH,
        ];
        seeds.extend(both(&write(&book), &orders.concat()));
    }
    seeds
}

/// So many rows of two values, which rise.
fn rising(rows: usize) -> Vec<Vec<u8>> {
    let row = |r: usize| vec![(r / 32) as u8, (r % 32) as u8];
    (0..rows).map(row).collect()
}

/// Rows of a forbidden sheet near the ends of blocks, each made equal to the one before it, and the row of zeros; the same
/// with a filler, or a value that is too large, at the end of the book. And each byte of three rows as others, any among
/// them, alone and two at a time.
fn rows_that_dont_rise() -> Vec<Vec<u8>> {
    let mut seeds = Vec::new();
    let book = one_forbidden(&[17, 32], rising(500));
    let whole = write(&book);
    let rows = &rising_rows(&book)[0];
    for r in (1..500).filter(|r| (r + 2) % 127 < 4 || [1, 2, 499].contains(r)) {
        for row in [[0; 4], *whole[rows[r - 1]..].first_chunk().expect("a row")] {
            for (at, byte) in [(0, b'F'), (rows[499], 17), (rows[499] + 3, 1)] {
                let mut bytes = whole.clone();
                bytes[rows[r]..rows[r] + 4].copy_from_slice(&row);
                bytes[at] = byte;
                seeds.push(raw(MENDED, &bytes, &[]));
            }
        }
    }
    let three = one_forbidden(
        &[3; 4],
        vec![vec![0, 1, 1, 1], vec![1; 4], vec![1, 1, 2, 1]],
    );
    for value in [0, 1, 2, 3, 254, ANY] {
        seeds.extend(wrong_bytes(&three, 512..528, value));
    }
    for value in [0, 1, ANY] {
        seeds.extend(wrong_pairs(&three, 512..524, value));
    }
    seeds
}

/// A book of two columns of 32 values and a sheet of these rows, with these orders.
fn two_columns(rows: Vec<Vec<u8>>, orders: &[u8]) -> Vec<u8> {
    let book = one_sheet(&[32; 2], rows);
    raw(MENDED, &write(&book), orders)
}
