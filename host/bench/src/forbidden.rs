//! Books with forbidden sheets: a few rows, as makers have them; as many as a sheet holds; and tight sheets, which forbid
//! nearly everything. In mixed books every other sheet is a plain one.

use crate::hard::{cube, parity, seeded};
use crate::opponents::{finish, Packed};
use crate::subjects::middle;
use conformance::{harbour, regular, turned_over, write, Book, Random, ANY};
use std::collections::BTreeSet;

/// "rows n, 0 to 508"
const ROWS: usize = 508;

/// What the finish of a hard book must take.
const TRIES: u64 = 100;

/// Where there are short rows: of a hundred rows of the plain sheets, how many have a 255.
const SHORT: usize = 5;

/// Names and books.
pub fn books() -> Vec<(&'static str, Book)> {
    let empty = |values, width, step| forbidding(regular(16, values, 8, 0, width), step);
    let all = |values, rows, width| filled(empty(values, width, 1), rows);
    let mixed = |values, rows, width| filled(empty(values, width, 2), rows);
    vec![
        ("harbour, the rows of H", forbidding(harbour(), 1)),
        ("harbour, what clashes in H", all_turned_over(&harbour())),
        ("few, width 2", all(32, 40, 2)),
        ("few, width 4", all(32, 40, 4)),
        ("full, width 2", all(32, ROWS, 2)),
        ("full, width 4", all(32, ROWS, 4)),
        ("tight, width 2", all(22, 430, 2)),
        ("tight, width 3", all(8, 440, 3)),
        ("tight, width 4", all(4, 220, 4)),
        ("mixed, width 2", mixed(20, 300, 2)),
        ("mixed, width 3", mixed(8, 400, 3)),
        ("mixed, width 2, short", shortened(mixed(20, 300, 2))),
        ("mixed, width 3, short", shortened(mixed(8, 400, 3))),
        ("hard, found: random, 200 rows", hard(4, 200)),
        (
            "hard, none: parity, 12 columns",
            all_turned_over(&parity(8, &cube(), 4)),
        ),
    ]
}

/// The book that allows the same without forbidden sheets, where the plain ones have room for their rows.
pub fn in_plain_sheets(book: &Book) -> Option<Book> {
    let mut plain = book.clone();
    for sheet in plain.sheets.iter_mut().filter(|sheet| sheet.forbidden) {
        *sheet = turned_over(book, sheet)?;
    }
    Some(plain)
}

/// What the sheets of a book are, in words.
pub fn kinds(book: &Book) -> String {
    let forbidden = book.sheets.iter().filter(|sheet| sheet.forbidden).count();
    let mut rows = book.sheets.iter().flat_map(|sheet| &sheet.rows);
    let words = format!("{forbidden} of the sheets forbidden");
    if rows.any(|row| row.contains(&ANY)) {
        format!("{words}; 255 in {SHORT} % of the other rows")
    } else {
        words
    }
}

/// The book with every sheet forbidden, or every second or so, from the first on.
fn forbidding(mut book: Book, step: usize) -> Book {
    let sheets = book.sheets.iter_mut().step_by(step);
    sheets.for_each(|sheet| sheet.forbidden = true);
    book
}

/// The book whose every sheet is of the other kind and allows the same.
fn all_turned_over(book: &Book) -> Book {
    let sheets = book.sheets.iter().map(|sheet| turned_over(book, sheet));
    Book {
        sheets: sheets.collect::<Option<_>>().expect("they are small"),
        ..book.clone()
    }
}

/// The book with so many seeded rows in each sheet, rising. The middle values are a full set: a forbidden sheet is
/// without their row, and a plain one has it.
fn filled(mut book: Book, count: usize) -> Book {
    let random = &mut Random::new(0);
    let set = middle(&book);
    let Book { counts, sheets } = &mut book;
    for sheet in sheets {
        let columns = sheet.columns.iter().map(|&column| usize::from(column));
        let kept: Vec<u8> = columns.clone().map(|column| set[column]).collect();
        let mut rows = BTreeSet::new();
        if !sheet.forbidden {
            rows.insert(kept.clone());
        }
        while rows.len() < count {
            let value = |column: usize| random.below(counts[column].into()) as u8;
            let row: Vec<u8> = columns.clone().map(value).collect();
            if row != kept {
                rows.insert(row);
            }
        }
        sheet.rows = rows.into_iter().collect();
    }
    book
}

/// The book with 255 in one cell of some rows of its plain sheets.
fn shortened(mut book: Book) -> Book {
    let random = &mut Random::new(0);
    let plain = book.sheets.iter_mut().filter(|sheet| !sheet.forbidden);
    for row in plain.flat_map(|sheet| &mut sheet.rows) {
        if random.below(100) < SHORT {
            let place = random.below(row.len());
            row[place] = ANY;
        }
    }
    book
}

/// The first seed that gives a hard book of 16 columns, each in two of 8 sheets of width 4.
fn hard(values: u8, rows: usize) -> Book {
    let book = |seed| {
        let book = seeded(&mut Random::new(seed), values, 0);
        filled(forbidding(book, 1), rows)
    };
    let tries = |book: &Book| finish::<Packed>(&write(&all_turned_over(book))).tries;
    let mut books = (0..).map(book);
    books.find(|book| tries(book) >= TRIES).expect("a seed")
}
