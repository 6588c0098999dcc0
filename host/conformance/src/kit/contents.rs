//! What an accepted book says, as lines: for software that only writes books, or only reads them.
//!
//! ```text
//! values 3 2 2      the V of each column
//! sheet 0 1         a sheet, by the numbers of its columns
//! row 0 0           a row of it, by its values
//! row 1 0
//! forbidden 1 2     a forbidden sheet: its rows are what it doesn't allow
//! row 1 1
//! ```

use crate::{Book, Sheet};

/// The words before the columns of a sheet, by its kind.
const SHEET: &str = "sheet";
const FORBIDDEN: &str = "forbidden";

/// The lines of a book.
pub fn contents(book: &Book) -> String {
    let mut lines = line("values", &book.counts);
    for sheet in &book.sheets {
        let word = if sheet.forbidden { FORBIDDEN } else { SHEET };
        lines += &line(word, &sheet.columns);
        for row in &sheet.rows {
            lines += &line("row", row);
        }
    }
    lines
}

fn line(word: &str, numbers: &[u8]) -> String {
    let numbers = numbers.iter().map(|number| format!(" {number}"));
    format!("{word}{}\n", numbers.collect::<String>())
}

/// The book of these lines.
pub fn read_contents(lines: &str) -> Book {
    let mut book = Book {
        counts: Vec::new(),
        sheets: Vec::new(),
    };
    for line in lines.lines() {
        let (word, numbers) = line.split_once(' ').expect("a word and numbers");
        let numbers = numbers.split(' ').map(|number| number.parse());
        let numbers: Vec<u8> = numbers.collect::<Result<_, _>>().expect("numbers");
        match (word, book.sheets.last_mut()) {
            ("values", None) => book.counts = numbers,
            (SHEET | FORBIDDEN, _) => book.sheets.push(Sheet {
                forbidden: word == FORBIDDEN,
                columns: numbers,
                rows: Vec::new(),
            }),
            ("row", Some(sheet)) => sheet.rows.push(numbers),
            _ => panic!("no such line here: {line}"),
        }
    }
    book
}
