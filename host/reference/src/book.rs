//! An accepted book as plain data.

use crate::{blocks_of, head, refusal, rows};

/// The data of a book, with nothing of its layout.
#[derive(Clone, Debug, PartialEq, Eq)]
pub struct Book {
    /// "values V of column i", one number for each of the C columns.
    pub counts: Vec<u8>,
    /// The S sheets in turn.
    pub sheets: Vec<Sheet>,
}

/// The data of one sheet.
#[derive(Clone, Debug, PartialEq, Eq)]
pub struct Sheet {
    /// "marks a forbidden sheet": its rows are what it doesn't allow.
    pub forbidden: bool,
    /// "k column numbers below C, each above the one before"
    pub columns: Vec<u8>,
    /// The n rows in the order of the book; each has k cells, one for each column of the sheet: a value,
    /// or any.
    pub rows: Vec<Vec<u8>>,
}

/// What an accepted book says; nothing for a refused one.
pub fn decode(book: &[u8]) -> Option<Book> {
    if refusal(book).is_some() {
        return None;
    }
    let columns = head::columns(book);
    let mut sheets = Vec::new();
    let mut block = 1;
    for s in 0..head::sheets(book) {
        let entry = head::entry(book, s);
        sheets.push(sheet(book, s, &entry, block));
        block += blocks_of(&entry);
    }
    Some(Book {
        counts: book[8..8 + columns].to_vec(),
        sheets,
    })
}

/// Sheet s, whose rows start with this block.
fn sheet(book: &[u8], s: usize, entry: &head::Entry, first_block: usize) -> Sheet {
    let numbers = 24 + 8 * s + 1;
    let mut rows = Vec::new();
    for r in 0..entry.rows {
        let start = rows::start(first_block, r);
        rows.push(book[start..start + entry.width].to_vec());
    }
    Sheet {
        forbidden: entry.forbidden,
        columns: book[numbers..numbers + entry.width].to_vec(),
        rows,
    }
}
