//! Short rows: the same book with them written out, and what they do in a run.

use crate::{Seen, Tally};
use reference::{closure, is_short, lies_in, written_out, Book, Sheet, ANY};

/// "rows n, 0 to 508"
pub(crate) const MOST_ROWS: usize = 508;

/// "a book with such rows written out, where that book is within the limits"
pub fn twin(book: &Book) -> Option<Book> {
    let mut sheets = book.sheets.iter();
    let within = sheets.all(|sheet| rows_written_out(book, sheet) <= MOST_ROWS);
    within.then(|| written_out(book))
}

/// How many plain rows those of a sheet stand for.
fn rows_written_out(book: &Book, sheet: &Sheet) -> usize {
    let values = |&column: &u8| usize::from(book.counts[usize::from(column)]);
    let ways = |row: &Vec<u8>| -> usize {
        let cells = sheet.columns.iter().zip(row);
        let short = cells.filter(|(_, &cell)| cell == ANY);
        short.map(|(column, _)| values(column)).product()
    };
    sheet.rows.iter().map(ways).sum()
}

/// Whether a book has a short row.
pub fn has_short_rows(book: &Book) -> bool {
    let mut rows = book.sheets.iter().flat_map(|sheet| &sheet.rows);
    rows.any(|row| is_short(row))
}

/// Counts what short rows do in one run, by its answers, the opening first.
pub fn count_short(tally: &mut Tally, book: &Book, answers: &[Seen]) {
    let mut plain = book.clone();
    for sheet in &mut plain.sheets {
        sheet.rows.retain(|row| !is_short(row));
    }
    let [mut live, mut lost, mut alone] = [false; 3];
    let mut sets = 0;
    for seen in answers.iter().filter(|seen| !seen.is_dead()) {
        let domains = &seen.domains[..book.counts.len()];
        // A finish shows its full set where the domains would be: a box like any other.
        let by_short = || closure(&plain, domains) != domains;
        match seen.outcome {
            0 => {
                live = live || has_live_any(book, domains, |_| true);
                lost = lost || has_live_any(book, domains, |c| lacks_values(book, domains, c));
                alone = alone || by_short();
            }
            1 => sets += usize::from(by_short()),
            _ => {}
        }
    }
    for (words, count) in [
        (
            "short rows: runs that have them",
            has_short_rows(book).into(),
        ),
        ("short rows: runs with a live one", live.into()),
        (
            "short rows: runs with a live one whose column has lost values",
            lost.into(),
        ),
        (
            "short rows: runs with a value that they alone carry",
            alone.into(),
        ),
        (
            "short rows: finishes with a set that they alone match",
            sets,
        ),
    ] {
        tally.add(words, count);
    }
}

/// Whether a row lies in these domains that has any in such a column.
fn has_live_any(book: &Book, domains: &[u32], such: impl Fn(usize) -> bool) -> bool {
    book.sheets.iter().any(|sheet| {
        let mut rows = sheet.rows.iter().filter(|row| lies_in(sheet, row, domains));
        rows.any(|row| {
            let mut cells = sheet.columns.iter().zip(row);
            cells.any(|(&column, &cell)| cell == ANY && such(column.into()))
        })
    })
}

/// Whether a column holds less than all its values.
fn lacks_values(book: &Book, domains: &[u32], column: usize) -> bool {
    domains[column].count_ones() < book.counts[column].into()
}
