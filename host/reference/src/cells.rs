//! The cells of a row, one for each column of its sheet: a value, or any.

use crate::finish::one_of_each;
use crate::orders::value_bit;
use crate::{Book, Sheet};

/// "Row byte 255 in a used column stands for all its values." The cell is *any*, and a row that has
/// one is a *short row*.
pub const ANY: u8 = 255;

/// Whether a cell is right in a column of so many values: "each below its column's V", but "Refusal 5
/// lets 255 pass."
pub(crate) fn is_right(cell: u8, count: usize) -> bool {
    cell == ANY || usize::from(cell) < count
}

/// The values of this domain that a cell matches. A value matches itself; of any, "it carries every
/// value there".
pub(crate) fn matched(cell: u8, domain: u32) -> u32 {
    if cell == ANY {
        return domain;
    }
    domain & value_bit(cell)
}

/// "A row lies in a box when its other values do and the 255 columns aren't empty". A value does when it
/// "is in its column's domain".
pub fn lies_in(sheet: &Sheet, row: &[u8], domains: &[u32]) -> bool {
    let mut cells = sheet.columns.iter().zip(row);
    cells.all(|(&column, &cell)| matched(cell, domains[usize::from(column)]) != 0)
}

/// Whether a row has any in some column.
pub fn is_short(row: &[u8]) -> bool {
    row.contains(&ANY)
}

/// "a book with such rows written out": in the place of each short row, one for each way to take a value
/// of its column for each any. They may be more than a sheet can hold.
pub fn written_out(book: &Book) -> Book {
    let mut book = book.clone();
    for sheet in &mut book.sheets {
        let columns = &sheet.columns;
        let plain = |row: &Vec<u8>| {
            let cells = columns.iter().zip(row);
            let values = cells.map(|(&column, &cell)| match cell {
                ANY => (0..book.counts[usize::from(column)]).collect(),
                value => vec![value],
            });
            one_of_each(&values.collect::<Vec<_>>())
        };
        sheet.rows = sheet.rows.iter().flat_map(plain).collect();
    }
    book
}
