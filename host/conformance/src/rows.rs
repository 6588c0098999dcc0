//! The bytes of a book's rows: where each stands, and what it may be.

use crate::{refused, Book, Region, ANY, BLOCK, ROWS_OF_A_BLOCK};

/// One byte of a sheet's blocks; those of the checks are none.
#[derive(Clone, Copy, Debug)]
pub struct RowByte {
    /// Its offset in the whole file.
    pub at: usize,
    /// The number of its sheet.
    pub sheet: usize,
    /// What it is: a row value, row filler, or of an unused row.
    pub region: Region,
    /// The lowest number that is wrong in it: its column's V, or 1 where it must be zero.
    pub limit: u8,
    /// Whether any may stand there: in the place of a value, but not of a forbidden sheet.
    pub any: bool,
}

impl RowByte {
    /// Whether it may be this: below its limit, or any where that may stand.
    pub fn may_be(&self, byte: u8) -> bool {
        byte < self.limit || (self.any && byte == ANY)
    }

    /// Refusal 5 for a value, 6 for a byte that must be zero.
    pub fn refusal(&self) -> u64 {
        match self.region {
            Region::RowValue => 5,
            _ => 6,
        }
    }

    /// The number of a book in which this byte is the first at fault.
    pub fn refused(&self) -> u64 {
        refused(self.refusal(), self.at / 4)
    }
}

/// Where a row of a sheet stands in the file; the sheet's rows start with this block.
fn start(first_block: usize, row: usize) -> usize {
    let block = first_block + row / ROWS_OF_A_BLOCK;
    block * BLOCK + row % ROWS_OF_A_BLOCK * 4
}

/// For each forbidden sheet, where each of its rows stands in the file.
pub fn rising_rows(book: &Book) -> Vec<Vec<usize>> {
    let mut found = Vec::new();
    let mut first_block = 1;
    for sheet in &book.sheets {
        let rows = 0..sheet.rows.len();
        if sheet.forbidden {
            found.push(rows.map(|row| start(first_block, row)).collect());
        }
        first_block += sheet.rows.len().div_ceil(ROWS_OF_A_BLOCK);
    }
    found
}

/// Every byte of the rows of a book, in file order.
pub fn row_bytes(book: &Book) -> Vec<RowByte> {
    let mut found = Vec::new();
    let mut first_block = 1;
    for (number, sheet) in book.sheets.iter().enumerate() {
        let blocks = sheet.rows.len().div_ceil(ROWS_OF_A_BLOCK);
        for row in 0..blocks * ROWS_OF_A_BLOCK {
            let start = start(first_block, row);
            found.extend((0..4).map(|i| {
                let (region, limit) = match sheet.columns.get(i) {
                    _ if row >= sheet.rows.len() => (Region::UnusedRow, 1),
                    Some(&column) => (Region::RowValue, book.counts[usize::from(column)]),
                    None => (Region::RowFiller, 1),
                };
                RowByte {
                    at: start + i,
                    sheet: number,
                    region,
                    limit,
                    any: region == Region::RowValue && !sheet.forbidden,
                }
            }));
        }
        first_block += blocks;
    }
    found
}
