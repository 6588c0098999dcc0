//! The blocks of the sheets: where a row stands, and the faults of the bytes there.

use crate::{blocks_of, cells, head, BLOCK, ROWS_OF_A_BLOCK};

/// A refusal, and the offset of its byte in the whole file.
pub type RowFault = (u64, usize);

/// The number and the place; "7 for rows that don't rise" comes "after 5 and 6".
pub(crate) fn refusal(book: &[u8]) -> Option<(u64, usize)> {
    wrong_byte(book).or_else(|| wrong_order(book))
}

/// "The place is the offset in the whole file divided by 4, rounded down, for the first fault in file
/// order. Answers: 6 for filler, ranked with 5 by file order."
fn wrong_byte(book: &[u8]) -> Option<(u64, usize)> {
    let mut faults = row_faults(book).into_iter();
    let (number, offset) = faults.next()?;
    Some((number, place(offset)))
}

/// "7 for rows that don't rise, place the offset, as in W1, of the first row not above the one before it
/// in its sheet"
fn wrong_order(book: &[u8]) -> Option<(u64, usize)> {
    let mut rows = fallen_rows(book).into_iter();
    rows.next().map(|offset| (7, place(offset)))
}

/// "the offset in the whole file divided by 4, rounded down"
fn place(offset: usize) -> usize {
    offset / 4
}

/// The three refusals, each with every place that it can have: any row of the 32 blocks after the head; but
/// the first of all has no row before it.
pub(crate) fn refusals() -> [(u64, Vec<usize>); 3] {
    let rows = 0..32 * ROWS_OF_A_BLOCK;
    let places: Vec<usize> = rows.map(|r| place(start(1, r))).collect();
    let later = places[1..].to_vec();
    [(5, places.clone()), (6, places), (7, later)]
}

/// Every fault of the rows, "in file order", byte by byte. The head and the number of blocks are right.
pub fn row_faults(book: &[u8]) -> Vec<RowFault> {
    let mut faults = Vec::new();
    let mut block = 1;
    for s in 0..head::sheets(book) {
        let entry = head::entry(book, s);
        for r in 0..blocks_of(&entry) * ROWS_OF_A_BLOCK {
            let used = r < entry.rows;
            for i in 0..4 {
                let offset = start(block, r) + i;
                let number = fault(book, &entry, used, i, book[offset]);
                faults.extend(number.map(|number| (number, offset)));
            }
        }
        block += blocks_of(&entry);
    }
    faults
}

/// The offset of every row that is "not above the one before it in its sheet", in file order: "Its rows
/// rise strictly as byte strings", those of a forbidden sheet. The head and the number of blocks are right.
pub fn fallen_rows(book: &[u8]) -> Vec<usize> {
    let mut fallen = Vec::new();
    let mut block = 1;
    for s in 0..head::sheets(book) {
        let entry = head::entry(book, s);
        for r in 1..if entry.forbidden { entry.rows } else { 0 } {
            let [before, row] = [r - 1, r].map(|r| &book[start(block, r)..][..4]);
            if row <= before {
                fallen.push(start(block, r));
            }
        }
        block += blocks_of(&entry);
    }
    fallen
}

/// "A row is 4 bytes: k values, each below its column's V, then zeros. Unused rows are zero." The
/// refusal for byte i of a row, if it is at fault.
fn fault(head: &[u8], entry: &head::Entry, used: bool, i: usize, byte: u8) -> Option<u64> {
    if used && i < entry.width {
        // "Refusal 5 is now only for a value that is too large." In a forbidden sheet "255 is refused
        // with 5".
        let right = cells::is_right(byte, head::values(head, entry.columns[i]))
            && !(entry.forbidden && byte == cells::ANY);
        (!right).then_some(5)
    } else {
        // "A filler byte that isn't zero gets its own number." "6 for filler"
        (byte != 0).then_some(6)
    }
}

/// Where row r of a sheet stands in the whole file; the sheet's rows start with this block.
pub(crate) fn start(first_block: usize, r: usize) -> usize {
    let block = first_block + r / ROWS_OF_A_BLOCK;
    block * BLOCK + 4 * (r % ROWS_OF_A_BLOCK)
}
