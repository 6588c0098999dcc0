//! A described book as bytes, by the section "Books in blocks" of document 01.

use reference::{right_check, Book, BLOCK, ROWS_OF_A_BLOCK};

/// The longest book in blocks.
pub const LONGEST: usize = 33;

/// What the width byte of a forbidden sheet has more than its width.
pub const FORBIDDEN: u8 = 128;

/// The bytes of a book, with right checks.
///
/// The limits of the format are not held, so that a book just past them can be described too; only
/// what has no place in the head at all is a mistake of the caller.
pub fn write(book: &Book) -> Vec<u8> {
    assert!(book.counts.len() <= 16 && book.sheets.len() <= 8);
    let mut bytes = vec![0; BLOCK];
    bytes[..4].copy_from_slice(b"FGB1");
    bytes[4] = book.counts.len() as u8;
    bytes[5] = book.sheets.len() as u8;
    bytes[8..8 + book.counts.len()].copy_from_slice(&book.counts);
    for (s, sheet) in book.sheets.iter().enumerate() {
        let width = sheet.columns.len();
        assert!(width <= 4);
        let rows = u16::try_from(sheet.rows.len()).expect("a row count is two bytes");
        let entry = &mut bytes[24 + 8 * s..32 + 8 * s];
        entry[0] = width as u8 + if sheet.forbidden { FORBIDDEN } else { 0 };
        entry[1..=width].copy_from_slice(&sheet.columns);
        entry[6..].copy_from_slice(&rows.to_le_bytes());
        for rows in sheet.rows.chunks(ROWS_OF_A_BLOCK) {
            let start = bytes.len();
            bytes.resize(start + BLOCK, 0);
            for (row, place) in rows.iter().zip(bytes[start..].chunks_exact_mut(4)) {
                place[..row.len()].copy_from_slice(row);
            }
        }
    }
    mend(&mut bytes);
    bytes
}

/// Writes the right check into every whole block.
pub fn mend(bytes: &mut [u8]) {
    for block in 0..bytes.len() / BLOCK {
        mend_block(bytes, block);
    }
}

/// Writes the right check into one block.
pub fn mend_block(bytes: &mut [u8], b: usize) {
    let block = &mut bytes[b * BLOCK..][..BLOCK];
    let check = right_check(block, b);
    block[508..].copy_from_slice(&check.to_le_bytes());
}

/// The bytes of a book with some of them changed, and every check mended.
pub fn changed(book: &Book, changes: &[(usize, u8)]) -> Vec<u8> {
    let mut bytes = write(book);
    for &(at, value) in changes {
        bytes[at] = value;
    }
    mend(&mut bytes);
    bytes
}
