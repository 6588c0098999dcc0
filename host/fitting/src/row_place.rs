//! From the place of refusal 5, 6 or 7 to the sheet, the row and the column.

use crate::layout::{cells, row_at, Entry, Head, PLACES_OF_A_BLOCK, ROW, ROWS_OF_A_BLOCK};
use crate::Cell;

/// What the place of refusal 5, 6 or 7 tells: a row, and which byte of it is wrong, or that it does not rise.
///
/// The place is the offset of the first wrong byte in the whole book, or of the first row that does not rise,
/// divided by 4 and rounded down. A row has 4 bytes, so a place is a row; and a block has 128 of them:
///
/// ```text
/// place   128 × block   + 1     …   + 126     + 127
/// holds   row 0         row 1   …   row 126   the check
/// ```
///
/// This follows `place_sheet`, `place_row`, `place_byte` and `place_column` in `crates/book/specs/Places.antt`,
/// which are proved to find the first fault of every book that is refused with 5 or 6. A
/// [`Refusal`](crate::Refusal) says it in words.
///
/// ```
/// # use conformance::{changed, harbour};
/// use fitting::RowPlace;
///
/// # let bytes = changed(&harbour(), &[(525, 2)]);
/// // The motor in row 3 of sheet 0 is made 2, and motors are 0 and 1.
/// let refusal = fitting::check(&bytes).unwrap_err();
/// assert_eq!((refusal.number(), refusal.place()), (5, 131));
///
/// let place = RowPlace::of(&bytes, 131).unwrap();
/// assert_eq!((place.sheet, place.row, place.used), (0, 3, true));
/// assert_eq!((place.byte, place.column), (Some(1), Some(1)));
/// assert_eq!(RowPlace::of(&bytes, 255), None); // the check of block 1
/// ```
#[derive(Clone, Copy, Debug, PartialEq, Eq, Hash)]
#[non_exhaustive]
pub struct RowPlace {
    /// The sheet, counted from 0.
    pub sheet: u8,
    /// The row of that sheet, counted from 0.
    pub row: u16,
    /// Whether it is one of the sheet's n rows; after these, the room in its last block is unused.
    pub used: bool,
    /// The first of the row's bytes 0 to 3 that is wrong; `None` if all are right.
    pub byte: Option<u8>,
    /// The column whose value that byte is; `None` if it is none and must be zero.
    pub column: Option<u8>,
    /// Whether it is above the row before it in its sheet, by their bytes, the first byte first. Only the n
    /// rows of a forbidden sheet have to rise; for others this is true.
    pub rises: bool,
}

impl RowPlace {
    /// The row at this place of the book. `None` if there is no row of a sheet: in the head, at the check
    /// of a block, after the last sheet's blocks or after the bytes.
    pub fn of(book: &[u8], place: u16) -> Option<Self> {
        let head = Head::of(book)?;
        let bytes = row_at(book, place)?;
        let (sheet, entry, row) = row_of(head, place)?;
        let used = row < entry.rows();
        let columns = if used { entry.columns() } else { &[] };
        let column = |byte: u8| columns.get(usize::from(byte)).copied();
        // "k values, each below its column's V, then zeros. Unused rows are zero."
        let right = |byte, found| match column(byte) {
            Some(column) => Cell::from(found).is_right(head.count(column), entry.forbids()),
            None => found == 0,
        };
        let byte = (0..4).find(|&byte| !right(byte, bytes[usize::from(byte)]));
        Some(Self {
            sheet,
            row,
            used,
            byte,
            column: byte.and_then(column),
            rises: !used || !entry.forbids() || is_above(entry.part_of(book), row, bytes),
        })
    }
}

/// Whether these bytes of a row are above those of the one before it in the blocks of its sheet, if there is one.
fn is_above(blocks: &[u8], row: u16, bytes: &[u8; ROW]) -> bool {
    let before = row.checked_sub(1);
    let before = before.and_then(|before| cells(blocks, before.into(), ROW));
    before < Some(bytes)
}

/// The sheet in whose blocks the place lies, and the row of it.
fn row_of(head: Head, place: u16) -> Option<(u8, Entry, u16)> {
    let place = usize::from(place);
    let (block, row) = (place / PLACES_OF_A_BLOCK, place % PLACES_OF_A_BLOCK);
    let mut sheets = (0..).zip(head.sheets());
    let (sheet, entry) = sheets.find(|(_, entry)| block < entry.first_block + entry.blocks())?;
    // The head comes before the first sheet.
    let block = block.checked_sub(entry.first_block)?;
    // No row has a higher number than its place, so this is one of 16 bits too.
    let row = (row < ROWS_OF_A_BLOCK).then(|| (ROWS_OF_A_BLOCK * block + row) as u16)?;
    Some((sheet, entry, row))
}
