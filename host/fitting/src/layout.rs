//! Where everything stands in a book's bytes: `docs/FORMAT.md` draws it, and nothing else here knows it.
//!
//! The bytes may be those of a wrong book. What the head says is read as it stands, and nothing panics.

/// The fields of the head, by the offsets where they begin, up to the head's check.
pub(crate) const LETTERS: usize = 0;
pub(crate) const COLUMNS: usize = 4;
pub(crate) const SHEETS: usize = 5;
pub(crate) const ZEROS: usize = 6;
pub(crate) const COUNTS: usize = 8;
pub(crate) const ENTRIES: usize = 24;
pub(crate) const REST: usize = 88;
pub(crate) const CHECK: usize = 508;

/// The fields of a sheet's entry, by the offsets where they begin.
pub(crate) const WIDTH: usize = 0;
pub(crate) const NUMBERS: usize = 1;
pub(crate) const ENTRY_ZERO: usize = 5;
pub(crate) const ROWS: usize = 6;

pub(crate) const ENTRY: usize = 8;
const BLOCK: usize = 512;
pub(crate) const ROW: usize = 4;

/// A block has 127 rows and its check, which is as long as a row: 128 places.
pub(crate) const ROWS_OF_A_BLOCK: usize = CHECK / ROW;
pub(crate) const PLACES_OF_A_BLOCK: usize = BLOCK / ROW;

/// The first block of a book.
#[derive(Clone, Copy)]
pub(crate) struct Head<'a>(&'a [u8; BLOCK]);

impl<'a> Head<'a> {
    /// A head of zeros.
    pub(crate) const BLANK: Self = Self(&[0; BLOCK]);

    /// The head of these bytes, if they are so many.
    pub(crate) fn of(book: &'a [u8]) -> Option<Self> {
        book.first_chunk().map(Self)
    }

    /// The number in so many bytes at this offset, the lowest byte first.
    pub(crate) fn number(self, offset: usize, length: usize) -> u32 {
        let bytes = self.0.iter().skip(offset).take(length).rev();
        bytes.fold(0, |number, &byte| number << 8 | u32::from(byte))
    }

    /// The number of columns, C.
    pub(crate) fn columns(self) -> u8 {
        self.0[COLUMNS]
    }

    /// The number of sheets, S.
    pub(crate) fn sheet_count(self) -> u8 {
        self.0[SHEETS]
    }

    /// The number of values of a column, its V. Any number of a column lies within the head.
    pub(crate) fn count(self, column: u8) -> u8 {
        self.0[COUNTS + usize::from(column)]
    }

    /// The sheets in turn: S of them, and eight at most, as there are eight entries.
    pub(crate) fn sheets(
        self,
    ) -> impl ExactSizeIterator<Item = Entry<'a>> + DoubleEndedIterator + Clone + 'a {
        let (entries, _) = self.0[ENTRIES..REST].as_chunks();
        let used = entries.get(..self.sheet_count().into()).unwrap_or(entries);
        let numbered = used.iter().enumerate();
        numbered.map(|(number, bytes)| Entry {
            bytes,
            first_block: 1 + used[..number].iter().map(blocks).sum::<usize>(),
        })
    }
}

/// What the head says of a sheet.
#[derive(Clone, Copy)]
pub(crate) struct Entry<'a> {
    bytes: &'a [u8; ENTRY],
    /// The block in which the sheet's rows begin; the head is block 0.
    pub(crate) first_block: usize,
}

impl<'a> Entry<'a> {
    /// The width, k, without what marks a forbidden sheet.
    pub(crate) fn width(self) -> u8 {
        match self.bytes[WIDTH] {
            marked if self.forbids() => marked - 128,
            width => width,
        }
    }

    /// "Width byte 129 to 132 marks a forbidden sheet of width 1 to 4."
    pub(crate) fn forbids(self) -> bool {
        matches!(self.bytes[WIDTH], 129..=132)
    }

    /// The k column numbers, four at most, as there is room for four.
    pub(crate) fn columns(self) -> &'a [u8] {
        let numbers = &self.bytes[NUMBERS..ENTRY_ZERO];
        numbers.get(..self.width().into()).unwrap_or(numbers)
    }

    /// The number of rows, n.
    pub(crate) fn rows(self) -> u16 {
        rows(self.bytes)
    }

    /// The number of blocks that the rows have.
    pub(crate) fn blocks(self) -> usize {
        blocks(self.bytes)
    }

    /// The book from the sheet's first block on.
    pub(crate) fn part_of(self, book: &'a [u8]) -> &'a [u8] {
        book.get(BLOCK * self.first_block..).unwrap_or_default()
    }
}

fn rows(entry: &[u8; ENTRY]) -> u16 {
    u16::from_le_bytes([entry[ROWS], entry[ROWS + 1]])
}

fn blocks(entry: &[u8; ENTRY]) -> usize {
    usize::from(rows(entry)).div_ceil(ROWS_OF_A_BLOCK)
}

/// The cells of a row, so many of them, in the blocks of its sheet.
pub(crate) fn cells(blocks: &[u8], row: usize, width: usize) -> Option<&[u8]> {
    let (block, row) = (row / ROWS_OF_A_BLOCK, row % ROWS_OF_A_BLOCK);
    blocks.get(BLOCK * block + ROW * row..)?.get(..width)
}

/// The four bytes at a place of the book.
pub(crate) fn row_at(book: &[u8], place: u16) -> Option<&[u8; ROW]> {
    book.get(ROW * usize::from(place)..)?.first_chunk()
}
