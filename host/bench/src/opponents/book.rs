//! What the engines need of a plain book.

/// Four values of a row, or the check of a block.
pub type Cell = [u8; 4];

/// One sheet.
#[derive(Clone, Copy, Default)]
pub struct Sheet<'a> {
    /// Its blocks as cells, 128 to a block, and those of the sheets after it.
    pub cells: &'a [Cell],
    pub rows: u16,
    pub width: usize,
    pub columns: [u8; 4],
}

/// The whole book.
pub struct Book<'a> {
    pub head: &'a [u8; 512],
    pub sheets: [Sheet<'a>; 8],
    /// The sheets of each column as bits.
    pub sheets_of: [u8; 16],
}

impl<'a> Book<'a> {
    /// The book of this head and of the blocks after it.
    pub fn of(head: &'a [u8; 512], blocks: &'a [u8]) -> Self {
        let mut cells = blocks.as_chunks().0;
        let mut sheets = [Sheet::default(); 8];
        let mut sheets_of = [0; 16];
        for (s, entry) in entries(head).iter().enumerate() {
            let width = usize::from(entry[0]);
            let columns = [entry[1], entry[2], entry[3], entry[4]];
            sheets[s] = Sheet {
                cells,
                rows: rows_of(entry) as u16,
                width,
                columns,
            };
            for &column in &columns[..width] {
                sheets_of[usize::from(column)] |= 1 << s;
            }
            cells = &cells[128 * rows_of(entry).div_ceil(127)..];
        }
        Self {
            head,
            sheets,
            sheets_of,
        }
    }
}

/// The entries of the sheets.
pub fn entries(head: &[u8; 512]) -> &[[u8; 8]] {
    &head[24..88].as_chunks().0[..usize::from(head[5])]
}

/// How many rows an entry says.
pub fn rows_of(entry: &[u8; 8]) -> usize {
    usize::from(u16::from_le_bytes([entry[6], entry[7]]))
}
