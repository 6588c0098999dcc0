//! The regions of a book, each with the damage that aims at it.

use crate::{rising_rows, row_bytes, Random, RowByte, BLOCK, LONGEST, ROWS_OF_A_BLOCK};
use reference::Book;

/// Bytes that are near some limit of the format.
const NEAR_LIMITS: [u8; 16] = [0, 1, 2, 3, 4, 5, 8, 9, 16, 17, 32, 33, 252, 253, 254, 255];

/// Width bytes of either kind, and the first that are none.
const NEAR_WIDTHS: [u8; 16] = [
    0, 1, 2, 3, 4, 5, 127, 128, 129, 130, 131, 132, 133, 134, 192, 255,
];

/// Any, bytes next to it, and others that are too large for a value.
const NEAR_ANY: [u8; 9] = [255, 255, 255, 254, 254, 128, 128, 127, 32];

/// A part of the format that damage aims at.
#[derive(Clone, Copy, Debug, PartialEq, Eq, PartialOrd, Ord)]
pub enum Region {
    /// The length in bytes.
    Length,
    /// Whole blocks taken out, doubled or added.
    BlockCount,
    /// The check of any block.
    Check,
    /// From one byte of the head to another.
    Head(usize, usize),
    /// From one byte of a used entry to another.
    Entry(usize, usize),
    /// Any byte of an entry from S on.
    UnusedEntry,
    /// A value of a used row.
    RowValue,
    /// A byte after the values of a used row.
    RowFiller,
    /// A byte of an unused row.
    UnusedRow,
    /// Rows of a forbidden sheet, which no longer rise.
    RowOrder,
    /// A whole block.
    Block,
    /// Any byte.
    Anywhere,
}

impl Region {
    /// All of them.
    pub const ALL: [Self; 22] = [
        Self::Length,
        Self::BlockCount, // twice: refusal 4 comes of little else
        Self::BlockCount,
        Self::Check,
        Self::Head(0, 3),  // the letters FGB1
        Self::Head(4, 4),  // C
        Self::Head(5, 5),  // S
        Self::Head(6, 7),  // zeros
        Self::Head(8, 23), // the values V
        Self::Entry(0, 0), // width
        Self::Entry(1, 4), // column numbers
        Self::Entry(5, 5), // zero
        Self::Entry(6, 7), // row count
        Self::UnusedEntry,
        Self::Head(88, 507), // zeros
        Self::RowValue,
        Self::RowFiller,
        Self::UnusedRow,
        Self::RowOrder, // twice: fewer books have it
        Self::RowOrder,
        Self::Block,
        Self::Anywhere,
    ];

    /// Those of the rows, values as often as zeros.
    pub(crate) const ROWS: [Self; 5] = [
        Self::RowValue,
        Self::RowValue,
        Self::RowFiller,
        Self::UnusedRow,
        Self::RowOrder,
    ];

    /// Damages this region of a book that was written as `whole`; whether the book has it.
    pub fn damage(
        self,
        random: &mut Random,
        book: &Book,
        whole: &[u8],
        bytes: &mut Vec<u8>,
    ) -> bool {
        match self {
            Self::Length => length(random, whole.len(), bytes),
            Self::BlockCount => block_count(random, whole.len() / BLOCK, bytes),
            Self::Block => block(random, whole.len() / BLOCK, bytes),
            Self::RowOrder => return row_order(random, book, bytes),
            _ => {
                let Some(at) = self.byte(random, book, whole.len()) else {
                    return false;
                };
                let value = match self {
                    Self::RowValue => row_value(random, whole[at]),
                    Self::Entry(0, 0) if random.once_in(2) => random.pick(&NEAR_WIDTHS),
                    Self::RowFiller | Self::UnusedRow if random.once_in(3) => {
                        random.pick(&NEAR_ANY)
                    }
                    _ => other_byte(random, whole[at]),
                };
                // Damage before this may have cut the byte off.
                if let Some(byte) = bytes.get_mut(at) {
                    *byte = value;
                }
            }
        }
        true
    }

    /// Some byte of this region, if the book has it.
    fn byte(self, random: &mut Random, book: &Book, length: usize) -> Option<usize> {
        let used = book.sheets.len();
        match self {
            Self::Check => {
                // In one case of four the last: few books have many blocks.
                let last = length / BLOCK - 1;
                let block = if random.once_in(4) {
                    last
                } else {
                    random.below(last + 1)
                };
                Some(block * BLOCK + random.within(508..=511))
            }
            Self::Head(first, last) => Some(one_of(random, first, last)),
            Self::Entry(first, last) => {
                (used > 0).then(|| 24 + one_of(random, first, last) + 8 * random.below(used))
            }
            Self::UnusedEntry => (used < 8).then(|| random.within(24 + 8 * used..=87)),
            Self::RowValue | Self::RowFiller | Self::UnusedRow => self.row_byte(random, book),
            _ => Some(random.below(length)),
        }
    }

    /// A byte of some sheet's rows. In one case of four it is the last such byte of its sheet.
    fn row_byte(self, random: &mut Random, book: &Book) -> Option<usize> {
        let mut bytes = row_bytes(book);
        bytes.retain(|byte| byte.region == self);
        let sheets = bytes.chunk_by(|one, next| one.sheet == next.sheet);
        let sheets: Vec<&[RowByte]> = sheets.collect();
        let sheet = sheets.get(random.below(sheets.len()))?;
        let byte = if random.once_in(4) {
            sheet.len() - 1
        } else {
            random.below(sheet.len())
        };
        Some(sheet[byte].at)
    }
}

/// A number from the first to the last; without a draw where there is but one.
fn one_of(random: &mut Random, first: usize, last: usize) -> usize {
    if first == last {
        first
    } else {
        random.within(first..=last)
    }
}

/// Another byte: a near one, one bit of it turned, one near a limit, or any.
fn other_byte(random: &mut Random, old: u8) -> u8 {
    let value = match random.below(5) {
        0 => old.wrapping_add(1),
        1 => old.wrapping_sub(1),
        2 => old ^ (1 << random.below(8)),
        3 => random.pick(&NEAR_LIMITS),
        _ => random.byte(),
    };
    if value == old {
        !old
    } else {
        value
    }
}

/// Another row value: more often than by chance one that is small, as V is, or near any.
fn row_value(random: &mut Random, old: u8) -> u8 {
    let value = match random.below(8) {
        0 => old,
        1..=2 => random.pick(&NEAR_ANY),
        _ => random.within(0..=33) as u8,
    };
    if value == old {
        other_byte(random, old)
    } else {
        value
    }
}

/// Makes a row of a forbidden sheet equal to the one before it, or lower; whether there is one that has a row before
/// it. In half of the cases it is at the end of a block or the start, or the last.
fn row_order(random: &mut Random, book: &Book, bytes: &mut [u8]) -> bool {
    let mut sheets = rising_rows(book);
    sheets.retain(|rows| rows.len() > 1);
    let Some(rows) = sheets.get(random.below(sheets.len())) else {
        return false;
    };
    let edges = [ROWS_OF_A_BLOCK - 1, 0].map(|edge| {
        let later = (1..rows.len()).filter(|r| r % ROWS_OF_A_BLOCK == edge);
        later.collect::<Vec<_>>()
    });
    let edges = [edges.concat(), vec![rows.len() - 1]].concat();
    let r = if random.once_in(2) {
        random.pick(&edges)
    } else {
        random.within(1..=rows.len() - 1)
    };
    let (from, to) = match random.below(4) {
        0 | 1 => (r - 1, r),
        2 => (random.below(r), r),
        _ => (random.within(r..=rows.len() - 1), r - 1),
    };
    let (from, to) = (rows[from], rows[to]);
    // Damage before this may have cut the rows off.
    if from.max(to) + 4 <= bytes.len() {
        bytes.copy_within(from..from + 4, to);
    }
    true
}

/// Cuts the book, or lengthens it with zeros.
fn length(random: &mut Random, old: usize, bytes: &mut Vec<u8>) {
    let length = match random.below(4) {
        0 => random.below(old),
        1 => old + random.within(1..=2 * BLOCK),
        2 => random.within(0..=LONGEST + 1) * BLOCK,
        _ => random.within(0..=(LONGEST + 2) * BLOCK),
    };
    let length = if length == old { old + 1 } else { length };
    bytes.resize(length, 0);
}

/// Takes a block out, doubles one, or cuts the book to so many.
fn block_count(random: &mut Random, blocks: usize, bytes: &mut Vec<u8>) {
    let block = random.below(blocks);
    let other = random.within(1..=LONGEST);
    match random.below(4) {
        0 if blocks != other => bytes.resize(other * BLOCK, 0),
        2 => {
            let copy = of_block(block, bytes).to_vec();
            let at = (block * BLOCK).min(bytes.len());
            bytes.splice(at..at, copy);
        }
        kind => {
            let block = if kind == 1 { block } else { blocks - 1 };
            let length = of_block(block, bytes).len();
            let at = (block * BLOCK).min(bytes.len());
            bytes.drain(at..at + length);
        }
    }
}

/// Fills a block, its check too, with one byte or with anything, or exchanges two.
fn block(random: &mut Random, blocks: usize, bytes: &mut [u8]) {
    let block = random.below(blocks);
    let other = random.below(blocks);
    let seed = random.bits();
    match random.below(4) {
        0 if block != other => {
            let copies = [block, other].map(|block| of_block(block, bytes).to_vec());
            if copies.iter().all(|copy| copy.len() == BLOCK) {
                of_block(block, bytes).copy_from_slice(&copies[1]);
                of_block(other, bytes).copy_from_slice(&copies[0]);
            }
        }
        1 => Random::new(seed).fill(of_block(block, bytes)),
        2 => {
            let value = random.byte();
            of_block(block, bytes).fill(value);
        }
        _ => of_block(block, bytes).fill(0xFF),
    }
}

/// The bytes of a block; none if damage before this has cut into it.
fn of_block(block: usize, bytes: &mut [u8]) -> &mut [u8] {
    let block = bytes.chunks_exact_mut(BLOCK).nth(block);
    block.unwrap_or_default()
}
