//! A fuzzer's bytes as a book, a list of orders and a space. Any bytes are an input: what is missing
//! at the end reads as zeros.
//!
//! ```text
//!    0      1      2    3     4
//!  +------+------+----+-----+-----------------+------------+----------------+
//!  | form | room | list's   | damage, 3 bytes | the list   | the book, to   |
//!  |      |      | length   | each            | of orders  | the end        |
//!  +------+------+----+-----+-----------------+------------+----------------+
//!
//!  form  bit 0     the book is described (below), else its bytes stand there
//!        bit 1     the checks are made right after the damage
//!        bits 2,3  how much damage: a place (2 bytes) and what its byte is changed by, exclusive or
//!        bits 4,5  the space: 0, 1 as long as needed; 2 shorter, 3 longer, by `room`
//!        bit 6     a book whose bytes stand there is filled up with zeros to whole blocks
//!        bit 7     with a `room` below 16, the list is repeated up to 254 to 257 orders
//!
//!  a described book (its orders' kinds are brought near the known ones, too)
//!  +---+---+--------+  then for each of the S sheets
//!  | C | S | V of C |  +-------+------------+------+------+----------------------+
//!  +---+---+--------+  | width | columns, a | rows | seed | rows, k bytes each,  |
//!   each brought into  |       | 16-bit set | n    |      | if the seed is 0     |
//!   its range by mod   +-------+------------+------+------+----------------------+
//!   a byte of a row that is 255 is any, and stays so
//!   a width of 128 and more is a forbidden sheet: its rows are put in order, each once, and no byte is any
//! ```

use crate::shorten_finishes;
use conformance::{mend, space_for, write, Book, Random, Sheet, ANY, BLOCK, FORBIDDEN};
use reference::Kind;

/// The longest input that a fuzz run makes.
pub const LONGEST_INPUT: usize = 4_096;
/// Form: the book is described.
pub const DESCRIBED: u8 = 1;
/// Form: the checks are made right.
pub const MENDED: u8 = 2;

/// The known kinds of orders, and the number on either side of them.
const KINDS: u8 = Kind::ALL.len() as u8 + 1;

const WHOLE_BLOCKS: u8 = 1 << 6;
const REPEATED: u8 = 1 << 7;

/// What both versions are given.
#[derive(Clone, Debug, PartialEq, Eq)]
pub struct Input {
    /// The bytes of the book.
    pub book: Vec<u8>,
    /// The bytes of the orders.
    pub orders: Vec<u8>,
    /// The bytes of the space for the answers.
    pub space: usize,
    /// Finishes that were given a smaller limit because their search is long.
    pub shortened: usize,
}

impl Input {
    /// The input that these bytes stand for.
    pub fn read(bytes: &[u8]) -> Self {
        let mut rest = Rest(bytes);
        let [form, room] = [rest.byte(), rest.byte()];
        let length = rest.number();
        let damage: Vec<_> = (0..form >> 2 & 3)
            .map(|_| (rest.number(), rest.byte()))
            .collect();
        let mut orders = rest.take(length).to_vec();
        if form & DESCRIBED != 0 {
            let kinds = orders.iter_mut().step_by(8);
            kinds.for_each(|kind| *kind %= KINDS);
        }
        if form & REPEATED != 0 && room < 16 && !orders.is_empty() {
            let most = 8 * (254 + usize::from(room % 4));
            orders = orders.into_iter().cycle().take(most).collect();
        }
        let mut book = if form & DESCRIBED != 0 {
            write(&rest.book())
        } else {
            rest.0.to_vec()
        };
        if form & WHOLE_BLOCKS != 0 {
            book.resize(book.len().next_multiple_of(BLOCK), 0);
        }
        spoil(&mut book, &damage);
        if form & MENDED != 0 {
            mend(&mut book);
        }
        let shortened = shorten_finishes(&book, &mut orders);
        let space = space(form, room, space_for(&orders));
        Self {
            book,
            orders,
            space,
            shortened,
        }
    }
}

/// Changes the bytes at these places, counted around the book's end.
fn spoil(book: &mut [u8], damage: &[(usize, u8)]) {
    let length = book.len();
    for &(place, change) in damage {
        if length > 0 {
            book[place % length] ^= change;
        }
    }
}

fn space(form: u8, room: u8, needed: usize) -> usize {
    let by = usize::from(room) + 1;
    match form >> 4 & 3 {
        2 => needed.saturating_sub(by),
        3 => needed + by,
        _ => needed,
    }
}

/// The bytes that are not yet read.
struct Rest<'a>(&'a [u8]);

impl<'a> Rest<'a> {
    fn take(&mut self, length: usize) -> &'a [u8] {
        let (taken, left) = self.0.split_at(length.min(self.0.len()));
        self.0 = left;
        taken
    }

    fn byte(&mut self) -> u8 {
        self.take(1).first().copied().unwrap_or(0)
    }

    fn number(&mut self) -> usize {
        usize::from(u16::from_le_bytes([self.byte(), self.byte()]))
    }

    fn book(&mut self) -> Book {
        let columns = 1 + self.byte() % 16;
        let sheets = self.byte() % 9;
        let counts: Vec<u8> = (0..columns).map(|_| 1 + self.byte() % 32).collect();
        let sheets = (0..sheets).map(|_| self.sheet(&counts)).collect();
        Book { counts, sheets }
    }

    fn sheet(&mut self, counts: &[u8]) -> Sheet {
        let byte = self.byte();
        let forbidden = byte >= FORBIDDEN;
        let width = (1 + usize::from(byte % 4)).min(counts.len());
        let columns = columns(self.number(), counts.len(), width);
        let rows = self.number() % 509;
        let seed = self.byte();
        let random = &mut Random::new(seed.into());
        let mut cell = |column: &u8| {
            let byte = if seed == 0 {
                self.byte()
            } else {
                random.byte()
            };
            match byte {
                ANY if !forbidden => ANY,
                _ => byte % counts[usize::from(*column)],
            }
        };
        let mut rows: Vec<Vec<u8>> = (0..rows)
            .map(|_| columns.iter().map(&mut cell).collect())
            .collect();
        if forbidden {
            rows.sort_unstable();
            rows.dedup();
        }
        Sheet {
            forbidden,
            columns,
            rows,
        }
    }
}

/// So many columns in rising order: those of the set first, then the lowest others.
fn columns(set: usize, all: usize, width: usize) -> Vec<u8> {
    let (within, others): (Vec<u8>, Vec<u8>) =
        (0..all as u8).partition(|column| set >> column & 1 == 1);
    let mut columns: Vec<u8> = within.into_iter().chain(others).take(width).collect();
    columns.sort_unstable();
    columns
}

/// The bytes of an input whose book stands there as it is, with an exact space.
pub fn raw(form: u8, book: &[u8], orders: &[u8]) -> Vec<u8> {
    front(form & !DESCRIBED, orders, book)
}

/// The bytes of an input that describes this book, with an exact space.
pub fn described(book: &Book, orders: &[u8]) -> Vec<u8> {
    let mut bytes = described_head(&book.counts, book.sheets.len());
    for sheet in &book.sheets {
        let set = sheet.columns.iter().map(|column| 1 << column).sum();
        bytes.extend(described_sheet(sheet.forbidden, set, sheet.rows.len(), 0));
        bytes.extend(sheet.rows.iter().flatten());
    }
    front(DESCRIBED, orders, &bytes)
}

/// The same of a book whose sheets have these columns, as sets, and so many rows each, by seeds.
pub fn described_by_seed(counts: &[u8], columns: &[u16], rows: &[usize], orders: &[u8]) -> Vec<u8> {
    let mut bytes = described_head(counts, columns.len());
    for (seed, (&set, &rows)) in (1..).zip(columns.iter().zip(rows)) {
        bytes.extend(described_sheet(false, set, rows, seed));
    }
    front(DESCRIBED, orders, &bytes)
}

fn described_head(counts: &[u8], sheets: usize) -> Vec<u8> {
    let mut bytes = vec![counts.len() as u8 - 1, sheets as u8];
    bytes.extend(counts.iter().map(|count| count - 1));
    bytes
}

fn described_sheet(forbidden: bool, set: u16, rows: usize, seed: u8) -> [u8; 6] {
    let kind = if forbidden { FORBIDDEN } else { 0 };
    let width = kind + set.count_ones() as u8;
    let [set_low, set_high] = set.to_le_bytes();
    let [low, high] = (rows as u16).to_le_bytes();
    [width - 1, set_low, set_high, low, high, seed]
}

fn front(form: u8, orders: &[u8], book: &[u8]) -> Vec<u8> {
    let length = u16::try_from(orders.len()).unwrap_or(u16::MAX);
    let [low, high] = length.to_le_bytes();
    [&[form, 0, low, high], orders, book].concat()
}
