//! Why a book, or a run, is refused, and where.

use crate::layout::{row_at, Head};
use crate::{Cell, Field, RowPlace};
use core::error::Error;
use core::fmt;

/// The refusal number is above the low 16 bits, the place is in them.
const PLACES: u64 = 65_536;

/// Why a book or a run is refused: the lowest of the causes that apply, with the first place of it.
///
/// It is read together with the book, so that it can say what stands there. `docs/FORMAT.md` has the usual
/// causes of a book's refusals.
///
/// ```
/// # let bytes = conformance::changed(&conformance::harbour(), &[(525, 7)]);
/// // In row 3 of sheet 0 the motor is made 7, and motors are 0 and 1.
/// let refusal = fitting::check(&bytes).unwrap_err();
/// assert_eq!((refusal.number(), refusal.place()), (5, 131));
/// let sentence = "refusal 5: sheet 0, row 3, column 1: value 7 is not below its V, 2";
/// assert_eq!(refusal.to_string(), sentence);
/// ```
#[derive(Clone, Copy, Debug, PartialEq, Eq, Hash)]
#[non_exhaustive]
pub enum Refusal {
    /// 1: the length isn't a multiple of 512 from 512 to 16,896.
    Length,
    /// 2: a check is wrong.
    Check {
        /// The lowest block whose check is wrong; the head is block 0.
        block: u16,
    },
    /// 3: a field of the head is wrong.
    Head {
        /// The offset of the first wrong field.
        offset: u16,
        /// Which field it is, and what stands there.
        field: Field,
    },
    /// 4: the blocks aren't 1 plus those of the sheets.
    Blocks {
        /// The number of blocks that the book needs by its head.
        needed: u16,
    },
    /// 5: a value in a row is too large; 255 is not, as it stands for all values of its column, but in a
    /// forbidden sheet it is. Nothing is wrong in the rows before it.
    Value {
        /// The place of the row in the book, as [`RowPlace`] has it.
        place: u16,
        /// The sheet, counted from 0.
        sheet: u8,
        /// The row of that sheet, counted from 0.
        row: u16,
        /// The column, counted from 0 in the book.
        column: u8,
        /// The value.
        value: u8,
        /// The column's V: its values are those below it.
        count: u8,
    },
    /// 6: a byte of a sheet's blocks that must be zero isn't. Nothing is wrong in the rows before it.
    Filler {
        /// The place of the row in the book, as [`RowPlace`] has it.
        place: u16,
        /// The sheet, counted from 0.
        sheet: u8,
        /// The row of that sheet, counted from 0.
        row: u16,
        /// Whether it is one of the sheet's rows, so that the byte stands after its values; in an unused
        /// row every byte must be zero.
        used: bool,
    },
    /// 7: a row of a forbidden sheet isn't above the one before it, by their bytes, the first byte first. All
    /// rows before it rise, and no byte of a row is wrong.
    Rising {
        /// The place of the row in the book, as [`RowPlace`] has it.
        place: u16,
        /// The sheet, counted from 0.
        sheet: u8,
        /// The row of that sheet, counted from 0; it is never row 0.
        row: u16,
    },
    /// 10: the orders aren't a multiple of 8 bytes, or more than 256 of them.
    Orders,
    /// 11: the space for the answers is too short.
    Space {
        /// The bytes that the answers need.
        needed: u16,
    },
    /// A refusal that has no name here, or that isn't one of the book it was read with. Neither call ever
    /// gives one.
    Other {
        /// The refusal number.
        number: u64,
        /// The place.
        place: u16,
    },
}

impl Refusal {
    /// Reads the library's number for this book; `None` if it is an accepted figure.
    ///
    /// Where these bytes have nothing wrong of that kind at that place, it is [`Other`](Self::Other).
    pub fn read(number: u64, book: &[u8]) -> Option<Self> {
        let (number, place) = (number / PLACES, (number % PLACES) as u16);
        let named = match (number, place) {
            (0, _) => return None,
            (1, 0) => Some(Self::Length),
            (2, block) => Some(Self::Check { block }),
            (3, offset) => Field::wrong_at(book, offset).map(|field| Self::Head { offset, field }),
            (4, needed) => Some(Self::Blocks { needed }),
            (5, place) => Self::large_value(place, book),
            (6, place) => Self::wrong_filler(place, book),
            (7, place) => Self::not_rising(place, book),
            (10, 0) => Some(Self::Orders),
            (11, needed) => Some(Self::Space { needed }),
            _ => None,
        };
        Some(named.unwrap_or(Self::Other { number, place }))
    }

    /// Refusal 5, if the first wrong byte of the row at this place is a value.
    fn large_value(place: u16, book: &[u8]) -> Option<Self> {
        let at = RowPlace::of(book, place)?;
        let column = at.column?;
        Some(Self::Value {
            place,
            sheet: at.sheet,
            row: at.row,
            column,
            value: *row_at(book, place)?.get(usize::from(at.byte?))?,
            count: Head::of(book)?.count(column),
        })
    }

    /// Refusal 6, if the first wrong byte of the row at this place is no value.
    fn wrong_filler(place: u16, book: &[u8]) -> Option<Self> {
        let at = RowPlace::of(book, place)?;
        (at.byte.is_some() && at.column.is_none()).then_some(Self::Filler {
            place,
            sheet: at.sheet,
            row: at.row,
            used: at.used,
        })
    }

    /// Refusal 7, if the row at this place does not rise.
    fn not_rising(place: u16, book: &[u8]) -> Option<Self> {
        let at = RowPlace::of(book, place)?;
        (!at.rises).then_some(Self::Rising {
            place,
            sheet: at.sheet,
            row: at.row,
        })
    }

    /// The refusal number: 1 to 7 for a book, and 10 or 11 too for a run.
    pub const fn number(&self) -> u64 {
        self.number_and_place().0
    }

    /// The place: a block, an offset in the head, a row of the book, a number of blocks or of bytes, by the
    /// kind of refusal.
    pub const fn place(&self) -> u16 {
        self.number_and_place().1
    }

    const fn number_and_place(&self) -> (u64, u16) {
        match *self {
            Self::Length => (1, 0),
            Self::Check { block } => (2, block),
            Self::Head { offset, .. } => (3, offset),
            Self::Blocks { needed } => (4, needed),
            Self::Value { place, .. } => (5, place),
            Self::Filler { place, .. } => (6, place),
            Self::Rising { place, .. } => (7, place),
            Self::Orders => (10, 0),
            Self::Space { needed } => (11, needed),
            Self::Other { number, place } => (number, place),
        }
    }
}

impl fmt::Display for Refusal {
    fn fmt(&self, f: &mut fmt::Formatter<'_>) -> fmt::Result {
        write!(f, "refusal {}: ", self.number())?;
        match self {
            Self::Length => write!(f, "the length isn't a multiple of 512 from 512 to 16,896"),
            Self::Check { block } => write!(f, "the check of block {block} is wrong"),
            Self::Head { field, .. } => write!(f, "{field}"),
            Self::Blocks { needed } => write!(f, "the blocks aren't the {needed} needed"),
            Self::Value {
                sheet,
                row,
                column,
                value,
                count,
                ..
            } => {
                write!(f, "sheet {sheet}, row {row}, column {column}: ")?;
                match Cell::from(*value) {
                    Cell::Value(value) => write!(f, "value {value} is not below its V, {count}"),
                    Cell::Any => write!(f, "a forbidden sheet may not have 255"),
                }
            }
            Self::Filler {
                sheet, row, used, ..
            } => {
                let what = if *used {
                    ": a byte after its values"
                } else {
                    ", which is unused: a byte"
                };
                write!(f, "sheet {sheet}, row {row}{what} is not zero")
            }
            Self::Rising { sheet, row, .. } => write!(
                f,
                "sheet {sheet}, row {row}: it is not above row {}, and rows of a forbidden sheet rise",
                row.saturating_sub(1)
            ),
            Self::Orders => write!(
                f,
                "the orders aren't a multiple of 8 bytes or exceed 2,048 bytes"
            ),
            Self::Space { needed } => write!(f, "the answers need {needed} bytes"),
            Self::Other { place, .. } => write!(f, "place {place}"),
        }
    }
}

impl Error for Refusal {}
