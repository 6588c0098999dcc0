//! The orders of a list, and why one is refused.

use crate::Values;
use core::error::Error;
use core::fmt;
use core::num::NonZeroU16;

/// One order of a list. Columns count from 0, marks from 1.
///
/// ```
/// use fitting::{Order, Values};
///
/// let order = Order::Narrow { column: 2, values: Values::of([0, 2])? };
/// assert_eq!(order.bytes(), [1, 2, 0, 0, 5, 0, 0, 0]);
/// assert_eq!(Order::from(order.bytes()), order);
/// assert_eq!(Order::from([9; 8]), Order::Raw([9; 8]));
///
/// // A finish for a page that can wait for 1,000 tries.
/// let limit = 1_000_u16.try_into()?;
/// assert_eq!(Order::FinishWithin { limit }.bytes(), [4, 0, 0, 0, 232, 3, 0, 0]);
/// # Ok::<(), Box<dyn std::error::Error>>(())
/// ```
#[derive(Clone, Copy, Debug, PartialEq, Eq, Hash)]
pub enum Order {
    /// Leaves a column only these values.
    Narrow {
        /// The column.
        column: u8,
        /// What may stay. No value at all is accepted, and makes the session dead.
        values: Values,
    },
    /// Sets a mark; there can be 16 of them.
    Mark,
    /// Goes back to what stood before a mark, and takes away that mark and those after it.
    Back {
        /// The mark.
        mark: u8,
    },
    /// Looks for the first full set, and changes nothing. It makes [`MOST_TRIES`](Self::MOST_TRIES) tries at most.
    Finish,
    /// Looks for the first full set as long as it takes no more tries than this, and changes nothing.
    ///
    /// A try sets one value on the lowest column that has several, and settles. A larger limit never changes
    /// a full set that was found, nor that there is none.
    FinishWithin {
        /// The most tries that are made.
        limit: NonZeroU16,
    },
    /// Eight bytes as they come. Where they are one of the others, they read back as that one.
    Raw([u8; 8]),
}

impl Order {
    /// The largest limit of a finish, and that of one that names none.
    pub const MOST_TRIES: NonZeroU16 = NonZeroU16::MAX;

    /// The order as the library reads it.
    pub const fn bytes(self) -> [u8; 8] {
        match self {
            Self::Narrow { column, values } => {
                let [a, b, c, d] = values.mask().to_le_bytes();
                [1, column, 0, 0, a, b, c, d]
            }
            Self::Mark => [2, 0, 0, 0, 0, 0, 0, 0],
            Self::Back { mark } => [3, mark, 0, 0, 0, 0, 0, 0],
            Self::Finish => [4, 0, 0, 0, 0, 0, 0, 0],
            Self::FinishWithin { limit } => {
                let [low, high] = limit.get().to_le_bytes();
                [4, 0, 0, 0, low, high, 0, 0]
            }
            Self::Raw(bytes) => bytes,
        }
    }
}

impl From<[u8; 8]> for Order {
    fn from(bytes: [u8; 8]) -> Self {
        match bytes {
            [1, column, 0, 0, mask @ ..] => Self::Narrow {
                column,
                values: Values::from_mask(u32::from_le_bytes(mask)),
            },
            [2, 0, 0, 0, 0, 0, 0, 0] => Self::Mark,
            [3, mark, 0, 0, 0, 0, 0, 0] => Self::Back { mark },
            [4, 0, 0, 0, low, high, 0, 0] => match NonZeroU16::new(u16::from_le_bytes([low, high]))
            {
                Some(limit) => Self::FinishWithin { limit },
                None => Self::Finish,
            },
            raw => Self::Raw(raw),
        }
    }
}

/// Why an order is refused; the session then stays as it was.
///
/// ```
/// use fitting::OrderRefusal;
///
/// assert_eq!(OrderRefusal::from_number(0), None);
/// let refusal = OrderRefusal::from_number(24).unwrap();
/// assert_eq!((refusal, refusal.number()), (OrderRefusal::Mark, 24));
/// assert_eq!(refusal.to_string(), "refusal 24: there is no such mark");
/// ```
#[derive(Clone, Copy, Debug, PartialEq, Eq, Hash)]
#[non_exhaustive]
pub enum OrderRefusal {
    /// 20: there is no such kind of order.
    Kind,
    /// 21: the book has no such column.
    Column,
    /// 22: the mask has a value that the column doesn't have.
    Mask,
    /// 23: there are 16 marks already.
    Depth,
    /// 24: there is no such mark.
    Mark,
    /// 25: a byte that must be zero isn't.
    Zero,
    /// 27: the limit of a finish is larger than [`Order::MOST_TRIES`].
    Limit,
    /// A refusal that has no name here. A run never gives one.
    Other {
        /// The refusal number.
        number: u8,
    },
}

impl OrderRefusal {
    /// Reads byte 0 of an answer; `None` if it is 0, an accepted order.
    pub const fn from_number(number: u8) -> Option<Self> {
        match number {
            0 => None,
            20 => Some(Self::Kind),
            21 => Some(Self::Column),
            22 => Some(Self::Mask),
            23 => Some(Self::Depth),
            24 => Some(Self::Mark),
            25 => Some(Self::Zero),
            27 => Some(Self::Limit),
            number => Some(Self::Other { number }),
        }
    }

    /// The refusal number, 20 to 25 or 27.
    pub const fn number(&self) -> u8 {
        self.number_and_cause().0
    }

    const fn number_and_cause(&self) -> (u8, &'static str) {
        match *self {
            Self::Kind => (20, "there is no such kind of order"),
            Self::Column => (21, "the book has no such column"),
            Self::Mask => (22, "the mask has a value that the column doesn't have"),
            Self::Depth => (23, "there are 16 marks already"),
            Self::Mark => (24, "there is no such mark"),
            Self::Zero => (25, "a byte that must be zero isn't"),
            Self::Limit => (27, "the limit of a finish is larger than 65,535"),
            Self::Other { number } => (number, "the order is refused"),
        }
    }
}

impl fmt::Display for OrderRefusal {
    fn fmt(&self, f: &mut fmt::Formatter<'_>) -> fmt::Result {
        let (number, cause) = self.number_and_cause();
        write!(f, "refusal {number}: {cause}")
    }
}

impl Error for OrderRefusal {}
