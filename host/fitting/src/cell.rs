//! The cells of a row: all that is known here of what may stand for a column.

use crate::Values;

/// A cell of a row: what stands there for one of its sheet's columns.
///
/// "Row byte 255 in a used column stands for all its values." A row that has such a cell is a *short row*; a
/// forbidden sheet has none.
/// [`Sheet::rows`](crate::Sheet::rows) gives bytes, and a cell is made of each:
///
/// ```
/// # let mut harbour = conformance::harbour();
/// # harbour.sheets[1].rows = vec![vec![0, 255], vec![1, 1]];
/// # let bytes = conformance::write(&harbour);
/// use fitting::Cell;
///
/// // The harbour book with one row for motor 0 and any board; it has a row for each board otherwise.
/// let book = fitting::check(&bytes)?;
/// let sheet = book.sheet(1).unwrap();
/// assert_eq!(sheet.rows().collect::<Vec<_>>(), [[0, 255], [1, 1]]);
///
/// let mut text = String::new();
/// for row in sheet.rows() {
///     for (column, &byte) in sheet.columns().iter().zip(row) {
///         text += &match Cell::from(byte) {
///             Cell::Value(value) => format!("column {column}: {value}; "),
///             Cell::Any => format!("column {column}: any; "),
///         };
///     }
/// }
/// assert_eq!(text, "column 1: 0; column 2: any; column 1: 1; column 2: 1; ");
/// # Ok::<(), fitting::Refusal>(())
/// ```
#[derive(Clone, Copy, Debug, PartialEq, Eq, Hash)]
pub enum Cell {
    /// This value of the column.
    Value(u8),
    /// All values of the column: 255.
    Any,
}

impl Cell {
    /// The values of this domain that the cell matches: its value, if it is there; of any "every value there".
    /// A row lies in the domains when each of its cells matches one.
    ///
    /// ```
    /// use fitting::{Cell, Values};
    ///
    /// let domain = Values::of([0, 2])?;
    /// assert_eq!(Cell::Any.matched(domain), domain);
    /// assert_eq!(Cell::Value(2).matched(domain), Values::of([2])?);
    /// assert_eq!(Cell::Value(1).matched(domain), Values::NONE);
    /// # Ok::<(), fitting::OrderRefusal>(())
    /// ```
    pub fn matched(self, domain: Values) -> Values {
        match self {
            Self::Value(value) => Values::of([value]).map_or(Values::NONE, |it| it & domain),
            Self::Any => domain,
        }
    }

    /// Whether it may stand in a column of so many values: "each below its column's V", and "Refusal 5 lets
    /// 255 pass", but of a sheet that forbids "255 is refused with 5".
    pub(crate) fn is_right(self, count: u8, forbids: bool) -> bool {
        match self {
            Self::Value(value) => value < count,
            Self::Any => !forbids,
        }
    }
}

impl From<u8> for Cell {
    /// Reads a byte of a row.
    fn from(byte: u8) -> Self {
        match byte {
            255 => Self::Any,
            value => Self::Value(value),
        }
    }
}
