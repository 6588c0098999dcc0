//! An accepted book, read as it lies in its bytes.
//!
//! The library has accepted the bytes, so every read below finds what it looks for. A head that isn't
//! there reads as zeros all the same, so that nothing here can panic.

use crate::layout::{self, Head};
use crate::{calls, Answers, OrderList, Space, Values};
use core::fmt;
use core::hash::{Hash, Hasher};

/// An accepted book: a view that borrows its bytes.
///
/// It is as small as a slice, so it is copied freely. Only [`check`](crate::check) makes one. Columns,
/// like values, are numbers of type `u8`.
///
/// ```
/// # let bytes = conformance::write(&conformance::harbour());
/// let book = fitting::check(&bytes)?;
/// for column in 0..book.columns() {
///     println!("column {column}: {}", book.values(column)); // column 0: 0 1 2
/// }
///
/// assert_eq!(book.sheets().len(), 2);
/// let sheet = book.sheet(1).unwrap();
/// assert_eq!(sheet.columns(), [1, 2]);
/// assert_eq!(sheet.rows().collect::<Vec<_>>(), [[0, 0], [0, 1], [1, 1]]);
/// assert_eq!((sheet.row(2), sheet.row(3)), (Some(&[1, 1][..]), None));
///
/// assert_eq!(book.bytes(), bytes); // the same bytes, not a copy
/// # Ok::<(), fitting::Refusal>(())
/// ```
#[derive(Clone, Copy, PartialEq, Eq, Hash)]
pub struct Book<'a> {
    bytes: &'a [u8],
}

impl<'a> Book<'a> {
    /// The view of bytes that the library has accepted.
    pub(crate) fn accepted(bytes: &'a [u8]) -> Self {
        Self { bytes }
    }

    /// The bytes of the book.
    pub fn bytes(&self) -> &'a [u8] {
        self.bytes
    }

    /// The number of columns, 1 to 16.
    pub fn columns(&self) -> u8 {
        self.head().columns()
    }

    /// The values of a column, 0 to V − 1; V is 1 to 32. There is none in a column that the book
    /// doesn't have.
    pub fn values(&self, column: u8) -> Values {
        if column < self.columns() {
            Values::below(self.head().count(column))
        } else {
            Values::NONE
        }
    }

    /// Runs a list over the book from the opening, and gives the answers, read from the space.
    ///
    /// With an accepted book, an [`OrderList`] and a [`Space`] no run is refused, so there is nothing
    /// to handle; the theorem is `AnyRun.accepted_run` in `crates/promises/specs/Promises.antt`. A refused
    /// *order* refuses no run: its answer says so.
    pub fn run<'s>(&self, list: &OrderList, space: &'s mut Space) -> Answers<'s> {
        match calls::run(self.bytes, list, &mut space.bytes) {
            Ok(answers) => answers,
            Err(refusal) => unreachable!("book, list and space are right, yet {refusal}"),
        }
    }

    /// The sheets in turn, 0 to 8 of them.
    pub fn sheets(
        &self,
    ) -> impl ExactSizeIterator<Item = Sheet<'a>> + DoubleEndedIterator + Clone + 'a {
        let bytes = self.bytes;
        self.head().sheets().map(|entry| Sheet {
            columns: entry.columns(),
            forbids: entry.forbids(),
            blocks: entry.part_of(bytes),
            rows: entry.rows().into(),
        })
    }

    /// The sheet of this number, counted from 0, if the book has it.
    pub fn sheet(&self, number: usize) -> Option<Sheet<'a>> {
        self.sheets().nth(number)
    }

    fn head(&self) -> Head<'a> {
        Head::of(self.bytes).unwrap_or(Head::BLANK)
    }
}

impl fmt::Debug for Book<'_> {
    fn fmt(&self, f: &mut fmt::Formatter<'_>) -> fmt::Result {
        let counts = (0..self.columns()).map(|column| self.values(column).len());
        let values = fmt::from_fn(|f| f.debug_list().entries(counts.clone()).finish());
        let sheets = fmt::from_fn(|f| f.debug_list().entries(self.sheets()).finish());
        f.debug_struct("Book")
            .field("values", &values)
            .field("sheets", &sheets)
            .finish()
    }
}

/// A sheet of an accepted book: the columns it speaks of, and the rows of values that go together; or, where it
/// [forbids](Self::forbids), of values that clash.
///
/// Two are equal when they are of one kind and have the same columns, and the same rows in the same order. A
/// short row is not equal to the rows that it stands for, nor a forbidden sheet to one that allows the same.
#[derive(Clone, Copy)]
pub struct Sheet<'a> {
    columns: &'a [u8],
    forbids: bool,
    /// The blocks of this sheet, and those after them.
    blocks: &'a [u8],
    rows: usize,
}

impl<'a> Sheet<'a> {
    /// The columns of the sheet, 1 to 4, in rising order.
    pub fn columns(&self) -> &'a [u8] {
        self.columns
    }

    /// Whether it is a forbidden sheet: "There a combination is allowed when it isn't a row, and no rows
    /// forbid nothing." In any other, one is allowed when a row matches it.
    ///
    /// ```
    /// # let mut harbour = conformance::harbour();
    /// # harbour.sheets[1].forbidden = true;
    /// # harbour.sheets[1].rows = vec![vec![1, 0]];
    /// # let bytes = conformance::write(&harbour);
    /// // The harbour book with one pair that clashes in place of the three that go together.
    /// let book = fitting::check(&bytes)?;
    /// let sheet = book.sheet(1).unwrap();
    /// assert!(sheet.forbids() && !book.sheet(0).unwrap().forbids());
    /// assert_eq!(sheet.columns(), [1, 2]);
    /// assert_eq!(sheet.rows().collect::<Vec<_>>(), [[1, 0]]); // motor 1 with board 0
    /// # Ok::<(), fitting::Refusal>(())
    /// ```
    pub fn forbids(&self) -> bool {
        self.forbids
    }

    /// The rows in the order of the book, 0 to 508 of them. Those of a forbidden sheet rise; others may repeat.
    ///
    /// A row has one byte for each of the sheet's columns, in their order: a value, or 255, which "stands
    /// for all its values". [`Cell`](crate::Cell) tells them apart. A forbidden sheet has no 255.
    pub fn rows(
        &self,
    ) -> impl ExactSizeIterator<Item = &'a [u8]> + DoubleEndedIterator + Clone + 'a {
        let sheet = *self;
        (0..sheet.rows).map(move |number| sheet.row(number).unwrap_or_default())
    }

    /// The row of this number, counted from 0, if the sheet has it; bytes as in [`rows`](Self::rows).
    pub fn row(&self, number: usize) -> Option<&'a [u8]> {
        if number < self.rows {
            layout::cells(self.blocks, number, self.columns.len())
        } else {
            None
        }
    }
}

impl PartialEq for Sheet<'_> {
    fn eq(&self, other: &Self) -> bool {
        let kinds = self.forbids == other.forbids;
        kinds && self.columns == other.columns && self.rows().eq(other.rows())
    }
}

impl Eq for Sheet<'_> {}

impl Hash for Sheet<'_> {
    fn hash<H: Hasher>(&self, state: &mut H) {
        self.forbids.hash(state);
        self.columns.hash(state);
        self.rows().for_each(|row| row.hash(state));
    }
}

impl fmt::Debug for Sheet<'_> {
    fn fmt(&self, f: &mut fmt::Formatter<'_>) -> fmt::Result {
        f.debug_struct("Sheet")
            .field("columns", &self.columns)
            .field("forbids", &self.forbids)
            .field("rows", &self.rows)
            .finish()
    }
}
