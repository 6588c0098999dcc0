//! The fields of the head by their names.

use core::fmt;

/// Which field of the head it is. Sheets and columns count from 0.
#[derive(Clone, Copy, Debug, PartialEq, Eq, Hash)]
#[non_exhaustive]
pub enum FieldName {
    /// Bytes 0 to 3: the letters.
    Letters,
    /// Byte 4: the number of columns C.
    Columns,
    /// Byte 5: the number of sheets S.
    Sheets,
    /// Bytes 8 to 23: V of a column; from C on it must be zero.
    Count {
        /// The column.
        column: u8,
    },
    /// Byte 0 of a sheet's entry: the width, plus 128 for a forbidden sheet.
    Width {
        /// The sheet.
        sheet: u8,
    },
    /// Bytes 1 to 4 of a sheet's entry: a column number; from the width on it must be zero.
    Number {
        /// The sheet.
        sheet: u8,
        /// Which of the four it is, counted from 0.
        index: u8,
    },
    /// Bytes 6 and 7 of a sheet's entry: the row count.
    Rows {
        /// The sheet.
        sheet: u8,
    },
    /// A byte of a sheet's entry that must be zero: byte 5, and from S on every one.
    EntryByte {
        /// The sheet.
        sheet: u8,
        /// Which byte of the entry it is, counted from 0.
        byte: u8,
    },
    /// A byte of the head that must be zero: bytes 6, 7 and 88 to 507.
    Byte {
        /// Its offset.
        offset: u16,
    },
}

impl FieldName {
    /// The bytes of the field.
    pub(crate) fn length(self) -> usize {
        match self {
            Self::Letters => 4,
            Self::Rows { .. } => 2,
            _ => 1,
        }
    }
}

impl fmt::Display for FieldName {
    fn fmt(&self, f: &mut fmt::Formatter<'_>) -> fmt::Result {
        match self {
            Self::Letters => write!(f, "the letters"),
            Self::Columns => write!(f, "the number of columns C"),
            Self::Sheets => write!(f, "the number of sheets S"),
            Self::Count { column } => write!(f, "column {column}'s V"),
            Self::Width { sheet } => write!(f, "sheet {sheet}'s width"),
            Self::Number { sheet, index } => {
                let nth = ["first", "second", "third", "fourth"].get(usize::from(*index));
                write!(
                    f,
                    "sheet {sheet}'s {} column number",
                    nth.unwrap_or(&"next")
                )
            }
            Self::Rows { sheet } => write!(f, "sheet {sheet}'s row count"),
            Self::EntryByte { sheet, byte } => write!(f, "byte {byte} of sheet {sheet}'s entry"),
            Self::Byte { offset } => write!(f, "byte {offset}"),
        }
    }
}
