//! What a field of the head has to be.

use core::fmt;

#[derive(Clone, Copy, Debug, PartialEq, Eq, Hash)]
pub(crate) enum Rule {
    /// The letters FGB1.
    Letters,
    /// From the first number to the second.
    Within(u8, u16),
    /// A width, as it is or with what marks a forbidden sheet.
    Width,
    /// A column number is below C.
    BelowColumns(u8),
    /// A column number is above the one before.
    Above(u8),
    /// Zero in any book.
    Zero,
    /// Zero where there is no column: C is this.
    NoColumn(u8),
    /// Zero where the sheet has no column number: its width is this.
    NoNumber(u8),
    /// Zero where there is no sheet: S is this.
    NoSheet(u8),
}

impl Rule {
    /// Whether what was found is right.
    pub(crate) fn holds(self, found: u32) -> bool {
        match self {
            Self::Letters => found.to_le_bytes() == *b"FGB1",
            Self::Within(least, most) => (least.into()..=most.into()).contains(&found),
            Self::Width => matches!(found, 1..=4 | 129..=132),
            Self::BelowColumns(columns) => found < columns.into(),
            Self::Above(before) => found > before.into(),
            Self::Zero | Self::NoColumn(_) | Self::NoNumber(_) | Self::NoSheet(_) => found == 0,
        }
    }
}

impl fmt::Display for Rule {
    fn fmt(&self, f: &mut fmt::Formatter<'_>) -> fmt::Result {
        match self {
            Self::Letters => write!(f, "FGB1"),
            Self::Within(least, most) => write!(f, "{least} to {most}"),
            Self::Width => write!(f, "1 to 4 or 129 to 132"),
            Self::BelowColumns(columns) => write!(f, "below C, {columns}"),
            Self::Above(before) => write!(f, "above {before}"),
            Self::Zero => write!(f, "zero"),
            Self::NoColumn(columns) => write!(f, "zero, though C is {columns}"),
            Self::NoNumber(width) => write!(f, "zero, though its width is {width}"),
            Self::NoSheet(sheets) => write!(f, "zero, though S is {sheets}"),
        }
    }
}
