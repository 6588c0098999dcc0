//! A wrong field of the head: which one, what stands there, and what it has to be.

use crate::layout::{
    Entry, Head, CHECK, COLUMNS, COUNTS, ENTRIES, ENTRY, LETTERS, REST, SHEETS, ZEROS,
};
use crate::layout::{ENTRY_ZERO, NUMBERS, ROWS, WIDTH};
use crate::rule::Rule;
use crate::FieldName;
use core::{fmt, str};

/// A wrong field of the head. It shows itself as a sentence:
///
/// ```
/// # let bytes = conformance::changed(&conformance::harbour(), &[(25, 1)]);
/// use fitting::{FieldName, Refusal};
///
/// // The two columns of sheet 0 are made 1 and 1.
/// let Err(Refusal::Head { offset: 26, field }) = fitting::check(&bytes) else { panic!() };
/// assert_eq!(field.name, FieldName::Number { sheet: 0, index: 1 });
/// assert_eq!(field.found, 1);
/// assert_eq!(field.to_string(), "sheet 0's second column number, 1, is not above 1");
/// ```
#[derive(Clone, Copy, Debug, PartialEq, Eq, Hash)]
#[non_exhaustive]
pub struct Field {
    /// Which field it is.
    pub name: FieldName,
    /// What stands there; in a field of several bytes, such as the letters, the lowest byte comes first.
    pub found: u32,
    rule: Rule,
}

impl Field {
    /// The field that begins at this offset of the book's head, if it is wrong.
    pub(crate) fn wrong_at(book: &[u8], offset: u16) -> Option<Self> {
        let head = Head::of(book)?;
        let (name, rule) = at(head, offset)?;
        let found = head.number(offset.into(), name.length());
        (!rule.holds(found)).then_some(Self { name, found, rule })
    }
}

/// The field that begins at this offset of the head, and what it has to be: the table of refusal 3 in
/// `docs/FORMAT.md`.
fn at(head: Head, offset: u16) -> Option<(FieldName, Rule)> {
    Some(match usize::from(offset) {
        LETTERS => (FieldName::Letters, Rule::Letters),
        COLUMNS => (FieldName::Columns, Rule::Within(1, 16)),
        SHEETS => (FieldName::Sheets, Rule::Within(0, 8)),
        ZEROS..COUNTS | REST..CHECK => (FieldName::Byte { offset }, Rule::Zero),
        at @ COUNTS..ENTRIES => {
            let column = (at - COUNTS) as u8;
            let rule = match head.columns() {
                columns if column < columns => Rule::Within(1, 32),
                columns => Rule::NoColumn(columns),
            };
            (FieldName::Count { column }, rule)
        }
        at @ ENTRIES..REST => {
            return in_entry(head, (at - ENTRIES) / ENTRY, (at - ENTRIES) % ENTRY)
        }
        _ => return None,
    })
}

/// The field that begins at this byte of a sheet's entry, and what it has to be.
fn in_entry(head: Head, number: usize, at: usize) -> Option<(FieldName, Rule)> {
    let (sheet, byte) = (number as u8, at as u8);
    let Some(entry) = head.sheets().nth(number) else {
        let rule = Rule::NoSheet(head.sheet_count());
        return Some((FieldName::EntryByte { sheet, byte }, rule));
    };
    Some(match at {
        WIDTH => (FieldName::Width { sheet }, Rule::Width),
        NUMBERS..ENTRY_ZERO => {
            let index = (at - NUMBERS) as u8;
            let rule = number_rule(entry, index.into(), head.columns());
            (FieldName::Number { sheet, index }, rule)
        }
        ENTRY_ZERO => (FieldName::EntryByte { sheet, byte }, Rule::Zero),
        ROWS => (FieldName::Rows { sheet }, Rule::Within(0, 508)),
        // The second byte of the row count is no field of its own.
        _ => return None,
    })
}

/// "k column numbers below C, each above the one before; the rest zero": of the first two, what is broken
/// if one is.
fn number_rule(entry: Entry, index: usize, columns: u8) -> Rule {
    match *entry.columns().get(..=index).unwrap_or_default() {
        [] => Rule::NoNumber(entry.width()),
        [.., before, number] if number < columns => Rule::Above(before),
        _ => Rule::BelowColumns(columns),
    }
}

impl fmt::Display for Field {
    fn fmt(&self, f: &mut fmt::Formatter<'_>) -> fmt::Result {
        let Self { name, found, rule } = self;
        match name {
            FieldName::Letters => write!(f, "{name}, {}, are not {rule}", letters(*found)),
            _ => write!(f, "{name}, {found}, is not {rule}"),
        }
    }
}

/// Four letters or digits as they are; other bytes one by one.
fn letters(found: u32) -> impl fmt::Display {
    let bytes = found.to_le_bytes();
    fmt::from_fn(move |f| match str::from_utf8(&bytes) {
        Ok(letters) if bytes.iter().all(u8::is_ascii_alphanumeric) => f.write_str(letters),
        _ => {
            let [a, b, c, d] = bytes;
            write!(f, "hexadecimal {a:02X} {b:02X} {c:02X} {d:02X}")
        }
    })
}
