//! Block 0, the head: its fields in offset order, and what they say.

use std::ops::RangeInclusive;

/// A field of the head: the offset where it starts, and whether it is as document 01 says.
pub(crate) type Field = (usize, bool);

/// "byte 4: columns C"
pub(crate) fn columns(head: &[u8]) -> usize {
    usize::from(head[4])
}

/// "byte 5: sheets S"
pub(crate) fn sheets(head: &[u8]) -> usize {
    usize::from(head[5])
}

/// "byte 8 + i, for i from 0 to 15: values V of column i"
pub(crate) fn values(head: &[u8], column: usize) -> usize {
    usize::from(head[8 + column])
}

/// What one of the eight sheet entries says.
pub(crate) struct Entry {
    pub(crate) forbidden: bool,
    pub(crate) width: usize,
    pub(crate) columns: [usize; 4],
    pub(crate) rows: usize,
}

/// "from byte 24, eight sheet entries of 8 bytes. Byte 0: width k … Bytes 1 to 4: k column numbers
/// … Bytes 6, 7: rows n"
pub(crate) fn entry(head: &[u8], s: usize) -> Entry {
    let byte = |i: usize| usize::from(head[24 + 8 * s + i]);
    let forbidden = (129..=132).contains(&byte(0));
    Entry {
        forbidden,
        // "Width byte 129 to 132 marks a forbidden sheet of width 1 to 4."
        width: if forbidden { byte(0) - 128 } else { byte(0) },
        columns: [byte(1), byte(2), byte(3), byte(4)],
        rows: byte(6) + 256 * byte(7),
    }
}

/// "3 if a head field is wrong, place the offset of the first one, in offset order, zeros counted
/// byte by byte"
pub(crate) fn wrong_field(head: &[u8]) -> Option<usize> {
    let mut fields = fields(head).into_iter();
    fields.find_map(|(place, right)| (!right).then_some(place))
}

/// Every field of the head, in offset order.
pub(crate) fn fields(head: &[u8]) -> Vec<Field> {
    let mut fields = vec![
        // "bytes 0 to 3: the letters FGB1 in ASCII"
        (0, head[0..4] == *b"FGB1"),
        // "byte 4: columns C, 1 to 16; byte 5: sheets S, 0 to 8; bytes 6, 7: zero"
        (4, (1..=16).contains(&columns(head))),
        (5, (0..=8).contains(&sheets(head))),
    ];
    fields.extend(zeros(head, 6..=7));
    // "byte 8 + i, for i from 0 to 15: values V of column i, 1 to 32 for i < C, else zero."
    for i in 0..16 {
        let used = i < columns(head);
        let range = if used { 1..=32 } else { 0..=0 };
        fields.push((8 + i, range.contains(&values(head, i))));
    }
    for s in 0..8 {
        if s < sheets(head) {
            fields.extend(entry_fields(head, s));
        } else {
            // "Entries from S on are all zero."
            fields.extend(zeros(head, 24 + 8 * s..=31 + 8 * s));
        }
    }
    // "bytes 88 to 507: zero"
    fields.extend(zeros(head, 88..=507));
    fields
}

/// "Byte 0: width k, 1 to 4", or the "Width byte" of a forbidden sheet. "Bytes 1 to 4: k column numbers below C, each above the one before;
/// the rest zero. Byte 5: zero. Bytes 6, 7: rows n, 0 to 508."
fn entry_fields(head: &[u8], s: usize) -> Vec<Field> {
    let start = 24 + 8 * s;
    let entry = entry(head, s);
    let mut fields = vec![(start, (1..=4).contains(&entry.width))];
    for i in 0..4 {
        let number = entry.columns[i];
        let right = if i < entry.width {
            number < columns(head) && (i == 0 || number > entry.columns[i - 1])
        } else {
            number == 0
        };
        fields.push((start + 1 + i, right));
    }
    fields.extend(zeros(head, start + 5..=start + 5));
    fields.push((start + 6, (0..=508).contains(&entry.rows)));
    fields
}

/// "zeros counted byte by byte": each of these bytes is a field that must be zero.
fn zeros(head: &[u8], places: RangeInclusive<usize>) -> impl Iterator<Item = Field> + '_ {
    places.map(move |place| (place, head[place] == 0))
}
