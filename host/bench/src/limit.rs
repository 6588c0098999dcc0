//! Books whose search goes on past every limit of tries, so that a finish takes as long as its limit lets it.
//!
//! All but one have free columns first, which no sheet has: whatever is chosen there, the search finds the same
//! contradiction behind them anew. What a try costs is then the only difference, and the last two are made for it:
//!
//! ```text
//! free columns | t | a b c d        a try sets t; that strikes value 0 of a, or of c
//!                                   a 0 -> b 0 -> c 0 -> d 0 -> a 1 -> b 1 -> .. -> b 30 -> c 30: no row is left
//! ```
//!
//! Each arrow is one look that strikes a single value, and before the next one all other sheets are looked at
//! for it. No sheet can be looked at more often than its columns have values.

use crate::hard::{cube, parity};
use conformance::{Book, Sheet, ANY};

/// "rows n, 0 to 508"
const ROWS: usize = 508;

/// The rows of a block.
const BLOCK: usize = 127;

/// The value that is never struck.
const STAYS: u8 = 31;

/// Names and books.
pub fn books() -> Vec<(&'static str, Book)> {
    let one_by_one = |rows, others| behind_free(11, &[32; 5], one_by_one(rows, others));
    vec![
        ("2,048 bytes, three pairs", three_pairs()),
        ("2,048 bytes, one by one", one_by_one(BLOCK, None)),
        ("full, width 2, parity", parity_of_pairs()),
        ("full, width 3, parity", parity(8, &cube(), 10)),
        ("full, width 4, one by one", one_by_one(ROWS, Some(false))),
        (
            "full, width 4, short, one by one",
            one_by_one(ROWS, Some(true)),
        ),
    ]
}

/// Free columns of 32 values, and after them columns of so many with these sheets.
fn behind_free(free: u8, counts: &[u8], mut sheets: Vec<Sheet>) -> Book {
    let columns = sheets.iter_mut().flat_map(|sheet| &mut sheet.columns);
    columns.for_each(|column| *column += free);
    let mut all = vec![32; free.into()];
    all.extend(counts);
    Book {
        counts: all,
        sheets,
    }
}

/// K7 of document 01: three columns of two values, of which no two may be alike.
fn three_pairs() -> Book {
    let sheet = |columns: [u8; 2]| Sheet {
        forbidden: false,
        columns: columns.to_vec(),
        rows: vec![vec![0, 1], vec![1, 0]],
    };
    let sheets = [[0, 1], [0, 2], [1, 2]].map(sheet);
    behind_free(13, &[2; 3], sheets.to_vec())
}

/// Eight columns in a ring, each pair of neighbours both even or both odd; but not the last pair.
fn parity_of_pairs() -> Book {
    let sheet = |first: u8| {
        let columns = [first, (first + 1) % 8];
        let odd = u8::from(first == 7);
        let pairs = (0..31).flat_map(|one| (0..31).map(move |other| vec![one, other]));
        let mut columns = columns.to_vec();
        columns.sort();
        Sheet {
            forbidden: false,
            columns,
            rows: pairs.filter(|row| (row[0] + row[1]) % 2 == odd).collect(),
        }
    };
    behind_free(8, &[31; 8], (0..8).map(sheet).collect())
}

/// The sheets of so many rows on t, a, b, c and d that strike one value after the other; with other sheets that
/// strike nothing, but have to be looked at every time, in front of them or without. These may have short rows.
fn one_by_one(rows: usize, others: Option<bool>) -> Vec<Sheet> {
    let columns = |columns: [u8; 4]| columns.to_vec();
    let with_t = Sheet {
        forbidden: false,
        columns: columns([0, 1, 2, 3]),
        rows: starting(rows),
    };
    let without_t = |rows| Sheet {
        forbidden: false,
        columns: columns([1, 2, 3, 4]),
        rows,
    };
    // The lowest sheet that waits is looked at first, so those that strike come last.
    let looked_at = others.map(|short| vec![without_t(looked_at(short)); 5]);
    let mut sheets = looked_at.unwrap_or_default();
    sheets.extend([
        with_t,
        without_t(from_b_and_d(rows)),
        without_t(from_a_and_c(rows)),
    ]);
    sheets
}

/// So many rows: first what stays longest, over and over; then what goes, so that no look is over before the last
/// word.
fn laid_out(rows: usize, go: Vec<Vec<u8>>, stays: &[Vec<u8>]) -> Vec<Vec<u8>> {
    let stay = stays.iter().cycle().take(rows - go.len()).cloned();
    stay.chain(go).collect()
}

/// A row of values that stay, but for one place.
fn but(place: usize, value: u8) -> Vec<u8> {
    let mut row = vec![STAYS; 4];
    row[place] = value;
    row
}

/// t, a, b, c: value 0 of a goes only with value 0 of t, and value 0 of c only with the others.
fn starting(rows: usize) -> Vec<Vec<u8>> {
    let any_t = |value: u8| {
        (1..4).map(move |place| {
            let mut row = but(place, value);
            row[0] = ANY;
            row
        })
    };
    let mut go: Vec<_> = (1..STAYS).flat_map(any_t).collect();
    go.push(vec![ANY, STAYS, 0, STAYS]);
    go.push(vec![0, 0, STAYS, STAYS]);
    go.extend((1..32).map(|t| vec![t, STAYS, STAYS, 0]));
    laid_out(rows, go, &[vec![ANY, STAYS, STAYS, STAYS]])
}

/// a, b, c, d: a value of a goes only with that of b, and one of c with that of d. Nothing but 31 is nowhere
/// allowed, which ends it.
fn from_a_and_c(rows: usize) -> Vec<Vec<u8>> {
    let pairs = |i| [vec![i, i, STAYS, STAYS], vec![STAYS, STAYS, i, i]];
    laid_out(
        rows,
        (0..STAYS).flat_map(pairs).collect(),
        &pairs(STAYS - 1),
    )
}

/// a, b, c, d: a value of b goes only with that of c, and one of d with the next of a.
fn from_b_and_d(rows: usize) -> Vec<Vec<u8>> {
    let pairs = |i| [vec![STAYS, i, i, STAYS], vec![i + 1, STAYS, STAYS, i]];
    let mut go: Vec<_> = (0..STAYS).flat_map(pairs).collect();
    go.push(but(0, 0));
    laid_out(rows, go, &pairs(STAYS - 1))
}

/// a, b, c, d: a row goes with every value that is struck, and none is the last to have its value. With short
/// rows value 30 has no row of its own, and what has it stands in the last place.
fn looked_at(short: bool) -> Vec<Vec<u8>> {
    let values = 0..if short { STAYS - 1 } else { STAYS };
    let mut go: Vec<_> = values
        .flat_map(|value| (0..4).map(move |place| but(place, value)))
        .collect();
    go.extend(short.then_some(vec![ANY; 4]));
    laid_out(ROWS, go, &[vec![STAYS; 4]])
}

#[cfg(test)]
mod tests {
    use super::*;
    use crate::timed::finish;
    use conformance::{narrow, space_for, write, FINISH};
    use fitting::Outcome;
    use std::num::NonZeroU16;

    /// By the reference there is no full set behind the free columns, though the opening is open; and each choice of
    /// these takes tries, so that four of them are enough. Where there are none the limit is reached at once.
    #[test]
    fn no_limit_is_large_enough() {
        for (name, book) in books() {
            let bytes = write(&book);
            let used: Vec<u8> = book
                .sheets
                .iter()
                .flat_map(|it| it.columns.clone())
                .collect();
            let all = 0..book.counts.len() as u8;
            let free: Vec<u8> = all.filter(|column| !used.contains(column)).collect();
            if free.is_empty() {
                let said = finish(&bytes, NonZeroU16::MAX);
                assert_eq!(said, (Outcome::Stopped, 65_535), "{name}");
                continue;
            }
            assert!(free.len() >= 4, "{name}");
            let chosen = free.iter().flat_map(|&column| narrow(column, 1));
            let orders: Vec<u8> = chosen.chain(FINISH).collect();
            let mut answers = vec![0; space_for(&orders)];
            let accepted = reference::run(&bytes, &orders, &mut answers);
            assert_eq!(accepted, free.len() as u64 + 1, "{name}");
            let [.., answer] = answers.as_chunks::<72>().0 else {
                panic!("{name}");
            };
            assert_eq!([answer[1], answer[3]], [1, 2], "{name}");
        }
    }

    /// The bytes that the names say.
    #[test]
    fn their_lengths() {
        for (name, book) in books() {
            let blocks = if name.starts_with("full") { 33 } else { 4 };
            assert_eq!(write(&book).len(), 512 * blocks, "{name}");
        }
    }
}
