//! Books with forbidden sheets: seeded ones, and others turned over.

use crate::books::{columns, sheet};
use crate::short::MOST_ROWS;
use crate::{Book, Random, Sheet, ANY};
use reference::turned;
use std::collections::BTreeSet;

/// Sheets of more combinations aren't turned over: most of them would have too many rows.
const MOST_COMBINATIONS: usize = 600;

/// In seeded books not those of more than these: the reference is slow on many rows.
const FEW_COMBINATIONS: usize = 150;

/// The book with some of its sheets forbidden ones of about as many rows; in half of the cases none. Nothing else that is
/// drawn goes by it.
pub(crate) fn with_forbidden(random: &Random, mut book: Book) -> Book {
    // Another stream than that of the short rows.
    let random = &mut random.beside().beside();
    let once_in = random.pick(&[0, 0, 0, 1, 2, 2]);
    for sheet in &mut book.sheets {
        let rows = sheet.rows.len();
        // A long sheet of few combinations stays as it is: it would lose its blocks.
        let fits = rows <= combinations(&book.counts, &sheet.columns);
        if fits && once_in > 0 && random.once_in(once_in) {
            *sheet = some_forbidden(random, &book.counts, &sheet.columns, rows);
        }
    }
    book
}

/// A forbidden sheet of so many rows, or of fewer where that would be more than half of its combinations.
fn some_forbidden(random: &mut Random, counts: &[u8], columns: &[u8], rows: usize) -> Sheet {
    let combinations = combinations(counts, columns);
    let rows = if rows <= combinations / 2 {
        rows
    } else {
        random.within(0..=rows)
    };
    let mut chosen = BTreeSet::new();
    while chosen.len() < rows {
        chosen.insert(random.below(combinations));
    }
    let numbers: Vec<usize> = chosen.into_iter().collect();
    forbidden(counts, columns, &numbers)
}

/// The forbidden sheet of the combinations with these numbers, which rise.
fn forbidden(counts: &[u8], columns: &[u8], numbers: &[usize]) -> Sheet {
    let row = |&number: &usize| numbered(counts, columns, number);
    Sheet {
        forbidden: true,
        columns: columns.to_vec(),
        rows: numbers.iter().map(row).collect(),
    }
}

fn combinations(counts: &[u8], columns: &[u8]) -> usize {
    let values = columns.iter().map(|&c| usize::from(counts[usize::from(c)]));
    values.product()
}

/// The combination of this number: they rise as their numbers do.
fn numbered(counts: &[u8], columns: &[u8], mut number: usize) -> Vec<u8> {
    let mut values = Vec::new();
    for &column in columns.iter().rev() {
        let count = usize::from(counts[usize::from(column)]);
        values.insert(0, (number % count) as u8);
        number /= count;
    }
    values
}

/// The book with some of its sheets turned over, so that it allows the same; in two cases of three none. Nothing else
/// that is drawn goes by it.
pub(crate) fn partly_turned(random: &Random, mut book: Book) -> Book {
    let random = &mut random.beside().beside();
    let once_in = random.pick(&[0, 0, 0, 0, 1, 2]);
    for s in 0..book.sheets.len() {
        let few = combinations(&book.counts, &book.sheets[s].columns) <= FEW_COMBINATIONS;
        if few && once_in > 0 && random.once_in(once_in) {
            if let Some(sheet) = turned_over(&book, &book.sheets[s]) {
                book.sheets[s] = sheet;
            }
        }
    }
    book
}

/// The sheet of the other kind that allows the same, if its columns have few combinations and its rows are within the
/// limits.
pub fn turned_over(book: &Book, sheet: &Sheet) -> Option<Sheet> {
    let few = combinations(&book.counts, &sheet.columns) <= MOST_COMBINATIONS;
    let over = few.then(|| turned(book, sheet));
    over.filter(|over| over.rows.len() <= MOST_ROWS)
}

/// Few columns of few values, and sheets of both kinds. Most forbidden ones leave little of something: of all
/// combinations, or of those with one value.
pub(crate) fn forbidding(random: &mut Random) -> Book {
    let all = random.within(2..=6);
    let mut counts: Vec<u8> = (0..all)
        .map(|_| random.pick(&[1, 2, 2, 2, 3, 3, 4]))
        .collect();
    if random.once_in(6) {
        counts[random.below(all)] = random.pick(&[16, 31, 32]);
    }
    let count = random.pick(&[1, 1, 2, 2, 3, 4, 8]);
    let sheets = (0..count).map(|_| {
        let width = random.pick(&[1, 2, 2, 2, 3, 3, 4]).min(all);
        let chosen = columns(random, all, width);
        if random.once_in(4) {
            plain(random, &counts, width)
        } else {
            tight(random, &counts, &chosen)
        }
    });
    let sheets = sheets.collect();
    Book { counts, sheets }
}

/// A plain sheet of some rows, in half of the cases with any in some of its cells.
fn plain(random: &mut Random, counts: &[u8], width: usize) -> Sheet {
    let rows = random.within(4..=24);
    let mut sheet = sheet(random, counts, width, rows);
    if random.once_in(2) {
        let cells = sheet.rows.iter_mut().flatten();
        let some = cells.filter(|_| random.once_in(3));
        some.for_each(|cell| *cell = ANY);
    }
    sheet
}

/// A forbidden sheet that has none of its combinations, few, all of one value or all but a few of these, all but a few of
/// all, or all.
fn tight(random: &mut Random, counts: &[u8], columns: &[u8]) -> Sheet {
    let combinations = combinations(counts, columns);
    let few = random.within(1..=4);
    let mut numbers: Vec<usize> = (0..combinations).collect();
    match random.below(16) {
        0 => numbers.clear(),
        1 => {}
        2..=5 => numbers = (0..few).map(|_| random.below(combinations)).collect(),
        6..=7 => leave(random, &mut numbers, few),
        how => {
            let i = random.below(columns.len());
            let value = numbered(counts, columns, random.below(combinations))[i];
            numbers.retain(|&number| numbered(counts, columns, number)[i] == value);
            // Nothing is left with this value, or one combination, or some.
            leave(random, &mut numbers, [0, 1, 1, few][how % 4]);
            let more = random.within(0..=2);
            numbers.extend((0..more).map(|_| random.below(combinations)));
        }
    }
    numbers.sort_unstable();
    numbers.dedup();
    numbers.truncate(MOST_ROWS);
    forbidden(counts, columns, &numbers)
}

/// Takes so many of these out.
fn leave(random: &mut Random, numbers: &mut Vec<usize>, count: usize) {
    for _ in 0..count {
        if !numbers.is_empty() {
            numbers.remove(random.below(numbers.len()));
        }
    }
}
