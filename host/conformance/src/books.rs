//! Described books: the ones that have a name, and any other from a seed.

use crate::forbidding::with_forbidden;
use crate::{kit, Random};
use reference::{Book, Sheet, ANY};

/// Row counts at which the number of blocks changes, or the last row of a block is used.
const BLOCK_EDGES: [usize; 13] = [0, 1, 126, 127, 128, 253, 254, 255, 380, 381, 382, 507, 508];

/// The columns of harbour book H.
pub const WIDTH: u8 = 0;
/// Its second column.
pub const MOTOR: u8 = 1;
/// Its third column.
pub const BOARD: u8 = 2;

/// Harbour book H of document 01.
pub fn harbour() -> Book {
    kit::read_contents(include_str!("../vectors/contents/harbour.txt"))
}

/// One column of one value, no sheet.
pub fn tiny() -> Book {
    regular(1, 1, 0, 0, 1)
}

/// A book all of whose columns and all of whose sheets are of one size; its rows are seeded.
pub fn regular(columns: usize, values: u8, sheets: usize, rows: usize, width: usize) -> Book {
    let random = &mut Random::new(0);
    with_sheets(random, vec![values; columns], sheets, |_| (rows, width))
}

/// Every way to take one number of each list; what is taken of the last changes first.
pub fn one_of_each(lists: &[Vec<u8>]) -> Vec<Vec<u8>> {
    let mut all = vec![vec![]];
    for list in lists {
        let with = |taken: &Vec<u8>| {
            let longer = list.iter().map(|&number| [&taken[..], &[number]].concat());
            longer.collect::<Vec<_>>()
        };
        all = all.iter().flat_map(with).collect();
    }
    all
}

/// A book of one sheet over all columns, of so many values each.
pub fn one_sheet(counts: &[u8], rows: Vec<Vec<u8>>) -> Book {
    let columns = (0..counts.len() as u8).collect();
    let sheet = Sheet {
        forbidden: false,
        columns,
        rows,
    };
    Book {
        counts: counts.to_vec(),
        sheets: vec![sheet],
    }
}

/// The same of a forbidden sheet; its rows must rise.
pub fn one_forbidden(counts: &[u8], rows: Vec<Vec<u8>>) -> Book {
    let mut book = one_sheet(counts, rows);
    book.sheets[0].forbidden = true;
    book
}

/// For each width from 2 to 4, a book of one column of 32 values at each place in turn beside columns of 3; and that place.
/// Its sheet forbids value 5 of the large column with everything, and nothing else: its rows are as many as the choices for
/// the other places there, and fewer than those at any small column.
pub fn one_large_column() -> Vec<(usize, Book)> {
    let book = |width: usize, place: usize| {
        let mut counts = vec![3; width];
        counts[place] = 32;
        let mut values = vec![vec![0, 1, 2]; width];
        values[place] = vec![5];
        (place, one_forbidden(&counts, one_of_each(&values)))
    };
    let of_width = |width| (0..width).map(move |place| book(width, place));
    (2..=4).flat_map(of_width).collect()
}

/// For each width from 2 to 4, a book of one forbidden sheet in which value 30 of the first column has rows among the last
/// four of a word alone, which are walked by themselves. With it they forbid value 1 of the last column, and nothing else.
pub fn last_four_forbidden() -> Vec<Book> {
    let book = |width: usize| {
        let mut counts = vec![2; width];
        (counts[0], counts[width - 1]) = (32, 3);
        let mut rows = Vec::new();
        for value in 0..30 {
            for last in [0, 1] {
                let mut row = vec![0; width];
                (row[0], row[width - 1]) = (value, last);
                rows.push(row);
            }
        }
        let mut values = vec![vec![0, 1]; width];
        (values[0], values[width - 1]) = (vec![30], vec![1]);
        rows.extend(one_of_each(&values));
        one_forbidden(&counts, rows)
    };
    (2..=4).map(book).collect()
}

/// Any book of the format, from one column alone to 33 blocks.
pub fn any_book(random: &mut Random) -> Book {
    let size = random.below(10);
    let columns = if size < 3 {
        random.within(1..=3)
    } else {
        random.within(1..=16)
    };
    let counts: Vec<u8> = (0..columns).map(|_| count(random)).collect();
    let sheets = match size {
        0..=2 => random.within(0..=2),
        3..=8 => random.within(0..=8),
        _ => 8,
    };
    // How many in 4 of a large book's sheets surely have four blocks.
    let filled = random.within(0..=4);
    let book = with_sheets(random, counts, sheets, |random| {
        let rows = match size {
            0..=2 => random.within(0..=6),
            3..=6 => random.within(0..=40),
            7..=8 => random.pick(&BLOCK_EDGES),
            _ if random.below(4) < filled => random.within(382..=508),
            _ => random.within(0..=508),
        };
        (rows, random.within(1..=columns.min(4)))
    });
    with_forbidden(random, shortened(random, book))
}

/// Up to three columns of up to four values, up to three sheets of up to eight rows.
pub(crate) fn tiny_book(random: &mut Random) -> Book {
    let columns = random.within(1..=3);
    let counts: Vec<u8> = (0..columns).map(|_| random.within(1..=4) as u8).collect();
    let sheets = random.within(0..=3);
    let book = with_sheets(random, counts, sheets, |random| {
        (random.within(0..=8), random.within(1..=columns))
    });
    shortened(random, book)
}

/// Columns that several sheets share, and few rows for each value of a column: a value that goes
/// takes others with it.
pub(crate) fn small_book(random: &mut Random) -> Book {
    let columns = random.within(2..=8);
    let most = random.within(2..=8);
    let counts: Vec<u8> = (0..columns)
        .map(|_| random.within(1..=most) as u8)
        .collect();
    let rows_of_a_value = random.within(1..=8);
    let sheets = random.within(1..=8);
    let book = with_sheets(random, counts, sheets, |random| {
        let rows = random.within(1..=most * rows_of_a_value);
        (rows, random.within(1..=columns.min(4)))
    });
    shortened(random, book)
}

/// Sixteen columns of 32 values, eight sheets of 508 rows, of any widths.
pub(crate) fn largest_book(random: &mut Random) -> Book {
    let book = with_sheets(random, vec![32; 16], 8, |random| {
        (508, random.within(1..=4))
    });
    with_forbidden(random, shortened(random, book))
}

/// Columns in a ring, each as the one before it says, and the last one more than the first: a value
/// that goes takes the next with it, and so on around. Every row stands there several times. With
/// it, a value that may be in every column at once, if there is one.
pub(crate) fn ring(random: &mut Random) -> (Book, Vec<u8>) {
    let columns = random.within(2..=8);
    let most = random.within(2..=32);
    let count = random.within(2..=most);
    let most = if random.once_in(8) { 508 } else { 80 };
    let times = random.within(1..=most / (count + 1));
    let mut sheets = Vec::new();
    for next in 1..columns {
        let rows = (0..count).map(|value| [value, value]);
        sheets.push(pairs(random, next - 1, next, rows.collect(), times));
    }
    let mut rows: Vec<_> = (0..count - 1).map(|value| [value, value + 1]).collect();
    // Without this row no value stays.
    if !random.once_in(5) {
        rows.push([count - 1, 0]);
    }
    let held = random.below(count);
    // With this one something does, whatever else goes.
    if random.once_in(2) {
        rows.push([held, held]);
    }
    sheets.push(pairs(random, 0, columns - 1, rows, times));
    random.shuffle(&mut sheets);
    let counts = vec![count as u8; columns];
    let book = shortened(random, Book { counts, sheets });
    (book, vec![held as u8; columns])
}

/// Columns of two values or three, and sheets of two columns whose values must differ: every value
/// stays, and only a search tells whether there is a full set. With it, any value of each column.
pub(crate) fn differing(random: &mut Random) -> (Book, Vec<u8>) {
    let columns = random.within(3..=6);
    let count = random.within(2..=3);
    let rows: Vec<_> = (0..count * count)
        .map(|number| [number / count, number % count])
        .filter(|[one, other]| one != other)
        .collect();
    let mut sheets = Vec::new();
    for _ in 0..random.within(3..=8) {
        let first = random.below(columns - 1);
        let second = random.within(first + 1..=columns - 1);
        sheets.push(pairs(random, first, second, rows.clone(), 1));
    }
    let counts = vec![count as u8; columns];
    let book = shortened(random, Book { counts, sheets });
    let aim = any_set(random, &book);
    (book, aim)
}

/// A sheet of two columns that has each of these rows so many times, in any order.
fn pairs(
    random: &mut Random,
    first: usize,
    second: usize,
    rows: Vec<[usize; 2]>,
    times: usize,
) -> Sheet {
    let row = |row: &[usize; 2]| row.map(|value| value as u8).to_vec();
    let mut rows: Vec<Vec<u8>> = rows.iter().flat_map(|it| vec![row(it); times]).collect();
    random.shuffle(&mut rows);
    Sheet {
        forbidden: false,
        columns: vec![first as u8, second as u8],
        rows,
    }
}

/// One value of each column.
pub(crate) fn any_set(random: &mut Random, book: &Book) -> Vec<u8> {
    let counts = book.counts.iter();
    counts
        .map(|&count| random.below(count.into()) as u8)
        .collect()
}

/// Puts a row of this set in the place of some row of each sheet, so that it is a full set of the
/// book; from a forbidden sheet that row is taken. A sheet without rows stays so.
pub fn plant(random: &mut Random, book: &mut Book, set: &[u8]) {
    for sheet in &mut book.sheets {
        if !sheet.rows.is_empty() {
            let columns = sheet.columns.iter();
            let row: Vec<u8> = columns.map(|&column| set[usize::from(column)]).collect();
            let place = random.below(sheet.rows.len());
            if sheet.forbidden {
                sheet.rows.retain(|it| *it != row);
                continue;
            }
            sheet.rows[place] = row;
        }
    }
}

/// The values of a column, with the limits more often than by chance.
fn count(random: &mut Random) -> u8 {
    match random.below(6) {
        0 => 1,
        1 => 32,
        _ => random.within(1..=32) as u8,
    }
}

/// The book with any in some of its cells: in none in one case of two, in up to three, or in up to an
/// eighth or a half of all. Nothing else that is drawn goes by it.
fn shortened(random: &Random, mut book: Book) -> Book {
    let random = &mut random.beside();
    let rows = book.sheets.iter_mut().flat_map(|sheet| &mut sheet.rows);
    let mut cells: Vec<&mut u8> = rows.flatten().collect();
    let count = match random.below(8) {
        0..=3 => 0,
        4..=5 => random.within(1..=3),
        6 => cells.len() / 8,
        _ => cells.len() / 2,
    };
    for _ in 0..count {
        let place = random.below(cells.len());
        if let Some(cell) = cells.get_mut(place) {
            **cell = ANY;
        }
    }
    book
}

/// A book of these columns' values and so many seeded sheets, each of the rows and the width that it gets.
fn with_sheets(
    random: &mut Random,
    counts: Vec<u8>,
    sheets: usize,
    size: impl Fn(&mut Random) -> (usize, usize),
) -> Book {
    let sheets = (0..sheets).map(|_| {
        let (rows, width) = size(random);
        sheet(random, &counts, width, rows)
    });
    let sheets = sheets.collect();
    Book { counts, sheets }
}

pub(crate) fn sheet(random: &mut Random, counts: &[u8], width: usize, rows: usize) -> Sheet {
    let columns = columns(random, counts.len(), width);
    let limits: Vec<u64> = columns
        .iter()
        .map(|&c| u64::from(counts[usize::from(c)]))
        .collect();
    let row = |random: &mut Random| {
        let bits = random.bits();
        let value = |i: usize| (((bits >> (16 * i)) & 0xFFFF) * limits[i]) >> 16;
        (0..width).map(|i| value(i) as u8).collect()
    };
    let rows = (0..rows).map(|_| row(random)).collect();
    Sheet {
        forbidden: false,
        columns,
        rows,
    }
}

/// So many columns out of `all`, in rising order.
pub(crate) fn columns(random: &mut Random, all: usize, width: usize) -> Vec<u8> {
    let mut chosen = Vec::with_capacity(width);
    for column in 0..all {
        if random.below(all - column) < width - chosen.len() {
            chosen.push(column as u8);
        }
    }
    chosen
}
