//! Books of one sheet, four columns of 32 values and 508 rows, most of them short, that allow all of 1,048,576
//! choices, or all but the last: the worst for those who look whether a sheet is done.
//!
//! No look ends early. Each value of the last column but 31 has rows that are any in two columns or three, so many
//! rows are left until three values are chosen. With value 31 there go stairs up to 31 31 31 31, the last choice of
//! all: that it is missing shows at the end alone, and where it isn't, nothing may be left out.

use conformance::{one_sheet, stairs, Book, ANY};

/// The highest value of each column.
const LAST: u8 = 31;

/// "rows n, 0 to 508"
const ROWS: usize = 508;

/// Names, whether all choices are allowed, and the books.
pub fn books() -> [(&'static str, bool, Book); 4] {
    let turned = |mut row: Vec<u8>| {
        row.reverse();
        row
    };
    // For those who begin with the last column.
    let pairs_of_the_first = pairs().into_iter().map(turned).collect();
    [
        ("done, pairs of the last", false, book(pairs(), false)),
        (
            "done, pairs of the first",
            false,
            book(pairs_of_the_first, false),
        ),
        ("done, every column", false, book(columns(), false)),
        ("done, repeats", true, book(repeats(), true)),
    ]
}

/// These rows, the last choice if all are allowed, and the first row again up to 508.
fn book(mut rows: Vec<Vec<u8>>, all: bool) -> Book {
    rows.extend(all.then_some(vec![LAST; 4]));
    assert!(rows.len() <= ROWS);
    rows.resize(ROWS, rows[0].clone());
    one_sheet(&[32; 4], rows)
}

/// Value 31 of the last column with every choice of the others but 31 31 31, in 93 rows.
fn of_the_last_value() -> Vec<Vec<u8>> {
    let mut rows = stairs(&[32; 3]);
    rows.iter_mut().for_each(|row| row.push(LAST));
    rows
}

/// Twelve values of the last column with each value of the one before it: 384 rows, no two of them alike, that
/// match any choice of the first two columns, so that all are looked at 1,024 times. The other values have a row each.
fn pairs() -> Vec<Vec<u8>> {
    let mut rows = of_the_last_value();
    for value in 0..LAST {
        if value < 12 {
            rows.extend((0..=LAST).map(|third| vec![ANY, ANY, third, value]));
        } else {
            rows.push(vec![ANY, ANY, ANY, value]);
        }
    }
    rows
}

/// Four values of the last column with each value of the first, four with each of the second, four with each of the
/// third: in every column each value has rows of its own, so that no two values can be taken for one.
fn columns() -> Vec<Vec<u8>> {
    let mut rows = of_the_last_value();
    for value in 0..LAST {
        match usize::from(value / 4) {
            column @ 0..3 => rows.extend((0..=LAST).map(|other| {
                let mut row = vec![ANY, ANY, ANY, value];
                row[column] = other;
                row
            })),
            _ => rows.push(vec![ANY, ANY, ANY, value]),
        }
    }
    rows
}

/// Every value of the last column but 31 thirteen times and more: each of the 32,768 choices of the first three columns
/// leaves more than 400 rows. A row stands for as many choices, so it is worst for tables of choices too.
fn repeats() -> Vec<Vec<u8>> {
    let mut rows = of_the_last_value();
    let values = (0..LAST).cycle().take(ROWS - 1 - rows.len());
    rows.extend(values.map(|value| vec![ANY, ANY, ANY, value]));
    rows
}

#[cfg(test)]
mod tests {
    use super::*;
    use conformance::{narrow, space_for, write};

    /// By the reference: done at the opening or not, as said, and done where value 31 of a column is gone.
    #[test]
    fn all_choices_or_all_but_one() {
        for (name, all, book) in books() {
            for column in 0..4 {
                let orders = narrow(column, u32::MAX >> 1);
                let mut answers = vec![0; space_for(&orders)];
                assert_eq!(reference::run(&write(&book), &orders, &mut answers), 1);
                assert_eq!([answers[4], answers[72 + 4]], [all.into(), 1], "{name}");
            }
        }
    }
}
