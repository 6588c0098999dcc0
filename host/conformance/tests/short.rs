//! Short rows, those with any in some column: what a run makes of each, and that it is what it makes of the
//! same rows written out.
//!
//! `FITTING_TWINS` asks for more books with a written-out twin than the usual number.

use conformance::kit::read_contents;
use conformance::{agreed_run, has_short_rows, narrow, one_sheet, space_for, twin, write};
use conformance::{Book, Order, Seen, Twins, ANY, FINISH};

const TWINS: Twins = Twins {
    of: "short rows",
    has: has_short_rows,
    twin: without_short_rows,
    counted: ("rows", rows),
};

fn without_short_rows(book: &Book) -> Option<Book> {
    let plain = twin(book)?;
    assert!(!has_short_rows(&plain), "{book:?}");
    Some(plain)
}

fn rows(book: &Book) -> usize {
    book.sheets.iter().map(|sheet| sheet.rows.len()).sum()
}

/// The last domains after these orders.
fn after(book: &Book, orders: &[Order]) -> Vec<u32> {
    let orders = orders.concat();
    let (_, space) = agreed_run(&write(book), &orders, space_for(&orders));
    let seen = Seen::read(space.last_chunk().expect("an answer"));
    seen.domains[..book.counts.len()].to_vec()
}

/// Any in each set of places, for each width, beside a plain row: after every narrow of every column to
/// every mask, and with a finish.
#[test]
fn any_in_every_set_of_places() {
    for width in 1..=4 {
        for places in 0_u8..1 << width {
            let cell = |i: usize| {
                if places >> i & 1 == 1 {
                    ANY
                } else {
                    i as u8 % 3
                }
            };
            let row = (0..width).map(cell).collect();
            let book = one_sheet(&vec![3; width], vec![row, vec![2; width]]);
            for column in 0..width as u8 {
                for mask in 0..8 {
                    let orders = [narrow(column, mask), FINISH].concat();
                    let told = format!("{book:?}, narrow {column} {mask}");
                    TWINS.agree(&book, &orders, space_for(&orders), &told);
                }
            }
        }
    }
}

/// A short row in each place of a sheet of 508, among rows 0 0: every bit of every word, and both sides of
/// each block. It alone carries value 1 of column 0, and then every value of column 1.
#[test]
fn a_short_row_in_every_place() {
    for r in 0..508 {
        let mut rows = vec![vec![0, 0]; 508];
        rows[r] = vec![1, ANY];
        let book = one_sheet(&[2, 32], rows);
        assert_eq!(after(&book, &[]), [3, u32::MAX], "row {r}");
        assert_eq!(after(&book, &[narrow(0, 2)]), [2, u32::MAX], "row {r}");
        let lost = [narrow(1, !1 << 7), narrow(0, 3)];
        assert_eq!(after(&book, &lost), [2, !1 << 7], "row {r}");
        assert_eq!(after(&book, &[narrow(0, 1)]), [1, 1], "row {r}");
        assert_eq!(after(&book, &[narrow(1, 0)]), [0, 0], "row {r}");
    }
}

/// Whatever V is, any carries the values below it and no other.
#[test]
fn any_of_every_number_of_values() {
    for values in 1..=32 {
        let all = u32::MAX >> (32 - values);
        let book = one_sheet(&[values as u8, 2], vec![vec![ANY, 1]]);
        assert_eq!(after(&book, &[]), [all, 2]);
        for bit in 0..values {
            assert_eq!(after(&book, &[narrow(0, 1 << bit)]), [1 << bit, 2]);
            let left = all & !(1 << bit);
            let lowest = left & left.wrapping_neg();
            assert_eq!(after(&book, &[narrow(0, left), FINISH])[0], lowest);
        }
    }
}

/// 508 rows written out are within the limits, and 509 are not.
#[test]
fn the_largest_twin() {
    for (plain, within) in [(508 - 16 * 31, true), (509 - 16 * 31, false)] {
        let mut rows = vec![vec![0, 0]; plain];
        rows.push(vec![ANY, ANY]);
        let book = one_sheet(&[16, 31], rows);
        assert_eq!(twin(&book).is_some(), within);
        if within {
            let orders = [narrow(0, 0x00FF), narrow(1, 0x7000), FINISH].concat();
            TWINS.agree(&book, &orders, space_for(&orders), "508 rows");
        } else {
            assert_eq!(after(&book, &[]), [0xFFFF, u32::MAX >> 1]);
        }
    }
    // A row of four columns of 32 values would be 1,048,576 rows.
    let book = one_sheet(&[32; 4], vec![vec![ANY; 4]; 508]);
    assert!(twin(&book).is_none());
    assert_eq!(
        after(&book, &[narrow(3, 5)]),
        [u32::MAX, u32::MAX, u32::MAX, 5]
    );
}

/// "Any board" for the harbour book's motor 0: two rows in the place of three, and the paper's lines.
#[test]
fn any_board() {
    let short = "values 3 2 2\nsheet 0 1\nrow 0 0\nrow 1 0\nrow 1 1\nrow 2 1\nsheet 1 2\nrow 0 255\nrow 1 1";
    let book = read_contents(short);
    assert_eq!(twin(&book), Some(conformance::harbour()));
    let orders = conformance::example_orders().concat();
    TWINS.agree(&book, &orders, space_for(&orders), "any board");
}

/// Every accepted book of the kit that has a twin.
#[test]
fn twins_of_the_kit() {
    TWINS.of_the_kit();
}

/// "What a buyer sees of an accepted book must equal a book with such rows written out, where that book is
/// within the limits." Seeded books and lists, finishes among them.
#[test]
fn every_twin_agrees() {
    TWINS.seeded(10_000);
}
