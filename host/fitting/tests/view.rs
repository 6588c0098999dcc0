//! The view of an accepted book. That it shows what the bytes say is compared by
//! `conformance/tests/seeded.rs`, on seeded books.

use conformance::{changed, harbour, regular, write};
use fitting::{check, Cell, Values};
use std::collections::HashSet;

#[test]
fn what_is_not_there_is_not_found() {
    let bytes = write(&harbour());
    let book = check(&bytes).unwrap();
    for column in [3, 15, 16, 128, 255] {
        assert!(book.values(column).is_empty());
    }
    for number in [2, 7, 8, usize::MAX] {
        assert!(book.sheet(number).is_none());
    }
    // A sheet and its rows live as long as the bytes: the view may be gone.
    let sheet = check(&bytes).unwrap().sheet(1).unwrap();
    for number in [3, 126, 127, usize::MAX] {
        assert_eq!(sheet.row(number), None);
    }
}

#[test]
fn sheets_and_rows_run_both_ways() {
    let bytes = write(&regular(16, 32, 8, 508, 3));
    let book = check(&bytes).unwrap();
    assert_eq!(book.sheets().len(), 8);
    assert_eq!(book.sheets().next_back(), book.sheet(7));
    let last = book.sheet(7).unwrap();
    assert_eq!(last.rows().len(), 508);
    let backwards = last.rows().rev().map(Some);
    assert!(backwards.eq((0..508).rev().map(|number| last.row(number))));
}

/// A short row is shown as it stands in the bytes; its cells say which values it stands for.
#[test]
fn short_rows() {
    let mut short = harbour();
    short.sheets[1].rows = vec![vec![0, 255], vec![1, 1]];
    let bytes = write(&short);
    let book = check(&bytes).unwrap();
    let sheet = book.sheet(1).unwrap();
    assert_eq!(sheet.row(0), Some(&[0, 255][..]));
    let cells = sheet.rows().flatten().map(|&byte| Cell::from(byte));
    let [zero, one] = [0, 1].map(Cell::Value);
    assert!(cells.eq([zero, Cell::Any, one, one]));
    // Written out, they are the harbour book's; the sheets are not equal for that.
    let written_out = sheet.rows().flat_map(|row| {
        let values = |i: usize| Cell::from(row[i]).matched(book.values(sheet.columns()[i]));
        let boards = values(1);
        let motors = values(0).into_iter();
        motors.flat_map(move |motor| boards.iter().map(move |board| [motor, board]))
    });
    let whole = write(&harbour());
    let plain = check(&whole).unwrap().sheet(1).unwrap();
    assert!(written_out.eq(plain.rows().map(|row| [row[0], row[1]])));
    assert_ne!(sheet, plain);
}

/// A forbidden sheet has its columns and its rows like any other; only what they mean is different.
#[test]
fn forbidden_sheets() {
    let plain = write(&harbour());
    let plain = check(&plain).unwrap();
    assert!(plain.sheets().all(|sheet| !sheet.forbids()));
    let bytes = changed(&harbour(), &[(24, 130)]);
    let [sheet, other] = [0, 1].map(|number| check(&bytes).unwrap().sheet(number).unwrap());
    assert!(sheet.forbids() && !other.forbids());
    let [same, same_other] = [0, 1].map(|number| plain.sheet(number).unwrap());
    assert_eq!(sheet.columns(), same.columns());
    assert!(sheet.rows().eq(same.rows()));
    assert_ne!(sheet, same);
    assert_eq!(other, same_other);
    assert_eq!(HashSet::from([sheet, same, other, same_other]).len(), 3);
    let shown = "Sheet { columns: [0, 1], forbids: true, rows: 4 }";
    assert_eq!(format!("{sheet:?}"), shown);
}

#[test]
fn what_a_cell_matches() {
    let some = Values::of([0, 31]).unwrap();
    for byte in 0..=255 {
        let cell = Cell::from(byte);
        assert_eq!(cell == Cell::Any, byte == 255);
        assert_eq!(cell.matched(Values::NONE), Values::NONE);
        let matched = match byte {
            0 | 31 => Values::of([byte]).unwrap(),
            255 => some,
            _ => Values::NONE,
        };
        assert_eq!(cell.matched(some), matched, "{byte}");
    }
}

#[test]
fn sheets_are_equal_by_columns_and_rows() {
    let bytes = write(&harbour());
    let sheets: Vec<_> = check(&bytes).unwrap().sheets().collect();
    // The same sheet once more, where other blocks come after it and other checks stand in it.
    let mut doubled = harbour();
    doubled.sheets.insert(0, doubled.sheets[1].clone());
    let bytes = write(&doubled);
    let again: Vec<_> = check(&bytes).unwrap().sheets().collect();
    assert_eq!(again, [sheets[1], sheets[0], sheets[1]]);
    assert_ne!(sheets[0], sheets[1]);
    assert_eq!(HashSet::from([again[0], sheets[1], sheets[0]]).len(), 2);
    doubled.sheets[0].rows.pop();
    let bytes = write(&doubled);
    assert_ne!(check(&bytes).unwrap().sheet(0).unwrap(), sheets[1]);
}

#[test]
fn a_book_shows_itself_briefly() {
    let bytes = write(&harbour());
    let shown = format!("{:?}", check(&bytes).unwrap());
    let sheet =
        |columns, rows| format!("Sheet {{ columns: {columns}, forbids: false, rows: {rows} }}");
    let sheets = format!("[{}, {}]", sheet("[0, 1]", 4), sheet("[1, 2]", 3));
    let book = format!("Book {{ values: [3, 2, 2], sheets: {sheets} }}");
    assert_eq!(shown, book);
}
