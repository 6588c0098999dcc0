//! Done sheets, by hand, and every small sheet by trying each choice.

use super::defined::choices_missing;
use super::{described, harbour};
use crate::answers;
use crate::choices::allows_every_choice;
use crate::finish::one_of_each;
use crate::{run, Sheet, ANY};

/// Whether a sheet of these rows, over as many columns, is done in these domains.
fn done(rows: &[&[u8]], domains: &[u32]) -> bool {
    let columns: Vec<u8> = (0..domains.len() as u8).collect();
    let book = described(&vec![32; domains.len()], &[(&columns, rows)]);
    allows_every_choice(&book.sheets[0], domains)
}

/// "A sheet that permits all four of 2 motors by 2 boards is over for the buyer too, though two columns
/// are open."
#[test]
fn two_motors_by_two_boards() {
    let all: [&[u8]; 4] = [&[0, 0], &[0, 1], &[1, 0], &[1, 1]];
    assert!(done(&all, &[3, 3]));
    for without in 0..4 {
        let mut rows = all.to_vec();
        rows.remove(without);
        assert!(!done(&rows, &[3, 3]));
        // A row that stands there twice allows no more.
        rows.push(rows[0]);
        assert!(!done(&rows, &[3, 3]));
        let [motor, board] = [0, 1].map(|i| 1 << all[without][i]);
        assert!(done(&rows, &[3 & !motor, 3]) && done(&rows, &[3, 3 & !board]));
        assert!(!done(&rows, &[motor, 3]) && !done(&rows, &[3, board]));
    }
}

/// Several rows together, each with any in another place; and one alone.
#[test]
fn short_rows_together() {
    assert!(done(&[&[ANY, ANY]], &[6, 1 << 31]));
    assert!(done(&[&[0, ANY], &[1, ANY]], &[3, 7]));
    assert!(!done(&[&[0, ANY], &[1, ANY]], &[7, 7]));
    let around: [&[u8]; 5] = [
        &[0, 1, ANY],
        &[ANY, 0, 1],
        &[1, ANY, 0],
        &[0, 0, 0],
        &[1, 1, 1],
    ];
    assert!(done(&around, &[3, 3, 3]));
    for without in 0..5 {
        let mut rows = around.to_vec();
        rows.remove(without);
        assert!(!done(&rows, &[3, 3, 3]));
    }
}

/// "H keeps its done bytes": the run of document 01 shows 0 0 3 3 0 0 3.
#[test]
fn harbour_keeps_its_done_bytes() {
    let orders: [[u8; 8]; 6] = [
        [2, 0, 0, 0, 0, 0, 0, 0],
        [1, 2, 0, 0, 1, 0, 0, 0],
        [4, 0, 0, 0, 0, 0, 0, 0],
        [3, 1, 0, 0, 0, 0, 0, 0],
        [3, 1, 0, 0, 0, 0, 0, 0],
        [1, 0, 0, 0, 4, 0, 0, 0],
    ];
    let mut answers = [0; 7 * 72];
    assert_eq!(run(&harbour(), &orders.concat(), &mut answers), 5);
    let shown = answers.chunks(72).map(|answer| answer[4]);
    assert!(shown.eq([0, 0, 3, 3, 0, 0, 3]));
}

/// No sheet is done in a dead session, also not one that allows all.
#[test]
fn dead_sessions() {
    let all: &[&[u8]] = &[&[ANY, ANY]];
    let book = described(&[2, 2], &[(&[0, 1], all), (&[0], &[])]);
    assert_eq!(answers::done(&book, &[3, 3]), 1);
    assert_eq!(answers::done(&book, &[0, 0]), 0);
}

/// A sheet of these rows is done in each of these boxes exactly when no choice is missing.
fn as_by_trying(rows: Vec<Vec<u8>>, boxes: &[Vec<u32>]) {
    let columns = (0..boxes[0].len() as u8).collect();
    let sheet = Sheet {
        forbidden: false,
        columns,
        rows,
    };
    for domains in boxes {
        let missing = choices_missing(&sheet, domains);
        let done = allows_every_choice(&sheet, domains);
        assert_eq!(done, missing == 0, "{sheet:?} in {domains:?}");
    }
}

/// Every set of rows over 2 values by 2, and by 2 once more.
#[test]
fn every_set_of_plain_rows() {
    for width in [2, 3] {
        let all = one_of_each(&vec![vec![0, 1]; width]);
        let boxes = one_of_each(&vec![vec![1, 2, 3]; width]);
        for set in 0..1 << all.len() {
            let within = (0..all.len()).filter(|r| set >> r & 1 == 1);
            as_by_trying(within.map(|r| all[r].clone()).collect(), &boxes);
        }
    }
}

/// Every list of up to four rows of two cells, each 0, 1 or any; repeats and every order among them.
#[test]
fn every_list_of_short_rows() {
    let all = one_of_each(&[vec![0, 1, ANY], vec![0, 1, ANY]]);
    let boxes = one_of_each(&[vec![1, 2, 3, 7], vec![1, 2, 3, 7]]);
    for count in 0..=4 {
        for list in one_of_each(&vec![(0..all.len()).collect(); count]) {
            let rows = list.into_iter().map(|r| all[r].clone());
            as_by_trying(rows.collect(), &boxes);
        }
    }
}

/// Four columns of 32 values, and up to 508 rows: it ends soon, with all 1,048,576 choices and without one.
#[test]
fn the_largest_sheets() {
    let full = [u32::MAX; 4];
    // Every value of the last column about sixteen times, with any before it.
    let mut rows: Vec<[u8; 4]> = (0..508).map(|r| [ANY, ANY, ANY, (r % 32) as u8]).collect();
    let done_by =
        |rows: &[[u8; 4]]| done(&rows.iter().map(|row| &row[..]).collect::<Vec<_>>(), &full);
    assert!(done_by(&rows));
    rows.retain(|row| row[3] != 31);
    assert!(!done_by(&rows));
    // The values below 31 of each column in turn, with 31 before them and any after.
    let mut rows = Vec::new();
    for column in 0..4 {
        for value in 0..31 {
            let mut row = [ANY; 4];
            row[..column].fill(31);
            row[column] = value;
            rows.push(row);
        }
    }
    assert!(!done_by(&rows));
    rows.push([31; 4]);
    assert!(done_by(&rows));
}
