//! Done sheets: every small sheet, by trying each choice of its columns; and the largest.

use conformance::{agreed_answers, back, every_mask, narrow, one_of_each, one_sheet, stairs};
use conformance::{Book, Order, Seen, ANY, MARK};

/// "Done now holds exactly when the session isn't dead and every choice of one value from the current
/// domain of each column of the sheet is allowed by it", by trying each choice. The sheet has all columns.
fn is_done(book: &Book, state: &Seen) -> bool {
    let domains = &state.domains[..book.counts.len()];
    let values = |&domain: &u32| (0..32).filter(|value| domain >> value & 1 == 1).collect();
    let choices = one_of_each(&domains.iter().map(values).collect::<Vec<_>>());
    let matches = |(&cell, &value): (&u8, &u8)| cell == ANY || cell == value;
    let allowed = |choice: &Vec<u8>| {
        let mut rows = book.sheets[0].rows.iter();
        rows.any(|row| row.iter().zip(choice).all(matches))
    };
    !state.is_dead() && choices.iter().all(allowed)
}

/// How many answers were tried, and how many of them are done with two columns open or more.
#[derive(Default)]
struct Tried {
    answers: usize,
    done: usize,
}

impl Tried {
    /// The done byte of each answer is right.
    fn book(&mut self, book: &Book, orders: &[Order]) {
        // A list has up to 256 orders. With three columns six belong together, and with two all fit into one list.
        for orders in orders.chunks(40 * 6) {
            for state in Seen::states(&agreed_answers(book, orders)) {
                let done = is_done(book, &state);
                assert_eq!(state.done, done.into(), "{book:?}: {state:?}");
                let open = state.domains.iter().filter(|it| it.count_ones() > 1);
                self.answers += 1;
                self.done += usize::from(done && open.count() > 1);
            }
        }
    }

    fn show(&self) {
        let Self { answers, done } = self;
        println!("{answers} answers, {done} with the sheet done and two columns open or more");
    }
}

/// Every set of rows over 2 values by 2, and by 2 once more, in every box.
#[test]
fn every_set_of_plain_rows() {
    let mut tried = Tried::default();
    for width in [2, 3] {
        let (all, orders) = (one_of_each(&vec![vec![0, 1]; width]), every_mask(width));
        for set in 0..1 << all.len() {
            let within = (0..all.len()).filter(|r| set >> r & 1 == 1);
            let rows = within.map(|r| all[r].clone()).collect();
            tried.book(&one_sheet(&vec![2; width], rows), &orders);
        }
    }
    tried.show();
    assert!(tried.done > 2_000);
}

/// Every list of up to three rows of two cells, each 0, 1 or any, and of four those that never fall, in every box.
#[test]
fn every_list_of_short_rows() {
    let mut tried = Tried::default();
    let (all, orders) = (one_of_each(&vec![vec![0, 1, ANY]; 2]), every_mask(2));
    for count in 0..=4 {
        for list in one_of_each(&vec![(0..9).collect(); count]) {
            if count < 4 || list.is_sorted() {
                let rows = list.iter().map(|&r| all[usize::from(r)].clone());
                tried.book(&one_sheet(&[2, 2], rows.collect()), &orders);
            }
        }
    }
    tried.show();
    assert!(tried.done > 10_000);
}

/// All choices but one, for every one of them: not done, and done as soon as any value of it goes.
#[test]
fn every_choice_alone_missing() {
    for counts in [&[2, 3][..], &[3, 4], &[2, 3, 2], &[2, 2, 3, 2]] {
        let values = counts.iter().map(|&count| (0..count).collect());
        let all = one_of_each(&values.collect::<Vec<_>>());
        assert_eq!(
            agreed_answers(&one_sheet(counts, all.clone()), &[])[0].done,
            1
        );
        for missing in 0..all.len() {
            let mut rows = all.clone();
            let choice = rows.remove(missing);
            // As many rows as choices, and still one is missing.
            rows.push(rows[0].clone());
            let book = one_sheet(counts, rows);
            for (column, &count) in (0..).zip(counts) {
                let value = 1 << choice[usize::from(column)];
                let others = ((1 << count) - 1) & !value;
                let orders = [MARK, narrow(column, others), back(1), narrow(column, value)];
                let shown = agreed_answers(&book, &orders);
                let done: Vec<bool> = shown.iter().map(|it| it.done == 1).collect();
                // Of two columns one is left open, and what it has lost is not there to be chosen.
                let last = counts.len() == 2;
                assert_eq!(done, [false, false, true, false, last], "{book:?}");
            }
        }
    }
}

/// Every place of a sheet of 508 rows: there stands the only row of the last choice. The other choices stand
/// there twice, but for two that are in rows 253 and 254 alone.
#[test]
fn every_row_of_a_sheet_counts() {
    let choice = |n: usize| vec![(n / 16) as u8, (n % 16) as u8];
    let all_but_last: Vec<_> = (0..508).map(|n| choice(n % 255)).collect();
    let done = |rows| agreed_answers(&one_sheet(&[16, 16], rows), &[])[0].done == 1;
    assert!(!done(all_but_last.clone()));
    for r in 0..508 {
        let mut rows = all_but_last.clone();
        rows[r] = choice(255);
        assert_eq!(done(rows), r != 253 && r != 254, "row {r}");
    }
}

/// Four columns of 32 values and 508 rows: all of 1,048,576 choices but the last, and all of them, by a row for that one
/// and by one that is any in every place.
#[test]
fn the_largest_sheet() {
    let mut rows = stairs(&[32; 4]);
    while rows.len() < 508 {
        let value = (rows.len() % 31) as u8;
        rows.push(vec![31, value, ANY, value]);
    }
    let orders = [MARK, narrow(3, u32::MAX >> 1), back(1), narrow(0, 1 << 31)];
    let done = |rows: &[Vec<u8>]| {
        let shown = agreed_answers(&one_sheet(&[32; 4], rows.to_vec()), &orders);
        shown.iter().map(|it| it.done).collect::<Vec<_>>()
    };
    assert_eq!(done(&rows), [0, 0, 1, 0, 0]);
    rows[507] = vec![31; 4];
    assert_eq!(done(&rows), [1; 5]);
    rows[507] = vec![ANY; 4];
    assert_eq!(done(&rows), [1; 5]);
}
