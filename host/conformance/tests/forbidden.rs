//! Forbidden sheets: every small one in every box, each beside the plain sheet that allows the same; and rows in every
//! place of the largest.
//!
//! `FITTING_TWINS` asks for more books with a twin than the usual number.

use conformance::{agreed_answers, back, every_mask, has_forbidden, last_four_forbidden, narrow};
use conformance::{one_forbidden, one_large_column, one_of_each, space_for, turned_over};
use conformance::{Book, Order, Seen, Sheet, Tally, Twins, FINISH, MARK};

const TWINS: Twins = Twins {
    of: "forbidden sheets",
    has: has_forbidden,
    twin,
    counted: ("forbidden sheets", forbidden),
};

/// The book with every sheet turned over that can be: forbidden ones become plain, and plain ones forbidden. None if a
/// forbidden one stays.
fn twin(book: &Book) -> Option<Book> {
    let over = |sheet: &Sheet| match turned_over(book, sheet) {
        None if sheet.forbidden => None,
        over => Some(over.unwrap_or_else(|| sheet.clone())),
    };
    let sheets = book.sheets.iter().map(over).collect::<Option<_>>()?;
    let counts = book.counts.clone();
    Some(Book { counts, sheets })
}

fn forbidden(book: &Book) -> usize {
    book.sheets.iter().filter(|sheet| sheet.forbidden).count()
}

/// Every combination of columns of so many values, rising.
fn combinations(counts: &[u8]) -> Vec<Vec<u8>> {
    let values = counts.iter().map(|&count| (0..count).collect());
    one_of_each(&values.collect::<Vec<_>>())
}

/// What the state of a book of one forbidden sheet over all columns must be within these domains, by trying every
/// combination: the domains, and whether the sheet is done.
fn tried(book: &Book, within: &[u32]) -> (Vec<u32>, bool) {
    let mut all = combinations(&book.counts);
    all.retain(|it| {
        it.iter()
            .zip(within)
            .all(|(v, domain)| domain >> v & 1 == 1)
    });
    let (rows, allowed): (Vec<_>, Vec<_>) = all
        .into_iter()
        .partition(|it| book.sheets[0].rows.contains(it));
    let mut domains = vec![0; within.len()];
    for combination in &allowed {
        for (domain, value) in domains.iter_mut().zip(combination) {
            *domain |= 1 << value;
        }
    }
    let lies = |row: &Vec<u8>| row.iter().zip(&domains).all(|(v, d)| d >> v & 1 == 1);
    (
        domains.clone(),
        !allowed.is_empty() && !rows.iter().any(lies),
    )
}

/// Every set of forbidden rows over 2 values, 2 by 2, and by 2 once more, in every box.
#[test]
fn every_set_of_forbidden_rows() {
    let mut tally = Tally::default();
    for width in 1..=3 {
        let counts = &[2; 3][..width];
        let (all, orders) = (combinations(counts), every_mask(width));
        for set in 0..1 << all.len() {
            let within = (0..all.len()).filter(|r| set >> r & 1 == 1);
            let book = one_forbidden(counts, within.map(|r| all[r].clone()).collect());
            // With three columns six orders belong together, and with fewer all fit into one list.
            for orders in orders.chunks(40 * 6) {
                let states = Seen::states(&agreed_answers(&book, orders));
                let mut masks = [3; 3];
                for (order, state) in orders.iter().zip(&states[1..]) {
                    match order[0] {
                        1 => masks[usize::from(order[1])] = order[4].into(),
                        3 => masks = [3; 3],
                        _ => {}
                    }
                    let (domains, done) = tried(&book, &masks[..width]);
                    assert_eq!(state.domains[..width], domains, "{book:?}, {masks:?}");
                    assert_eq!(state.done, done.into(), "{book:?}, {masks:?}");
                    let dead = domains[0] == 0;
                    tally.add("states", 1);
                    tally.add("dead", dead.into());
                    let struck = !dead && domains != masks[..width];
                    tally.add("with a value struck", struck.into());
                    tally.add("done", done.into());
                }
                let orders = orders.concat();
                TWINS.agree(&book, &orders, space_for(&orders), "small");
            }
        }
    }
    println!("{tally}");
    tally.assert_each_above(5_000);
}

/// Two columns of three values and every set of rows, at the opening and after each mask of the second.
#[test]
fn every_set_of_three_by_three() {
    let all = combinations(&[3, 3]);
    let masks: Vec<Order> = (1..8)
        .flat_map(|mask| [MARK, narrow(1, mask), FINISH, back(1)])
        .collect();
    for set in 0..1 << all.len() {
        let within = (0..all.len()).filter(|r| set >> r & 1 == 1);
        let book = one_forbidden(&[3, 3], within.map(|r| all[r].clone()).collect());
        for (order, state) in [FINISH]
            .iter()
            .chain(&masks)
            .zip(agreed_answers(&book, &masks))
        {
            if order[0] != 4 || state.outcome == 0 {
                let mask = if order[0] == 1 { order[4].into() } else { 7 };
                let (domains, done) = tried(&book, &[7, mask]);
                assert_eq!(state.domains[..2], domains, "{book:?}, {mask}");
                assert_eq!(state.done, done.into(), "{book:?}, {mask}");
            }
        }
    }
}

/// The largest forbidden sheets, 508 of 512 combinations, and each place of these: what is left there decides.
#[test]
fn every_row_of_a_sheet_counts() {
    let all = combinations(&[32, 16]);
    for gap in 0..512 {
        // Three gaps more, so that 508 rows are left, far from the first and from each other.
        let gaps = [gap, (gap + 133) % 512, (gap + 261) % 512, (gap + 389) % 512];
        let rows = (0..512).filter(|n| !gaps.contains(n));
        let book = one_forbidden(&[32, 16], rows.map(|n| all[n].clone()).collect());
        let [first, second] = [0, 1].map(|i| 1 << all[gap][i]);
        let orders = [MARK, narrow(0, first), back(1), narrow(1, second)];
        let shown = agreed_answers(&book, &orders);
        let left = |i: usize| gaps.iter().fold(0, |all_of, &n| all_of | 1 << all[n][i]);
        assert_eq!(
            shown[0].domains[..2],
            [left(0), left(1)],
            "without {gaps:?}"
        );
        assert_eq!(shown[2].domains[..2], [first, second], "without {gaps:?}");
        assert_eq!((shown[2].status, shown[2].done), (2, 1));
        assert_eq!(shown[0].done, 0);
    }
}

/// Sheets of each number of rows on both sides of a block's end and of a word of 64: the last row is the only one that
/// keeps the sheet from being done, and all of them together strike.
#[test]
fn every_number_of_rows() {
    for n in (1..=508).filter(|n| (n + 1) % 64 < 3 || (n + 1) % 127 < 3) {
        let row = |r: usize| vec![(r / 32) as u8, (r % 32) as u8];
        let book = one_forbidden(&[17, 32], (0..n).map(row).collect());
        let last = row(n - 1);
        let (value, other) = (1 << last[0], 1 << last[1]);
        let orders = [
            MARK,
            narrow(1, other),
            back(1),
            narrow(0, value | 1 << 16),
            narrow(1, other | 1 << 31),
        ];
        let shown = agreed_answers(&book, &orders);
        // With the last value of column 1 alone, every row of it goes with its value of column 0.
        let rows = (0..n).filter(|&r| row(r)[1] == last[1]);
        let struck = rows.fold(0_u32, |all, r| all | 1 << row(r)[0]);
        assert_eq!(shown[2].domains[0], 0x1_FFFF & !struck, "{n} rows");
        let whole = n % 32 == 0;
        assert_eq!(shown[0].domains[0], !0 << (n / 32) & 0x1_FFFF, "{n} rows");
        let left = if whole { 1 << 16 } else { value | 1 << 16 };
        assert_eq!(shown[4].domains[0], left, "{n} rows");
        assert_eq!(shown[4].done, whole.into(), "{n} rows");
    }
}

/// Whatever V is: with every row but one of a value it stays, and with all of them it goes.
#[test]
fn every_number_of_values() {
    for count in 1..=32 {
        let rows: Vec<Vec<u8>> = (0..count).map(|value| vec![0, value]).collect();
        let all = u32::MAX >> (32 - count);
        let shown = agreed_answers(&one_forbidden(&[2, count], rows.clone()), &[FINISH]);
        assert_eq!(shown[0].domains[..2], [2, all]);
        assert_eq!(
            (shown[0].done, shown[1].domains[..2].to_vec()),
            (1, vec![2, 1])
        );
        for without in 0..count {
            let mut rows = rows.clone();
            rows.remove(without.into());
            let book = one_forbidden(&[2, count], rows);
            let shown = agreed_answers(&book, &[narrow(0, 1), FINISH]);
            let expected = if count == 1 { 1 } else { 0 };
            assert_eq!(shown[0].domains[..2], [3, all]);
            assert_eq!(shown[0].done, expected);
            assert_eq!(shown[1].domains[..2], [1, 1 << without]);
        }
    }
}

/// One column of 32 values in each place beside columns of 3, and every row of one value of it: that value alone goes.
/// At its place alone the others have no more choices than there are rows, and from width 3 on no more than a word can have
/// rows: a look at either number is decided there.
#[test]
fn one_large_column_in_every_place() {
    for (place, book) in one_large_column() {
        let (counts, rows) = (&book.counts, book.sheets[0].rows.len());
        let width = counts.len();
        let choices = |i: usize| combinations(counts).len() / usize::from(counts[i]);
        let few = |most: usize| (0..width).filter(move |&i| choices(i) <= most);
        assert!(few(rows).eq([place]), "{counts:?}");
        assert!(width == 2 || few(64).eq([place]), "{counts:?}");
        let shown = agreed_answers(&book, &[]);
        let mut domains = vec![7; width];
        domains[place] = !(1 << 5);
        assert_eq!(shown[0].domains[..width], domains, "{counts:?}");
    }
}

/// Rows that are live among the last four of a word alone: the value that they forbid goes, at whatever place it is the
/// last.
#[test]
fn the_last_four_rows_of_a_word_are_counted() {
    for book in last_four_forbidden() {
        let last = book.counts.len() - 1;
        let orders = [MARK, narrow(0, 1 << 30), back(1), narrow(last as u8, 2)];
        let shown = agreed_answers(&book, &orders);
        assert_eq!(shown[2].domains[last], 0b101, "{:?}", book.counts);
        assert_eq!(shown[4].domains[0] >> 30, 0b10, "{:?}", book.counts);
    }
}

/// Four columns of 32 values: 1,048,576 combinations, and 508 rows.
#[test]
fn the_largest_combinations() {
    let row = |n: usize| vec![3, 30, (n / 32) as u8, (n % 32) as u8];
    let book = one_forbidden(&[32; 4], (0..508).map(row).collect());
    let orders = [
        narrow(0, 1 << 3),
        MARK,
        narrow(1, 1 << 30),
        narrow(2, 1),
        FINISH,
        back(1),
        narrow(2, 1 << 15),
        narrow(1, 1 << 30),
        MARK,
        narrow(2, 0x7FFF),
    ];
    let shown = agreed_answers(&book, &orders);
    assert_eq!(shown[1].domains[..4], [8, u32::MAX, u32::MAX, u32::MAX]);
    // Rows 0 to 31 take all of 32 by 32 that has 0 in column 2, and so on to 14; of 15 they leave four.
    assert_eq!(shown[3].domains[2], !0 << 15);
    assert_eq!(shown[4].status, 0);
    assert_eq!((shown[5].outcome, shown[5].tries), (2, 0));
    assert_eq!(shown[8].domains[..4], [8, 1 << 30, 1 << 15, 0xF << 28]);
    assert_eq!(shown[10].status, 0);
}

/// Every accepted book of the kit that has a forbidden sheet.
#[test]
fn twins_of_the_kit() {
    TWINS.of_the_kit();
}

/// Seeded books and lists with forbidden sheets, and the same with each of these a plain one; the plain ones are forbidden
/// then.
#[test]
fn every_twin_agrees() {
    TWINS.seeded(4_000);
}
