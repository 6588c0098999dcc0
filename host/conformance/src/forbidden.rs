//! Forbidden sheets: what they do in a run, and how often.

use crate::{Book, Order, Seen, Sheet, Tally, ROWS_OF_A_BLOCK};
use reference::{closure, is_short, lies_in, search, Kind, Outcome, MOST_TRIES};

/// What is counted of a book, in words.
const BOOKS: [&str; 9] = [
    "of width 1",
    "of width 2",
    "of width 3",
    "of width 4",
    "and plain ones",
    "and short rows in a plain one",
    "without rows",
    "that forbid everything",
    "of several blocks",
];

/// What is counted of an accepted narrow.
const NARROWS: [&str; 4] = [
    "one of them strikes a value",
    "one of them strikes a value, though no row of it was cut",
    "one of them strikes a value, and rows of its own with it",
    "it is dead, and without them it isn't",
];

/// What is counted of an answer.
const ANSWERS: [&str; 5] = [
    "one of them done, two columns open or more, of rows that aren't live",
    "one of them done, two columns open or more, without rows",
    "one of them not done, one row live",
    "one of them not done, several rows live",
    "one of them not done, and dead, without rows",
];

/// What is counted of an accepted finish.
const FINISHES: [&str; 4] = [
    "found after tries",
    "another set than without them",
    "none, where without them there is a set",
    "stopped",
];

/// In larger books only the books are counted: the others take long.
const MOST_ROWS: usize = 1_000;

fn book_words(words: &str) -> String {
    format!("forbidden sheets: runs over a book with some {words}")
}

fn narrow_words(words: &str) -> String {
    format!("forbidden sheets: narrows after which {words}")
}

fn answer_words(words: &str) -> String {
    format!("forbidden sheets: answers with {words}")
}

fn finish_words(words: &str) -> String {
    format!("forbidden sheets: finishes, {words}")
}

/// Looks for all of them.
pub fn look_for_forbidden(tally: &mut Tally) {
    let books = BOOKS.map(book_words).into_iter();
    let narrows = NARROWS.map(narrow_words);
    let answers = ANSWERS.map(answer_words);
    let finishes = FINISHES.map(finish_words);
    let all = books.chain(narrows).chain(answers).chain(finishes);
    all.for_each(|words| tally.add(&words, 0));
}

/// Whether a book has a forbidden sheet.
pub fn has_forbidden(book: &Book) -> bool {
    book.sheets.iter().any(|sheet| sheet.forbidden)
}

/// Counts what forbidden sheets do in one run, by its orders and its answers, the opening first.
pub fn count_forbidden(tally: &mut Tally, book: &Book, orders: &[Order], answers: &[Seen]) {
    if !has_forbidden(book) {
        return;
    }
    for (words, holds) in BOOKS.iter().zip(sorts_of_book(book)) {
        tally.add(&book_words(words), holds.into());
    }
    if book
        .sheets
        .iter()
        .map(|sheet| sheet.rows.len())
        .sum::<usize>()
        > MOST_ROWS
    {
        return;
    }
    let mut others = book.clone();
    others.sheets.retain(|sheet| !sheet.forbidden);
    let states = Seen::states(answers);
    for (i, state) in states.iter().enumerate() {
        for (words, holds) in ANSWERS.iter().zip(sorts_of_answer(book, state)) {
            tally.add(&answer_words(words), holds.into());
        }
        let Some(before) = i.checked_sub(1).map(|i| &states[i]) else {
            continue;
        };
        let order = &orders[i - 1];
        if Kind::of(order) == Kind::Narrow && answers[i].refusal == 0 && !before.is_dead() {
            let mut sorts = sorts_of_narrow(book, order, before);
            sorts[3] = state.is_dead() && !dies(&others, order, before);
            for (words, holds) in NARROWS.iter().zip(sorts) {
                tally.add(&narrow_words(words), holds.into());
            }
        }
        if answers[i].outcome != 0 && !before.is_dead() {
            let sorts = sorts_of_finish(&others, &answers[i], before);
            for (words, holds) in FINISHES.iter().zip(sorts) {
                tally.add(&finish_words(words), holds.into());
            }
        }
    }
}

fn sorts_of_book(book: &Book) -> [bool; BOOKS.len()] {
    let some = |such: &dyn Fn(&Sheet) -> bool| {
        let mut sheets = book.sheets.iter().filter(|sheet| sheet.forbidden);
        sheets.any(such)
    };
    let plain = |such: fn(&Sheet) -> bool| {
        let mut sheets = book.sheets.iter().filter(|sheet| !sheet.forbidden);
        sheets.any(such)
    };
    let [one, two, three, four] = [1, 2, 3, 4].map(|k| some(&|it| it.columns.len() == k));
    [
        one,
        two,
        three,
        four,
        plain(|_| true),
        plain(|it| it.rows.iter().any(|row| is_short(row))),
        some(&|it| it.rows.is_empty()),
        some(&|it| it.rows.len() == choices(it, |column| book.counts[column].into())),
        some(&|it| it.rows.len() > ROWS_OF_A_BLOCK),
    ]
}

fn sorts_of_answer(book: &Book, state: &Seen) -> [bool; ANSWERS.len()] {
    let mut sorts = [false; ANSWERS.len()];
    for sheet in book.sheets.iter().filter(|sheet| sheet.forbidden) {
        let columns = sheet.columns.iter();
        let open = columns.filter(|&&c| state.domains[usize::from(c)].count_ones() > 1);
        let open = open.count() > 1;
        let (dead, none) = (state.is_dead(), sheet.rows.is_empty());
        let live = live(sheet, &state.domains);
        for (sort, holds) in sorts.iter_mut().zip([
            !dead && open && live == 0 && !none,
            !dead && open && none,
            !dead && live == 1,
            !dead && live > 1,
            dead && none,
        ]) {
            *sort |= holds;
        }
    }
    sorts
}

/// The domains before a narrow, met with its mask.
fn narrowed(book: &Book, order: &Order, before: &Seen) -> Vec<u32> {
    let mut start = before.domains[..book.counts.len()].to_vec();
    let mask = u32::from_le_bytes([order[4], order[5], order[6], order[7]]);
    start[usize::from(order[1])] &= mask;
    start
}

fn dies(book: &Book, order: &Order, before: &Seen) -> bool {
    closure(book, &narrowed(book, order, before))[0] == 0
}

/// All but the last sort, which isn't of one sheet. One alone leaves something of each value that is left.
fn sorts_of_narrow(book: &Book, order: &Order, before: &Seen) -> [bool; NARROWS.len()] {
    let mut sorts = [false; NARROWS.len()];
    let start = narrowed(book, order, before);
    if start.contains(&0) {
        return sorts;
    }
    for sheet in book.sheets.iter().filter(|sheet| sheet.forbidden) {
        let alone = Book {
            counts: book.counts.clone(),
            sheets: vec![sheet.clone()],
        };
        let settled = closure(&alone, &start);
        let [was, cut, left] = [&before.domains[..], &start, &settled].map(|it| live(sheet, it));
        let strikes = settled != start;
        let sheet_sorts = [strikes, strikes && was == cut, strikes && left < cut];
        for (sort, holds) in sorts.iter_mut().zip(sheet_sorts) {
            *sort |= holds;
        }
    }
    sorts
}

fn sorts_of_finish(others: &Book, answer: &Seen, before: &Seen) -> [bool; FINISHES.len()] {
    let domains = &before.domains[..others.counts.len()];
    let found = || search(others, domains, MOST_TRIES).map(|(outcome, _)| outcome);
    let set = |set: &[u8]| set.iter().zip(answer.domains).all(|(v, it)| 1 << v == it);
    let same = || matches!(found(), Some(Outcome::Found(it)) if set(&it));
    [
        answer.outcome == 1 && answer.tries > 0,
        answer.outcome == 1 && !same(),
        answer.outcome == 2 && matches!(found(), Some(Outcome::Found(_))),
        answer.outcome == 3,
    ]
}

/// How many rows of a sheet lie in these domains.
fn live(sheet: &Sheet, domains: &[u32]) -> usize {
    let rows = sheet.rows.iter();
    rows.filter(|row| lies_in(sheet, row, domains)).count()
}

/// How many combinations the columns of a sheet have, each of so many values.
fn choices(sheet: &Sheet, values: impl Fn(usize) -> usize) -> usize {
    let columns = sheet.columns.iter();
    columns.map(|&column| values(column.into())).product()
}
