//! Done sheets with several open columns, and sheets that are nearly done: how often a run has them.

use crate::{Order, Seen, Tally};
use reference::{all_values, is_short, lies_in, Book, Kind, Sheet, ANY};

/// What is counted of a sheet in an answer, in words.
const WORDS: [&str; 10] = [
    "done, two columns open or more",
    "done, three columns open or more",
    "done, two columns open or more, by no row alone",
    "done, two columns open or more, with a live short row",
    "done, two columns open or more, by short rows and plain ones together",
    "done, two columns open or more, with a live row that repeats",
    "not done, one choice short",
    "not done, one choice short, with a live short row",
    "not done, one choice short, with a live row that repeats",
    "not done, as many live rows as choices, or more",
];

/// What is counted of a sheet between two answers, and of dead sessions.
const BETWEEN: [&str; 4] = [
    "done at the opening, two columns open or more",
    "done after a narrow, two columns open or more",
    "no longer done after a back, two columns open or more before",
    "not done, in a dead session, though it allows all",
];

/// Looks for all of them.
pub fn look_for_done(tally: &mut Tally) {
    for words in WORDS.iter().chain(&BETWEEN) {
        tally.add(&counted(words), 0);
    }
}

fn counted(words: &str) -> String {
    format!("answers with a sheet {words}")
}

/// Counts the answers of one run, the opening first, that have a sheet of each sort.
pub fn count_done(tally: &mut Tally, book: &Book, orders: &[Order], answers: &[Seen]) {
    let all = has_sheet_that_allows_all(book);
    let states = Seen::states(answers);
    let mut sorts = [false; WORDS.len()];
    for (i, after) in states.iter().enumerate() {
        let before = i.checked_sub(1).map(|i| (Kind::of(&orders[i]), &states[i]));
        // The same domains have the same sorts.
        if before.is_none_or(|(_, before)| before.domains != after.domains) {
            sorts = sorts_of(book, after);
        }
        let [opened, became, ended] = between(book, before, after);
        let between = [opened, became, ended, all && after.is_dead()];
        let words = WORDS.iter().chain(&BETWEEN);
        for (words, holds) in words.zip(sorts.into_iter().chain(between)) {
            tally.add(&counted(words), holds.into());
        }
    }
}

/// Whether a sheet of each sort is there.
fn sorts_of(book: &Book, seen: &Seen) -> [bool; WORDS.len()] {
    let mut sorts = [false; WORDS.len()];
    if seen.is_dead() {
        return sorts;
    }
    for (s, sheet) in book.sheets.iter().enumerate() {
        let open = open_columns(sheet, seen);
        // Forbidden sheets are counted by themselves.
        if open < 2 || sheet.forbidden {
            continue;
        }
        let rows = sheet.rows.iter();
        let live: Vec<&[u8]> = rows
            .filter(|row| lies_in(sheet, row, &seen.domains))
            .map(|row| &row[..])
            .collect();
        let held = held(sheet, &seen.domains);
        let short = live.iter().any(|row| is_short(row));
        let done = seen.done >> s & 1 == 1;
        let one_short = !done && missing(&live, &held) == 1;
        let twice = |r: usize| live[..r].contains(&live[r]);
        let repeats = (done || one_short) && (1..live.len()).any(twice);
        let alone = done && live.iter().any(|row| missing(&[row], &held) == 0);
        let not_by = |short: bool| {
            let part = live.iter().filter(|row| is_short(row) == short);
            missing(&part.copied().collect::<Vec<_>>(), &held) > 0
        };
        for (sort, holds) in sorts.iter_mut().zip([
            done,
            done && open > 2,
            done && !alone,
            done && short,
            done && short && not_by(true) && not_by(false),
            done && repeats,
            one_short,
            one_short && short,
            one_short && repeats,
            !done && live.len() >= choices(&held),
        ]) {
            *sort |= holds;
        }
    }
    sorts
}

/// Whether a sheet with two columns open or more is done at the opening, has become so by a narrow, and was so before
/// a back and is no longer. `before` is the order's kind and the state before it; the opening has neither.
fn between(book: &Book, before: Option<(Kind, &Seen)>, after: &Seen) -> [bool; 3] {
    let done = |seen: &Seen, s: usize| seen.done >> s & 1 == 1;
    let done_open = |seen: &Seen, s| done(seen, s) && open_columns(&book.sheets[s], seen) > 1;
    let such = |s: usize| match before {
        None => done_open(after, s),
        Some((Kind::Narrow, before)) => !done(before, s) && done_open(after, s),
        Some((Kind::Back, before)) => done_open(before, s) && !done(after, s) && !after.is_dead(),
        Some(_) => false,
    };
    let has_such = (0..book.sheets.len()).any(such);
    let kind = before.map(|(kind, _)| kind);
    [None, Some(Kind::Narrow), Some(Kind::Back)].map(|it| has_such && kind == it)
}

/// Whether a sheet allows every choice of all values of its columns.
fn has_sheet_that_allows_all(book: &Book) -> bool {
    let counts = book.counts.iter();
    let values: Vec<u32> = counts.map(|&count| all_values(count)).collect();
    let mut sheets = book.sheets.iter();
    sheets.any(|sheet| {
        if sheet.forbidden {
            return sheet.rows.is_empty();
        }
        let rows: Vec<&[u8]> = sheet.rows.iter().map(|row| &row[..]).collect();
        missing(&rows, &held(sheet, &values)) == 0
    })
}

fn open_columns(sheet: &Sheet, seen: &Seen) -> usize {
    let held = held(sheet, &seen.domains).into_iter();
    held.filter(|domain| domain.count_ones() > 1).count()
}

fn held(sheet: &Sheet, domains: &[u32]) -> Vec<u32> {
    let columns = sheet.columns.iter();
    columns
        .map(|&column| domains[usize::from(column)])
        .collect()
}

/// How many choices of one value from each of these domains there are.
fn choices(domains: &[u32]) -> usize {
    let sizes = domains.iter().map(|domain| domain.count_ones() as usize);
    sizes.product()
}

/// How many of them no row matches; 2 if there are more.
fn missing(rows: &[&[u8]], domains: &[u32]) -> usize {
    if rows.is_empty() {
        return choices(domains).min(2);
    }
    let any = |row: &&[u8]| row.iter().all(|&cell| cell == ANY);
    if rows.iter().any(any) {
        return 0;
    }
    let mut count = 0;
    for value in (0..32).filter(|value| domains[0] >> value & 1 == 1) {
        let matching = rows.iter().filter(|row| row[0] == ANY || row[0] == value);
        let rest: Vec<&[u8]> = matching.map(|row| &row[1..]).collect();
        count += missing(&rest, &domains[1..]);
        if count > 1 {
            return 2;
        }
    }
    count
}
