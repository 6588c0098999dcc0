//! Seeded inputs: the library and the reference give the same answer to each.
//!
//! `FITTING_CASES` asks for more of them than the usual number.

use conformance::{agreed, asked, has_forbidden, has_short_rows, refused, show, spelled};
use conformance::{Book, Case, Mend, Region, Sheet, Tally, ANY, BLOCK, ROWS_OF_A_BLOCK};
use reference::{book_refusals, decode, fallen_rows, row_faults, RowFault};
use std::panic;

/// The agreed answer; a difference is told with the seed and the damage.
fn answer(seed: u64, case: &Case) -> u64 {
    panic::catch_unwind(|| agreed(&case.bytes)).unwrap_or_else(|cause| {
        show(&format!("seed {seed}: {:?}, {:?}", case.damaged, case.mend));
        panic::resume_unwind(cause)
    })
}

/// The view of an accepted book as plain data.
fn read(book: fitting::Book) -> Book {
    let values = (0..book.columns()).map(|column| book.values(column).len() as u8);
    let sheets = book.sheets().map(|sheet| Sheet {
        forbidden: sheet.forbids(),
        columns: sheet.columns().to_vec(),
        rows: sheet.rows().map(<[u8]>::to_vec).collect(),
    });
    Book {
        counts: values.collect(),
        sheets: sheets.collect(),
    }
}

/// The typed check of `fitting` gives this number, and reads an accepted book as the reference does.
fn typed_alike(seed: u64, bytes: &[u8], number: u64) {
    match fitting::check(bytes) {
        Ok(book) => assert_eq!(Some(read(book)), decode(bytes), "seed {seed}"),
        Err(refusal) => {
            let given = refused(refusal.number(), refusal.place().into());
            assert_eq!(given, number, "seed {seed}");
        }
    }
}

/// Damage to one region alone, in words.
fn damage(region: Region, mended: bool) -> String {
    let mended = if mended { "mended" } else { "not mended" };
    format!("damage to {region:?}, checks {mended}")
}

/// Counts the place of a refusal. Of a row's fault it is the block, and the row in it: `sweeps` goes
/// through every place of these.
fn count_places(places: &mut Tally, number: u64, count: usize) {
    let (refusal, place) = (number / 65_536, number as usize % 65_536);
    let (block, row) = (4 * place / BLOCK, 4 * place % BLOCK / 4);
    match refusal {
        0 => {}
        5..=7 => {
            places.add(&format!("refusal {refusal}, block {block}"), count);
            places.add(&format!("refusal {refusal}, row {row} of a block"), count);
        }
        _ => places.add(&spelled(number), count),
    }
}

/// The first faults of a book's rows, in words.
fn first_faults(faults: &[RowFault]) -> String {
    let (first, at) = faults[0];
    let Some((second, next)) = faults.get(1) else {
        return format!("rows with a {first} alone");
    };
    let apart = if at / 4 == next / 4 {
        "one row"
    } else if at / BLOCK == next / BLOCK {
        "one block"
    } else {
        "two blocks"
    };
    format!("rows with a {first}, then a {second} in {apart}")
}

/// Counts what short rows, and bytes near any, do to a book.
fn count_near_any(tally: &mut Tally, bytes: &[u8], refusal: u64) {
    let short = decode(bytes).is_some_and(|book| has_short_rows(&book));
    let first = row_faults_of(bytes, refusal)
        .first()
        .map(|&(_, at)| bytes[at]);
    for (words, holds) in [
        ("near any: accepted, with short rows", short),
        ("near any: accepted, without", refusal == 0 && !short),
        (
            "near any: refusal 5 for 254",
            refusal == 5 && first == Some(254),
        ),
        (
            "near any: refusal 5 for 128",
            refusal == 5 && first == Some(128),
        ),
        (
            "near any: refusal 6 for 254",
            refusal == 6 && first == Some(254),
        ),
        (
            "near any: refusal 6 for 255",
            refusal == 6 && first == Some(ANY),
        ),
    ] {
        tally.add(words, holds.into());
    }
}

/// What is counted of a book with forbidden sheets, in words.
const FORBIDDEN: [&str; 12] = [
    "accepted",
    "accepted, and plain sheets with short rows",
    "accepted, without rows",
    "accepted, of several blocks",
    "accepted, some row above the one before by its last value alone",
    "refusal 5 for 255",
    "refusal 6 for 255",
    "refusal 5 or 6, where rows before it don't rise",
    "refusal 7, the row equals the one before",
    "refusal 7, the row falls, and its last value rises",
    "refusal 7, the first row of a block",
    "refusal 7, in a second sheet too",
];

fn forbidden(words: &str) -> String {
    format!("forbidden sheets: {words}")
}

/// Counts what forbidden sheets do to a book.
fn count_forbidden(tally: &mut Tally, bytes: &[u8], number: u64) {
    let (refusal, place) = (number / 65_536, number as usize % 65_536);
    let mut sorts = [false; FORBIDDEN.len()];
    if let Some(book) = decode(bytes).filter(has_forbidden) {
        let some = |such: fn(&Sheet) -> bool| {
            let mut sheets = book.sheets.iter().filter(|sheet| sheet.forbidden);
            sheets.any(such)
        };
        sorts[0] = true;
        sorts[1] = has_short_rows(&book);
        sorts[2] = some(|sheet| sheet.rows.is_empty());
        sorts[3] = some(|sheet| sheet.rows.len() > ROWS_OF_A_BLOCK);
        sorts[4] = some(|sheet| {
            let mut pairs = sheet.rows.windows(2);
            let last = sheet.columns.len() - 1;
            last > 0 && pairs.any(|pair| pair[0][..last] == pair[1][..last])
        });
    }
    let faults = row_faults_of(bytes, refusal);
    if let Some(&(_, at)) = faults.first() {
        let width = bytes[24 + 8 * sheet_of(bytes, at / BLOCK)];
        sorts[5] = refusal == 5 && bytes[at] == ANY && width > 128;
        sorts[6] = refusal == 6 && bytes[at] == ANY && width > 128;
        let before = fallen_rows(bytes).first().is_some_and(|&row| row < at);
        sorts[7] = before;
    }
    if refusal == 7 {
        let row = 4 * place;
        let start = row % BLOCK == 0;
        let before = if start { row - 8 } else { row - 4 };
        let [before, falls] = [before, row].map(|at| &bytes[at..at + 4]);
        let sheet = sheet_of(bytes, row / BLOCK);
        let last = usize::from(bytes[24 + 8 * sheet]) - 129;
        sorts[8] = before == falls;
        sorts[9] = falls < before && falls[last] > before[last];
        sorts[10] = start;
        let mut fallen = fallen_rows(bytes).into_iter();
        sorts[11] = fallen.any(|at| sheet_of(bytes, at / BLOCK) != sheet);
    }
    for (words, holds) in FORBIDDEN.iter().zip(sorts) {
        tally.add(&forbidden(words), holds.into());
    }
}

/// The sheet that has this block; the head is right.
fn sheet_of(bytes: &[u8], block: usize) -> usize {
    let mut first = 1;
    let mut sheets = (0..8).map(|s| {
        let rows = [30, 31].map(|at| bytes[8 * s + at]);
        first += usize::from(u16::from_le_bytes(rows)).div_ceil(ROWS_OF_A_BLOCK);
        first
    });
    sheets.position(|end| block < end).expect("a sheet")
}

/// The faults of the rows; none of a book that is not refused for them.
fn row_faults_of(bytes: &[u8], refusal: u64) -> Vec<RowFault> {
    match refusal {
        5 | 6 => row_faults(bytes),
        _ => Vec::new(),
    }
}

/// What is looked for, so far seen 0 times: the places, and each refusal and each region hit alone, with and
/// without mended checks.
fn looked_for() -> [Tally; 2] {
    let [mut places, mut tally] = [Tally::default(), Tally::default()];
    for (refusal, possible) in book_refusals() {
        tally.add(&format!("refusal {refusal}"), 0);
        let numbers = possible.into_iter().map(|place| refused(refusal, place));
        numbers.for_each(|number| count_places(&mut places, number, 0));
    }
    for region in Region::ALL {
        tally.add(&damage(region, true), 0);
        tally.add(&damage(region, false), 0);
    }
    [places, tally]
}

/// Each place that a refusal can give is reached, and no other; each region is hit alone; and each kind of row
/// fault comes before each.
#[test]
fn every_number_agrees() {
    let [mut places, mut tally] = looked_for();
    let possible = places.kinds();
    let [mut rows, mut kinds] = [Tally::default(), Tally::default()];
    let cases = asked("FITTING_CASES", 200_000);
    for seed in 0..cases {
        let case = Case::new(seed);
        let number = answer(seed, &case);
        typed_alike(seed, &case.bytes, number);
        count_places(&mut places, number, 1);
        let refusal = number / 65_536;
        tally.add(&format!("refusal {refusal}"), 1);
        if let faults @ [_, ..] = &*row_faults_of(&case.bytes, refusal) {
            rows.add(&first_faults(faults), 1);
        }
        count_near_any(&mut tally, &case.bytes, refusal);
        count_forbidden(&mut kinds, &case.bytes, number);
        match case.damaged.as_deref() {
            Some([]) => assert_eq!(refusal, 0, "seed {seed} is a right book"),
            Some([region]) => tally.add(&damage(*region, case.mend == Mend::AtTheEnd), 1),
            _ => {}
        }
    }
    show(&format!(
        "{cases} seeded inputs, library and reference agree on each\n\n{tally}{rows}{kinds}"
    ));
    tally.assert_each_above(500);
    places.assert_each_above(0);
    assert_eq!(places.kinds(), possible, "a place that can't be");
    // One alone, or two in three ways; but in one row no value comes after a zero.
    assert_eq!(rows.kinds(), 2 + 4 * 3 - 1);
    rows.assert_each_above(250);
    kinds.assert_each_above(100);
}
