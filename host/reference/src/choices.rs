//! What a sheet allows, by its kind: one combination, some of a box, every one of a box. No other place
//! asks whether a sheet is a forbidden one.

use crate::cells::{lies_in, matched};
use crate::finish::{one_of_each, values_of};
use crate::orders::value_bit;
use crate::{Book, Sheet};

/// Whether a sheet allows a combination, one value of each of its columns: when it forms a row; and in a
/// forbidden sheet "when it isn't a row".
pub fn allows(sheet: &Sheet, combination: &[u8]) -> bool {
    let matches = |row: &Vec<u8>| {
        let mut cells = row.iter().zip(combination);
        cells.all(|(&cell, &value)| matched(cell, value_bit(value)) != 0)
    };
    sheet.rows.iter().any(matches) != sheet.forbidden
}

/// For each column of the sheet, the values of its domain that an allowed combination in the box has:
/// "Sound boxes, full sets and done then go by allowed combinations".
pub(crate) fn carried(sheet: &Sheet, domains: &[u32]) -> Vec<u32> {
    if sheet.forbidden {
        return left_by_rows(sheet, domains);
    }
    // "carried by a row of that sheet lying in the box"
    let mut carried = vec![0; sheet.columns.len()];
    for row in &sheet.rows {
        if lies_in(sheet, row, domains) {
            for (i, &cell) in row.iter().enumerate() {
                carried[i] |= matched(cell, domains[usize::from(sheet.columns[i])]);
            }
        }
    }
    carried
}

/// For each column of a forbidden sheet, the values with which not every choice of the others is a row.
fn left_by_rows(sheet: &Sheet, domains: &[u32]) -> Vec<u32> {
    let held = held(sheet, domains);
    let rows = sheet.rows.iter().filter(|row| lies_in(sheet, row, domains));
    let live: Vec<&[u8]> = rows.map(|row| &row[..]).collect();
    let mut left = held.clone();
    for (i, &domain) in held.iter().enumerate() {
        let mut alone = held.clone();
        let mut rows_of = [0; 32];
        live.iter()
            .for_each(|row| rows_of[usize::from(row[i])] += 1);
        for value in values_of(domain) {
            alone[i] = value_bit(value);
            // Fewer rows than choices can't be all of them.
            if rows_of[usize::from(value)] < choices(&alone) {
                continue;
            }
            let rows = live.iter().filter(|row| row[i] == value);
            if every_choice(&rows.copied().collect::<Vec<_>>(), &alone) {
                left[i] &= !value_bit(value);
            }
        }
    }
    left
}

/// How many choices of one value from each of these domains there are.
fn choices(domains: &[u32]) -> u32 {
    domains.iter().map(|domain| domain.count_ones()).product()
}

/// "every choice of one value from the current domain of each column of the sheet is allowed by it"; of
/// several rows, each may allow some of them. A forbidden sheet allows every one when none is a row.
pub(crate) fn allows_every_choice(sheet: &Sheet, domains: &[u32]) -> bool {
    if sheet.forbidden {
        return !sheet.rows.iter().any(|row| lies_in(sheet, row, domains));
    }
    let held = held(sheet, domains);
    let rows: Vec<&[u8]> = sheet.rows.iter().map(|row| &row[..]).collect();
    every_choice(&rows, &held)
}

/// The domains of the sheet's columns.
fn held(sheet: &Sheet, domains: &[u32]) -> Vec<u32> {
    let columns = sheet.columns.iter();
    columns
        .map(|&column| domains[usize::from(column)])
        .collect()
}

/// Whether each choice of one value from each of these domains is matched by one of these rows, which
/// have a cell for each domain: value by value of the first, with the rows that match it.
fn every_choice(rows: &[&[u8]], domains: &[u32]) -> bool {
    let (first, others) = (domains[0], &domains[1..]);
    if others.is_empty() {
        let matched = rows.iter().map(|row| matched(row[0], first));
        return matched.fold(0, |all, values| all | values) == first;
    }
    // Where one row matches all that is left, nothing need be chosen.
    if rows.iter().any(|row| matches_all(row, domains)) {
        return true;
    }
    values_of(first).into_iter().all(|value| {
        let matching = |row: &&&[u8]| matched(row[0], value_bit(value)) != 0;
        let rest: Vec<&[u8]> = rows.iter().filter(matching).map(|row| &row[1..]).collect();
        every_choice(&rest, others)
    })
}

/// Whether a row matches every choice of these domains.
fn matches_all(row: &[u8], domains: &[u32]) -> bool {
    let mut cells = row.iter().zip(domains);
    cells.all(|(&cell, &domain)| matched(cell, domain) == domain)
}

/// The sheet of the other kind that allows the same: its rows are the combinations that are none of these
/// rows, rising. They may be more than a sheet can hold.
pub fn turned(book: &Book, sheet: &Sheet) -> Sheet {
    let columns = sheet.columns.iter();
    let values = columns.map(|&column| (0..book.counts[usize::from(column)]).collect());
    let mut rows = one_of_each(&values.collect::<Vec<_>>());
    rows.retain(|combination| allows(sheet, combination) == sheet.forbidden);
    Sheet {
        forbidden: !sheet.forbidden,
        columns: sheet.columns.clone(),
        rows,
    }
}
