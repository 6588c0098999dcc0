//! Sheets that allow every choice of their columns, or nearly: by plain rows, and by short ones.

use crate::books::{any_set, columns};
use crate::short::MOST_ROWS;
use crate::Random;
use reference::{Book, Sheet, ANY};

/// Rows that allow every choice of columns of so many values but the last, which has the highest value of each: the
/// other values of each column in turn, with the highest before them and any after.
pub fn stairs(counts: &[u8]) -> Vec<Vec<u8>> {
    let mut rows = Vec::new();
    for (column, &count) in counts.iter().enumerate() {
        for value in 0..count - 1 {
            let mut row: Vec<u8> = counts.iter().map(|count| count - 1).collect();
            row[column] = value;
            row[column + 1..].fill(ANY);
            rows.push(row);
        }
    }
    rows
}

/// Few columns of few values, and sheets that allow every choice, or all but one, or some. With it, any
/// value of each column.
pub(crate) fn covering(random: &mut Random) -> (Book, Vec<u8>) {
    let all = random.within(2..=6);
    let mut counts: Vec<u8> = (0..all).map(|_| random.pick(&[1, 2, 2, 2, 3, 4])).collect();
    if random.once_in(8) {
        counts[random.below(all)] = 32;
    }
    let count = random.pick(&[1, 1, 2, 2, 3, 4, 8]);
    let sheets = (0..count)
        .map(|_| covering_sheet(random, &counts))
        .collect();
    let book = Book { counts, sheets };
    let aim = any_set(random, &book);
    (book, aim)
}

/// Its rows in any order, some of them twice at times.
fn covering_sheet(random: &mut Random, counts: &[u8]) -> Sheet {
    let width = random.pick(&[1, 2, 2, 2, 3, 3, 4]).min(counts.len());
    let columns = columns(random, counts.len(), width);
    let values: Vec<u8> = columns.iter().map(|&c| counts[usize::from(c)]).collect();
    // In one sheet of three no cell is any.
    let short = random.within(0..=2);
    let mut rows = every_choice(random, &values, short);
    let choice = any_choice(random, &values);
    match random.below(12) {
        0..=4 => {}
        5..=8 => rows = without(&rows, &choice, &values),
        // A value less, but for rows with any: where there are none it is struck, and the others are all allowed.
        9 => rows.retain(|row| row[0] != choice[0]),
        10 => rows.truncate(random.within(1..=rows.len())),
        _ => rows.truncate(rows.len() - 1),
    }
    if random.once_in(3) && !rows.is_empty() {
        for _ in 0..random.within(1..=6) {
            rows.push(rows[random.below(rows.len())].clone());
        }
    }
    random.shuffle(&mut rows);
    rows.truncate(MOST_ROWS);
    Sheet {
        forbidden: false,
        columns,
        rows,
    }
}

/// One value of each column.
fn any_choice(random: &mut Random, values: &[u8]) -> Vec<u8> {
    let values = values.iter();
    values
        .map(|&count| random.below(count.into()) as u8)
        .collect()
}

/// Rows that allow every choice, each by one row alone. The columns come in any order: one is any, in so many cases
/// of four, or there are rows for each of its values, and each of these then goes on by itself.
fn every_choice(random: &mut Random, values: &[u8], short: usize) -> Vec<Vec<u8>> {
    let open = (0..values.len()).collect();
    let mut rows = Vec::new();
    let mut parts: Vec<(Vec<u8>, Vec<usize>)> = vec![(vec![ANY; values.len()], open)];
    while let Some((row, mut open)) = parts.pop() {
        if open.is_empty() {
            rows.push(row);
            continue;
        }
        let column = open.swap_remove(random.below(open.len()));
        if random.below(4) < short {
            parts.push((row, open));
            continue;
        }
        for value in 0..values[column] {
            let mut row = row.clone();
            row[column] = value;
            parts.push((row, open.clone()));
        }
    }
    rows
}

/// Rows that allow what these do, but for this choice. In the place of a short row that matches it come rows for the
/// other values of each column that is any, with the choice's values before.
fn without(rows: &[Vec<u8>], choice: &[u8], values: &[u8]) -> Vec<Vec<u8>> {
    let mut others = Vec::new();
    for row in rows {
        let mut cells = row.iter().zip(choice);
        if !cells.all(|(&cell, &value)| cell == ANY || cell == value) {
            others.push(row.clone());
            continue;
        }
        let mut part = row.clone();
        for column in (0..row.len()).filter(|&column| row[column] == ANY) {
            for value in (0..values[column]).filter(|&value| value != choice[column]) {
                part[column] = value;
                others.push(part.clone());
            }
            part[column] = choice[column];
        }
    }
    others
}
