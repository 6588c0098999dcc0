//! Books whose finish takes many tries.

use crate::Random;
use reference::{Book, Sheet};

/// Free columns of so many values, and after them three columns, of so many values each, that contradict each
/// other: the second is as the first, the third as the second, and one more than the first. Every value stays,
/// and each that the first of them is set to is dead.
pub fn contradicting(free: &[u8], values: u8) -> Book {
    let first = free.len() as u8;
    let same = |column: u8| Sheet {
        forbidden: false,
        columns: vec![column, column + 1],
        rows: (0..values).map(|value| vec![value, value]).collect(),
    };
    let next = Sheet {
        forbidden: false,
        columns: vec![first, first + 2],
        rows: (0..values)
            .map(|value| vec![value, (value + 1) % values])
            .collect(),
    };
    Book {
        counts: [free, &[values; 3]].concat(),
        sheets: vec![same(first), same(first + 1), next],
    }
}

/// The tries that a finish of such a book makes at the opening, all of them: those of the last columns anew for
/// each value of a column before them, which is a try itself.
pub fn tries_of_contradicting(free: &[u8], values: u8) -> u32 {
    let columns = free.iter().rev();
    columns.fold(values.into(), |tries, &count| {
        u32::from(count) * (1 + tries)
    })
}

/// Some free columns of few values before such columns. In most books the contradiction ends at the last value of
/// column 0. With it, some value of each column, and that one of column 0.
pub(crate) fn searching(random: &mut Random) -> (Book, Vec<u8>) {
    let free: Vec<u8> = (0..random.within(1..=5))
        .map(|_| random.pick(&[1, 2, 2, 3, 4]))
        .collect();
    let values = random.within(2..=4) as u8;
    let mut book = contradicting(&free, values);
    let door = free[0];
    if !random.once_in(3) {
        let next = &mut book.sheets[2];
        next.columns.insert(0, 0);
        let rows = (0..door).flat_map(|at| {
            let by = u8::from(at + 1 < door);
            (0..values).map(move |value| vec![at, value, (value + by) % values])
        });
        next.rows = rows.collect();
    }
    let held = random.below(values.into()) as u8;
    let mut aim: Vec<u8> = book.counts.iter().map(|_| held).collect();
    for (value, &count) in aim.iter_mut().zip(&free) {
        *value = random.below(count.into()) as u8;
    }
    aim[0] = door - 1;
    random.shuffle(&mut book.sheets);
    (book, aim)
}
