//! Books whose finish takes thousands of tries.

use crate::measurement::Kind;
use crate::opponents::{finish, Packed};
use conformance::{write, Book, Random, Sheet};

/// What a book must take to be hard.
const TRIES: u64 = 2_500;

/// Names, books, and what is timed on them. All take a finish; one without a full set and one with it
/// take everything.
pub fn books() -> [(String, Book, &'static [Kind]); 6] {
    let tetrahedron = [[0, 1], [0, 2], [0, 3], [1, 2], [1, 3], [2, 3]];
    let parity = |corners, edges: &[_], values| {
        let name = format!("hard, none: parity, {} columns", edges.len());
        (name, parity(corners, edges, values))
    };
    let only_finish: &[Kind] = &[Kind::Finish];
    let with = |kinds, (name, book)| (name, book, kinds);
    [
        with(only_finish, parity(4, &tetrahedron, 10)),
        with(&Kind::ALL, parity(8, &cube(), 4)),
        with(only_finish, random(18, 320, false)),
        with(&Kind::ALL, random(18, 340, true)),
        with(only_finish, random(23, 508, false)),
        with(only_finish, random(23, 508, true)),
    ]
}

/// The edges of a cube.
pub fn cube() -> Vec<[u8; 2]> {
    let next = |corner| [1, 2, 4].map(move |step| [corner, corner | step]);
    (0..8).flat_map(next).filter(|[a, b]| a < b).collect()
}

/// A graph, three edges at each corner: each edge is a column, and each corner a sheet, whose rows
/// have an even sum. Only the last corner's have an odd one, and as each edge counts twice there is no
/// full set. No sheet tells before its last column but one is single.
pub fn parity(corners: u8, edges: &[[u8; 2]], values: u8) -> Book {
    let count = u16::from(values);
    let row = |n| [n % count, n / count % count, n / count / count].map(|value| value as u8);
    let rows = (0..count.pow(3)).map(|n| row(n).to_vec());
    let sheet = |corner: u8| {
        let odd = u8::from(corner + 1 == corners);
        let fits = |row: &Vec<u8>| row.iter().sum::<u8>() % 2 == odd;
        let at_corner = (0..).zip(edges).filter(|(_, edge)| edge.contains(&corner));
        Sheet {
            forbidden: false,
            columns: at_corner.map(|(column, _)| column).collect(),
            rows: rows.clone().filter(fits).collect(),
        }
    };
    Book {
        counts: vec![values; edges.len()],
        sheets: (0..corners).map(sheet).collect(),
    }
}

/// The first seed that gives a hard book of 16 columns and 8 sheets of width 4, with or without a
/// full set. So many rows leave about one by chance.
fn random(values: u8, rows: usize, found: bool) -> (String, Book) {
    let hard = |book: &Book| {
        let finish = finish::<Packed>(&write(book));
        (finish.domains[0] != 0) == found && finish.tries >= TRIES
    };
    let mut books = (0..).map(|seed| seeded(&mut Random::new(seed), values, rows));
    let outcome = if found { "found" } else { "none" };
    let name = format!("hard, {outcome}: random, {rows} rows");
    (name, books.find(hard).expect("a seed"))
}

/// Every column stands in two sheets, so that none is tried over and over without effect.
pub fn seeded(random: &mut Random, values: u8, rows: usize) -> Book {
    let row = |random: &mut Random| (0..4).map(|_| random.below(values.into()) as u8).collect();
    let sheets = columns(random).map(|columns| Sheet {
        forbidden: false,
        columns: columns.to_vec(),
        rows: (0..rows).map(|_| row(random)).collect(),
    });
    Book {
        counts: vec![values; 16],
        sheets: sheets.to_vec(),
    }
}

/// Four columns for each of eight sheets, each column twice.
fn columns(random: &mut Random) -> [[u8; 4]; 8] {
    loop {
        let mut deck = std::array::from_fn::<u8, 32, _>(|i| i as u8 % 16);
        random.shuffle(&mut deck);
        let mut hands = [[0; 4]; 8];
        hands.as_flattened_mut().copy_from_slice(&deck);
        hands.iter_mut().for_each(|hand| hand.sort());
        if hands.iter().all(|hand| hand.is_sorted_by(|a, b| a < b)) {
            return hands;
        }
    }
}
