//! Small seeded books and lists, for breadth.

use super::Vector;
use crate::{space_for, Random, Run, Shape};

/// How many of each shape.
const SHAPES: [(Shape, usize, &str); 8] = [
    (Shape::Tiny, 5, "up to three columns of up to four values"),
    (
        Shape::Small,
        8,
        "up to eight columns, and sheets that share them",
    ),
    (
        Shape::Ring,
        5,
        "sheets that hand on each lost value in a ring",
    ),
    (Shape::Differing, 5, "sheets that make two columns differ"),
    (
        Shape::Covering,
        8,
        "sheets that allow every choice, or all but one",
    ),
    (
        Shape::Forbidding,
        8,
        "forbidden sheets that leave little, and plain ones",
    ),
    (
        Shape::Searching,
        4,
        "sheets that contradict each other after some columns",
    ),
    (Shape::Damaged, 5, "a damaged book"),
];

/// The longest book and list that are taken, and the shortest list.
const BOOK: usize = 2_560;
const MOST: usize = 20 * 8;
const FEWEST: usize = 6 * 8;

const PAPER: &str = "random books against an independent Rust version are test runs";

pub(super) fn vectors() -> Vec<Vector> {
    let mut vectors = Vec::new();
    for (shape, count, shows) in SHAPES {
        let seeds = (0..).filter(|&seed| fits(&Run::new(seed), shape));
        vectors.extend(seeds.take(count).map(|seed| vector(seed, shows)));
    }
    vectors
}

/// A small run of this shape that isn't refused for its list or its space, and not for its book
/// unless that is damaged.
fn fits(run: &Run, shape: Shape) -> bool {
    let small = run.book.len() <= BOOK && (FEWEST..=MOST).contains(&run.orders.len());
    let right = run.orders.len().is_multiple_of(8) && run.space >= space_for(&run.orders);
    let refused = reference::check(&run.book) >= 65_536;
    run.shape == shape && small && right && refused == (shape == Shape::Damaged)
}

fn vector(seed: u64, shows: &str) -> Vector {
    let run = Run::new(seed);
    let name = format!("seeded-{seed}");
    Vector {
        book_name: name.clone(),
        name,
        shows: format!("Seed {seed}: {shows}"),
        paper: PAPER.into(),
        book: run.book,
        orders: run.orders,
        space: Some(run.space),
        // Not zero, as most bytes of an answer are.
        fill: Random::new(seed).byte() | 1,
    }
}
