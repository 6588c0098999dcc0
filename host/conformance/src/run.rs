//! One seeded input of a run: a book, a list of orders, and a space for the answers.

use crate::covers::covering;
use crate::forbidding::{forbidding, partly_turned};
use crate::limits::limit_finishes;
use crate::orders::{any_list, back, finish, narrow, searches, FINISH, MARK};
use crate::searching::searching;
use crate::{all_values, any_book, books, plant, space_for, write, Book, Case, Order, Random};
use std::ops::RangeInclusive;

/// What kind of book a run has.
#[derive(Clone, Copy, Debug, PartialEq, Eq, PartialOrd, Ord)]
pub enum Shape {
    /// Up to three columns of up to four values, up to three sheets of up to eight rows.
    Tiny,
    /// Up to eight columns of up to eight values and up to eight sheets, rows for some full sets.
    Small,
    /// Sheets that hand on each lost value in a ring, so that propagation runs long.
    Ring,
    /// Sheets that make two columns differ, so that a full set takes a search or isn't there.
    Differing,
    /// Sheets that allow every choice, or all but one, so that they are done with several columns open.
    Covering,
    /// Forbidden sheets that leave little of something, and plain ones.
    Forbidding,
    /// Sheets that contradict each other after some columns, so that a search takes many tries.
    Searching,
    /// Anything that the format has.
    Any,
    /// Sixteen columns of 32 values, eight sheets of 508 rows.
    Largest,
    /// Most often no book at all.
    Damaged,
}

/// One seeded input of a run.
#[derive(Clone, Debug)]
pub struct Run {
    /// What kind of book it is.
    pub shape: Shape,
    /// The bytes of the book.
    pub book: Vec<u8>,
    /// The bytes of the orders: most often whole orders, and no more than 256.
    pub orders: Vec<u8>,
    /// The bytes of the space for the answers: most often as many as they need.
    pub space: usize,
}

impl Run {
    /// The run of this seed.
    pub fn new(seed: u64) -> Self {
        let random = &mut Random::new(seed);
        let shape = match random.below(40) {
            0..=7 => Shape::Tiny,
            8..=9 => Shape::Searching,
            10..=15 => Shape::Small,
            16..=19 => Shape::Forbidding,
            20..=23 => Shape::Covering,
            24..=28 => Shape::Ring,
            29..=31 => Shape::Differing,
            32..=35 => Shape::Any,
            36..=37 => Shape::Largest,
            _ => Shape::Damaged,
        };
        let (book, aim) = match shape {
            Shape::Tiny => planted(random, books::tiny_book, 0..=3),
            Shape::Small => planted(random, books::small_book, 1..=6),
            Shape::Ring => books::ring(random),
            Shape::Differing => books::differing(random),
            Shape::Covering => covering(random),
            Shape::Forbidding => planted(random, forbidding, 0..=3),
            Shape::Searching => searching(random),
            Shape::Any | Shape::Damaged => planted(random, any_book, 0..=8),
            Shape::Largest => planted(random, books::largest_book, 0..=8),
        };
        // A book that allows the same: the aim stays one.
        let book = match shape {
            Shape::Any | Shape::Damaged | Shape::Largest | Shape::Forbidding => book,
            _ => partly_turned(random, book),
        };
        let length = length(random, shape);
        let mut list = any_list(random, &book, &aim, length);
        match shape {
            Shape::Largest => finish_late(random, &mut list, &aim),
            // A list at the limit keeps its length.
            Shape::Covering if list.len() < 25 => to_and_fro(random, &mut list, &book),
            // Before a narrow the search is longest.
            Shape::Searching if list.len() < 25 => list.insert(0, FINISH),
            _ => {}
        }
        if shape != Shape::Largest {
            limit_finishes(random, &book, &mut list);
        }
        let orders = list_bytes(random, &list);
        let book = match shape {
            Shape::Damaged => Case::new(random.bits()).bytes,
            _ => write(&book),
        };
        let space = space(random, &orders);
        Self {
            shape,
            book,
            orders,
            space,
        }
    }
}

/// A book with so many full sets put into its rows, and the last of them; without any, some value
/// of each column.
fn planted(
    random: &mut Random,
    book: fn(&mut Random) -> Book,
    sets: RangeInclusive<usize>,
) -> (Book, Vec<u8>) {
    let mut book = book(random);
    let mut set = books::any_set(random, &book);
    for _ in 0..random.within(sets) {
        set = books::any_set(random, &book);
        plant(random, &mut book, &set);
    }
    (book, set)
}

/// The bytes of these orders, at times some more or fewer.
fn list_bytes(random: &mut Random, list: &[Order]) -> Vec<u8> {
    let mut orders = list.concat();
    if random.once_in(50) {
        let length = orders.len() + random.within(1..=14);
        orders.resize(length.saturating_sub(7), 0);
    }
    orders
}

/// All tries in one of the largest books may take minutes, so the search is stopped early; without such a
/// limit it is finished, if at all, when few columns are left open.
fn finish_late(random: &mut Random, list: &mut Vec<Order>, aim: &[u8]) {
    let finishes = list.iter_mut().filter(|order| searches(order));
    finishes.for_each(|order| *order = finish(random.within(1..=3) as u32));
    if random.once_in(3) {
        let open = random.within(0..=5);
        let mut columns: Vec<u8> = (0..16).collect();
        random.shuffle(&mut columns);
        let narrows = columns[open..].iter();
        list.extend(narrows.map(|&column| narrow(column, 1 << aim[usize::from(column)])));
        list.push(FINISH);
    }
}

/// First of all some value is taken from a column, and given back: a sheet that lacks a choice with this
/// value is done between.
fn to_and_fro(random: &mut Random, list: &mut Vec<Order>, book: &Book) {
    let column = random.below(book.counts.len());
    let count = book.counts[column];
    let value = 1 << random.below(count.into());
    let taken = narrow(column as u8, all_values(count) & !value);
    list.splice(0..0, [MARK, taken, back(1)]);
}

/// As many bytes as the answers need, or one too few, or any other number.
fn space(random: &mut Random, orders: &[u8]) -> usize {
    let needed = space_for(orders);
    match random.below(32) {
        0 => needed - 1,
        1 => random.below(needed),
        2 => needed + 1,
        3..=5 => needed + random.within(1..=200),
        _ => needed,
    }
}

/// How many orders: most often few, since the reference is slow.
fn length(random: &mut Random, shape: Shape) -> usize {
    // It is slowest on the largest books.
    let rare = if shape == Shape::Largest { 4 } else { 1 };
    if random.once_in(30 * rare) {
        random.pick(&[255, 256, 256, 257, 258, 300])
    } else if random.once_in(12 * rare) {
        random.within(25..=80)
    } else if random.once_in(12) {
        random.within(0..=2)
    } else {
        random.within(1..=24)
    }
}
