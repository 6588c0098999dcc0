//! Limits for the finishes of a list, on both sides of what each of them needs.

use crate::orders::with_limit;
use crate::{Book, Order, Random};
use reference::{session, Kind, MOST_TRIES};

/// Limits that are too large: the first ones, one for each byte that must be zero, and the largest.
const TOO_LARGE: [u32; 6] = [65_536, 65_536, 65_537, 131_072, 1 << 24, u32::MAX];

/// Gives most finishes of a list a limit, wrong finishes too. Nothing else that is drawn goes by it.
pub(crate) fn limit_finishes(random: &Random, book: &Book, list: &mut [Order]) {
    let random = &mut random.beside();
    let needed = needed(book, list);
    let orders = list.iter_mut().zip(needed);
    for (order, needed) in orders.filter(|(order, _)| is_finish(order)) {
        let limit = match random.below(16) {
            // As it is, and most often 0.
            0..=2 => continue,
            3..=5 => needed,
            6..=8 => needed.saturating_sub(1),
            9..=10 => needed + 1,
            11 => 1,
            12 => MOST_TRIES,
            13 => random.pick(&TOO_LARGE),
            14 => random.within(1..=6) as u32,
            _ => random.bits() as u32 >> random.below(32),
        };
        *order = with_limit(*order, limit);
    }
}

/// The tries that each order up to the last finish makes with the largest limit; 0 if it makes none.
fn needed(book: &Book, list: &[Order]) -> Vec<u32> {
    let end = list.iter().rposition(is_finish).map_or(0, |last| last + 1);
    let mut orders = list[..end].to_vec();
    for order in orders.iter_mut().filter(|order| is_finish(order)) {
        *order = with_limit(*order, 0);
    }
    let shown = session(book, &orders);
    shown[1..].iter().map(|shown| shown.tries).collect()
}

fn is_finish(order: &Order) -> bool {
    Kind::of(order) == Kind::Finish
}
