//! A list of orders over a book, and what each order leaves.

use crate::closure::closure;
use crate::finish::finish;
use crate::orders::{allowed, depth, limit_of, refusal, stand, Entry, Kind, Order};
use crate::Book;

/// What can be seen of a session after an order, or at the opening.
#[derive(Clone, Debug, PartialEq, Eq)]
pub struct Shown {
    /// "byte 0 the refusal or 0"
    pub refusal: u8,
    /// "Depth is the number of bars."
    pub depth: usize,
    /// "The current domains", one mask for each of the C columns.
    pub domains: Vec<u32>,
    /// What an accepted finish found.
    pub outcome: Outcome,
    /// "the tries made" by an accepted finish, else 0.
    pub tries: u32,
}

/// "byte 3 zero, or for an accepted finish 1 found, 2 none"; "3, stopped"
#[derive(Clone, Debug, PartialEq, Eq)]
pub enum Outcome {
    /// The opening, a refused order, or one of another kind.
    NoFinish,
    /// The first full set, one value for each of the C columns.
    Found(Vec<u8>),
    /// There is no full set.
    None,
    /// "the answer needs more tries than the limit"
    Stopped,
}

/// The opening, then what stands after each order of the list.
pub fn session(book: &Book, orders: &[Order]) -> Vec<Shown> {
    let mut trail = Vec::new();
    let mut shown = vec![show(book, &trail, 0)];
    for order in orders {
        let refusal = refusal(book, &trail, order);
        if refusal == 0 {
            stand(&mut trail, order);
        }
        let mut after = show(book, &trail, refusal);
        if refusal == 0 && Kind::of(order) == Kind::Finish {
            (after.outcome, after.tries) = finish(book, &after.domains, limit_of(order));
        }
        shown.push(after);
    }
    shown
}

/// "The current domains after a list are the settled domains of its allowed values"; nothing is
/// kept from the order before.
fn show(book: &Book, trail: &[Entry], refusal: u8) -> Shown {
    Shown {
        refusal,
        depth: depth(trail),
        domains: closure(book, &allowed(book, trail)),
        outcome: Outcome::NoFinish,
        tries: 0,
    }
}
