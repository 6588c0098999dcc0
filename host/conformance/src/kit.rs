//! The vectors of the conformance kit: small books, lists and answer spaces with what they must give.
//!
//! [`vectors`] are described in `kit/vectors.txt` or seeded; [`files`] has the reference answer them
//! and gives every file of the kit.

mod contents;
mod described;
mod files;
mod seeded;

pub use contents::{contents, read_contents};
pub use files::{files, Files};

use crate::space_for;
use std::path::PathBuf;

/// The folder of the kit.
pub fn folder() -> PathBuf {
    concat!(env!("CARGO_MANIFEST_DIR"), "/vectors").into()
}

/// What the space is filled with before most runs: no byte of an answer is likely to have it.
const FILL: u8 = 165;

/// The bytes of most spaces after the last answer, so that a write past it is seen.
const SPARE: usize = 24;

/// One input, and why it is there.
#[derive(Clone, Debug)]
pub struct Vector {
    /// Its name, which no other has.
    pub name: String,
    /// What it shows, without the period at its end.
    pub shows: String,
    /// The words of document 01 or 02 that it goes by.
    pub paper: String,
    /// The bytes of the book.
    pub book: Vec<u8>,
    /// The name of its file, if no vector before has the same book.
    book_name: String,
    /// The bytes of the orders.
    pub orders: Vec<u8>,
    /// The bytes of the answer space, if they aren't those that are needed and some to spare.
    space: Option<usize>,
    /// What each of them is before the run.
    pub fill: u8,
}

impl Vector {
    /// The bytes of the answer space.
    pub fn space(&self) -> usize {
        let needed = space_for(&self.orders);
        self.space.unwrap_or(needed + SPARE)
    }

    /// The number and the space that the reference gives.
    pub fn expected(&self) -> (u64, Vec<u8>) {
        let mut space = vec![self.fill; self.space()];
        let number = reference::run(&self.book, &self.orders, &mut space);
        (number, space)
    }
}

/// Every vector of the kit, in the order of its index: the described ones, then the seeded ones.
pub fn vectors() -> Vec<Vector> {
    [described::vectors(), seeded::vectors()].concat()
}
