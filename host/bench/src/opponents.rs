//! A check and two narrowing engines made for speed, with nothing proved: what the library is measured
//! against.
//!
//! They are frozen at document 01. They know its books and its orders and nothing newer, they are
//! timed on nothing else, and they stay as they are when the library learns more. A book is *plain*
//! when this check accepts it.
//!
//! A sheet that waits has its valid rows cut by the columns that changed since it last looked, and if
//! a row went, its columns are struck to what the rows left carry. How the valid rows are kept is
//! the difference of the two engines: in words as the library has them, or packed.

mod book;
mod check;
mod engine;
mod packed;
mod words;

use book::Book;
pub use check::check;
use engine::{Engine, Level, Rows};
pub use packed::Packed;
pub use words::Words;

/// What an order leaves: what an answer says of it, but for the depth and the done sheets.
#[derive(Clone, Copy, PartialEq, Eq, Debug)]
pub struct Shown {
    /// The refusal, or 0.
    pub refusal: u8,
    /// 0 dead, 1 open, 2 decided.
    pub status: u8,
    /// Those of a finish are the full set's, or zeros for none.
    pub domains: [u32; 16],
}

/// A place where nothing has been shown yet.
pub const NOTHING: Shown = Shown {
    refusal: 0,
    status: 0,
    domains: [0; 16],
};

/// What a finish at the opening of a book comes to.
#[derive(Clone, Copy, PartialEq, Eq, Debug)]
pub struct Finish {
    /// How often a column was set to a value.
    pub tries: u64,
    /// The first full set, one bit for each column, or zeros for none.
    pub domains: [u32; 16],
}

/// A whole run, the check of the book with it: the number of accepted orders, or of the refusal. The
/// opening has the first place, and each order the next.
pub fn run<R: Rows>(book: &[u8], orders: &[u8], shown: &mut [Shown; 257]) -> u64 {
    let number = check(book);
    if number >> 16 != 0 {
        return number;
    }
    match orders.as_chunks() {
        (orders, []) if orders.len() < shown.len() => on_plain(book, |engine: &mut Engine<R>| {
            run_list(engine, orders, shown)
        }),
        _ => 10 << 16,
    }
}

/// A finish at the opening of a plain book.
pub fn finish<R: Rows>(book: &[u8]) -> Finish {
    on_plain(book, |engine: &mut Engine<R>| {
        let opening = engine.opening();
        let domains = engine.first_set(&opening);
        let tries = engine.tries;
        Finish { tries, domains }
    })
}

fn on_plain<R: Rows, T>(book: &[u8], then: impl FnOnce(&mut Engine<R>) -> T) -> T {
    let (head, blocks) = book.split_first_chunk().expect("a book has its head");
    let book = &Book::of(head, blocks);
    R::with(|rows| {
        then(&mut Engine {
            book,
            rows,
            tries: 0,
        })
    })
}

/// Carries out the orders, and gives the number of accepted ones.
fn run_list<R: Rows>(engine: &mut Engine<R>, orders: &[[u8; 8]], shown: &mut [Shown]) -> u64 {
    // The level of each depth: a mark copies one to the next, a back goes down and copies nothing.
    // Levels that no mark has reached are never written.
    let mut levels = [const { None }; 17];
    let mut depth = 0;
    let opening = Level::of(engine.opening());
    shown[0] = levels[0].insert(opening).shown(0);
    let mut refused = 0;
    for (order, shown) in orders.iter().zip(&mut shown[1..]) {
        let order = u64::from_le_bytes(*order);
        let refusal = refusal_of(engine.book, depth, order);
        let argument = usize::from((order >> 8) as u8);
        match order as u8 {
            _ if refusal != 0 => refused += 1,
            2 => {
                levels[depth + 1] = levels[depth];
                depth += 1;
            }
            3 => depth = argument - 1,
            _ => {}
        }
        let Some(now) = &mut levels[depth] else {
            continue;
        };
        if refusal == 0 && order as u8 == 1 {
            engine.narrow(now, argument, (order >> 32) as u32);
        }
        *shown = now.shown(refusal);
        if refusal == 0 && order as u8 == 4 {
            shown.domains = engine.first_set(&now.state);
        }
    }
    orders.len() as u64 - refused
}

fn refusal_of(book: &Book, depth: usize, order: u64) -> u8 {
    let argument = usize::from((order >> 8) as u8);
    match order as u8 {
        1 if (order >> 16) as u16 != 0 => 25,
        1 if argument >= usize::from(book.head[4]) => 21,
        1 if (order >> 32) >> book.head[8 + argument] != 0 => 22,
        2 if order != 2 => 25,
        2 if depth == 16 => 23,
        3 if order >> 16 != 0 => 25,
        3 if argument == 0 || argument > depth => 24,
        4 if order != 4 => 25,
        1..=4 => 0,
        _ => 20,
    }
}
