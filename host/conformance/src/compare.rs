//! The library, or calls in its place, against the reference: the numbers, every byte of the space,
//! and what lies around.

use crate::{space_for, spelled, write, Book, Order, Seen};

/// The two calls.
#[derive(Clone, Copy, Debug)]
pub struct Calls {
    /// Checks a book.
    pub check: fn(&[u8]) -> u64,
    /// Runs a list.
    pub run: fn(&[u8], &[u8], &mut [u8]) -> u64,
}

/// The proved library's.
pub const LIBRARY: Calls = Calls {
    check: fitting::check_number,
    run: fitting::run_number,
};

/// The bytes in front of everything that the library is lent, and after it. An odd number, so that
/// nothing lies on a boundary.
pub const FENCE: usize = 97;

/// The number that the library and the reference both give; they must give the same.
pub fn agreed(book: &[u8]) -> u64 {
    told(compare(&LIBRARY, book))
}

/// The number and the space, of so many bytes, that the library and the reference both give for
/// these orders over this book; they must give the same.
pub fn agreed_run(book: &[u8], orders: &[u8], space: usize) -> (u64, Vec<u8>) {
    told(compare_run(&LIBRARY, &[FENCE], book, orders, space))
}

/// What the answers to these orders show, the opening first; the library and the reference must give the same.
pub fn agreed_answers(book: &Book, orders: &[Order]) -> Vec<Seen> {
    let orders = orders.concat();
    let (number, space) = agreed_run(&write(book), &orders, space_for(&orders));
    assert!(number < 65_536, "the run is refused");
    Seen::read_all(&space)
}

fn told<T>(result: Result<T, String>) -> T {
    result.unwrap_or_else(|difference| panic!("{difference}"))
}

/// The number of the reference for this book, if the call gives the same.
pub fn compare(calls: &Calls, book: &[u8]) -> Result<u64, String> {
    let expected = reference::check(book);
    let given = (calls.check)(book);
    same("check", given, expected)
}

/// The number and the space of the reference, if the call gives the same with fences of each of
/// these lengths around what it is lent. A refused run must leave the space as it was, and any run
/// the book, the orders and the fences.
pub fn compare_run(
    calls: &Calls,
    fences: &[usize],
    book: &[u8],
    orders: &[u8],
    space: usize,
) -> Result<(u64, Vec<u8>), String> {
    let untouched = before(space, 3);
    let mut expected = untouched.to_vec();
    let number = reference::run(book, orders, &mut expected);
    if number >= 65_536 && *expected != *untouched {
        return Err("the reference's refused run touched the space".into());
    }
    for &fence in fences {
        let [mut lent_book, mut lent_orders, mut lent_space] =
            [(book, 1), (orders, 2), (&*untouched, 4)]
                .map(|(bytes, seed)| Lent::new(bytes, fence, seed));
        let given = (calls.run)(lent_book.bytes(), lent_orders.bytes(), lent_space.bytes());
        same("run", given, number)?;
        lent_space.holds(&expected, "answers")?;
        lent_book.holds(book, "book")?;
        lent_orders.holds(orders, "orders")?;
    }
    Ok((number, expected))
}

fn same(call: &str, given: u64, expected: u64) -> Result<u64, String> {
    if given == expected {
        return Ok(given);
    }
    let [given, expected] = [given, expected].map(spelled);
    Err(format!("{call} gives {given} and not {expected}"))
}

/// A copy of some bytes between two fences, which nobody may change. Without fences it is a piece of
/// the heap of exactly these bytes, and a step outside is one out of the piece.
struct Lent {
    memory: Box<[u8]>,
    fence: usize,
    seed: u8,
}

impl Lent {
    fn new(bytes: &[u8], fence: usize, seed: u8) -> Self {
        let mut memory = before(bytes.len() + 2 * fence, seed);
        memory[fence..fence + bytes.len()].copy_from_slice(bytes);
        Self {
            memory,
            fence,
            seed,
        }
    }

    fn bytes(&mut self) -> &mut [u8] {
        let end = self.memory.len() - self.fence;
        &mut self.memory[self.fence..end]
    }

    /// Whether these bytes are there now, and the fences around them as they were.
    fn holds(&mut self, expected: &[u8], what: &str) -> Result<(), String> {
        let given = self.bytes();
        if let Some(at) = (0..given.len()).find(|&at| given[at] != expected[at]) {
            let [given, expected] = [given[at], expected[at]];
            let place = format!("byte {at} of the {what}, 72 × {} + {}", at / 72, at % 72);
            return Err(format!("{place}: {given} and not {expected}"));
        }
        if self.memory != Self::new(expected, self.fence, self.seed).memory {
            return Err(format!("changed outside of the {what}"));
        }
        Ok(())
    }
}

/// So many bytes that are there before a call; none is zero, as most of an answer are.
fn before(length: usize, seed: u8) -> Box<[u8]> {
    (0..length)
        .map(|i| (i as u8).wrapping_mul(37).wrapping_add(seed) | 0x40)
        .collect()
}
