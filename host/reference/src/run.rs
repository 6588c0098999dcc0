//! The call that runs a list, and the lines that the program prints of it.

use crate::answers::answer;
use crate::session::session;
use crate::{check, decode, number_at};

/// "answer i is written into bytes 72 × i to 72 × i + 71"
const ANSWER: usize = 72;

/// A refusal of a run, and its place if it applies to these orders and a space of so many bytes.
type Cause = (u64, fn(&[u8], usize) -> Option<usize>);

/// The causes after "Refused as a book is", in the order in which they are written.
const CAUSES: &[Cause] = &[
    // "then 10 if the orders aren't a multiple of 8 bytes or exceed 2,048 bytes, place 0"
    (10, |orders, _| {
        let right = orders.len().is_multiple_of(8) && orders.len() <= 2_048;
        (!right).then_some(0)
    }),
    // "11 if the answer space is shorter than 72 × (n + 1) for n orders, place that many bytes"
    (11, |orders, space| {
        let needed = space_for(orders);
        (space < needed).then_some(needed)
    }),
];

/// The refusals that a run has beside the book's.
pub fn run_refusals() -> Vec<u64> {
    CAUSES.iter().map(|&(refusal, _)| refusal).collect()
}

/// "72 × (n + 1) for n orders": the bytes that the answers to these orders need.
pub fn space_for(orders: &[u8]) -> usize {
    ANSWER * (orders.len() / 8 + 1)
}

/// "Run a list." "Each call returns one 64-bit number: refusal × 65,536 + place, or the accepted
/// figure."
pub fn run(book: &[u8], orders: &[u8], answers: &mut [u8]) -> u64 {
    // "Refused as a book is"
    let Some(described) = decode(book) else {
        return check(book);
    };
    for (number, place) in CAUSES {
        if let Some(place) = place(orders, answers.len()) {
            return number * 65_536 + place as u64;
        }
    }
    // "Answer 0 is the opening"; "Later bytes of the space are untouched."
    let shown = session(&described, orders.as_chunks().0);
    for (i, shown) in shown.iter().enumerate() {
        answers[ANSWER * i..ANSWER * (i + 1)].copy_from_slice(&answer(&described, shown));
    }
    // "Accepted: the number of accepted orders."
    let after_orders = shown[1..].iter();
    after_orders.filter(|shown| shown.refusal == 0).count() as u64
}

/// What the program prints for this book and these orders, every line with its newline. "Last line:
/// accepted and the count; a refused run prints only: refused, number, place."
pub fn printed(book: &[u8], orders: &[u8]) -> String {
    let mut answers = vec![0; space_for(orders)];
    let number = run(book, orders, &mut answers);
    if number >= 65_536 {
        return format!("refused {} {}\n", number / 65_536, number % 65_536);
    }
    let columns = usize::from(book[4]);
    let mut lines = String::new();
    for (i, answer) in answers.chunks_exact(ANSWER).enumerate() {
        lines += &line(i, answer, columns);
    }
    lines + &format!("accepted {number}\n")
}

/// "Each line: answer number, refusal, status, depth, done, byte 3, the C domains, with one space
/// between fields."
fn line(i: usize, answer: &[u8], columns: usize) -> String {
    let mut line = i.to_string();
    for byte in [0, 1, 2, 4, 3] {
        line += &format!(" {}", answer[byte]);
    }
    for column in 0..columns {
        line += &format!(" {}", number_at(answer, 8 + 4 * column));
    }
    line + "\n"
}
