//! An independent version of the two calls, the check of a book and the run of a list, written from
//! document 01, from document 02's requests that have landed (W1, W2, W3, W4, W6) and the readings of both in
//! `docs/DECISIONS.md`, and from nothing else.
//!
//! It is meant to be read beside these documents: each piece stands under the sentence that it
//! states, and a sentence that a request replaces isn't there any more. Where slow is plainer it is
//! slow, and it shares nothing with any other crate.

#![forbid(unsafe_code)]

mod answers;
mod book;
mod cells;
mod choices;
mod closure;
mod finish;
mod head;
mod orders;
mod rows;
mod run;
mod session;
#[cfg(test)]
mod tests;

pub use book::{decode, Book, Sheet};
pub use cells::{is_short, lies_in, written_out, ANY};
pub use choices::{allows, turned};
pub use closure::closure;
pub use finish::search;
pub use orders::{all_values, limit_of, Kind, Order, MOST_TRIES};
pub use rows::{fallen_rows, row_faults, RowFault};
pub use run::{printed, run, run_refusals, space_for};
pub use session::{session, Outcome, Shown};

use std::ops::RangeInclusive;

/// "A book is 1 to 33 blocks of 512 bytes."
pub const BLOCK: usize = 512;

/// "Bytes 508 to 511 of block b are its check": a block holds 127 rows of 4 bytes before it.
pub const ROWS_OF_A_BLOCK: usize = 127;

/// A refusal of a book, its place if it applies, and the places that it can have.
type Cause = (u64, fn(&[u8]) -> Option<usize>, &'static [Places]);

type Places = RangeInclusive<usize>;

/// Every cause but those of the rows, from the lowest number on; each may go by it that those before
/// don't apply.
const CAUSES: &[Cause] = &[
    (1, wrong_length, &[0..=0]),
    (2, wrong_check, &[0..=32]),
    (3, head::wrong_field, &[0..=0, 4..=507]),
    (4, wrong_block_count, &[1..=33]),
];

/// The refusals of a book, each with every place that it can have.
pub fn book_refusals() -> Vec<(u64, Vec<usize>)> {
    let every = |places: &[Places]| places.iter().cloned().flatten().collect();
    let causes = CAUSES.iter();
    let before_rows = causes.map(|&(refusal, _, places)| (refusal, every(places)));
    before_rows.chain(rows::refusals()).collect()
}

/// "Each call returns one 64-bit number: refusal × 65,536 + place, or the accepted figure."
pub fn check(book: &[u8]) -> u64 {
    match refusal(book) {
        Some((number, place)) => number * 65_536 + place as u64,
        // "Accepted: C × 16 + S."
        None => head::columns(book) as u64 * 16 + head::sheets(book) as u64,
    }
}

/// "Where several apply, the lowest of these numbers is given." The number and the place. Of 5 and 6 it
/// is the one that comes first in the file.
fn refusal(book: &[u8]) -> Option<(u64, usize)> {
    let mut causes = CAUSES.iter();
    let before_rows = causes.find_map(|(number, place, _)| Some((*number, place(book)?)));
    before_rows.or_else(|| rows::refusal(book))
}

/// "1 if the length isn't a multiple of 512 from 512 to 16,896, place 0"
fn wrong_length(book: &[u8]) -> Option<usize> {
    let length = book.len();
    let right = length.is_multiple_of(512) && (512..=16_896).contains(&length);
    (!right).then_some(0)
}

/// "2 if a check is wrong, place the lowest such block"
fn wrong_check(book: &[u8]) -> Option<usize> {
    let mut blocks = book.chunks_exact(BLOCK).enumerate();
    let wrong =
        |(b, block): &(usize, &[u8])| number_at(block, 508) != right_check(block, *b).into();
    blocks.find(wrong).map(|(b, _)| b)
}

/// "Bytes 508 to 511 of block b are its check: the sum of the 127 32-bit numbers in bytes 0 to
/// 507, plus b + 1. The sum leaves out every carry past 32 bits."
pub fn right_check(block: &[u8], b: usize) -> u32 {
    let numbers = (0..127).map(|i| number_at(block, 4 * i));
    let sum = numbers.sum::<u64>() + b as u64 + 1;
    (sum % 4_294_967_296) as u32
}

/// "fields of several bytes have the lowest byte first": the 32-bit number at this offset.
fn number_at(block: &[u8], offset: usize) -> u64 {
    let byte = |i: usize| u64::from(block[offset + i]);
    byte(0) + 256 * byte(1) + 65_536 * byte(2) + 16_777_216 * byte(3)
}

/// "4 if the blocks aren't 1 plus those of the sheets, place the number needed"
fn wrong_block_count(book: &[u8]) -> Option<usize> {
    let sheets = (0..head::sheets(book)).map(|s| blocks_of(&head::entry(book, s)));
    let needed = 1 + sheets.sum::<usize>();
    (book.len() / BLOCK != needed).then_some(needed)
}

/// "Each sheet in turn then has as many blocks as n / 127 rounded up."
fn blocks_of(entry: &head::Entry) -> usize {
    entry.rows.div_ceil(ROWS_OF_A_BLOCK)
}
