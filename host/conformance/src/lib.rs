//! The proved library against the independent version of the documents.
//!
//! [`write()`] turns a described [`Book`] into bytes with right checks; [`row_bytes`] says what those
//! of its rows may be; [`Region`] damages them; [`Case`] is one seeded input; [`agreed`] compares the
//! two answers. [`Run`] is a seeded book with a list of orders and a space for the answers;
//! [`agreed_run`] compares the two runs of it. [`twin`] is a book with its short rows written out,
//! [`turned_over`] a sheet as one of the other kind, and [`Twins`] compares the runs of such two books. The
//! tests of this crate are the comparison itself.
//! [`kit`] is the conformance kit for other people's software, and [`wrong`] is wrong software to try
//! the kit on.

#![forbid(unsafe_code)]

mod books;
mod case;
mod compare;
mod covers;
mod done;
mod forbidden;
mod forbidding;
pub mod kit;
mod limits;
mod orders;
mod program;
mod random;
mod region;
mod rows;
mod run;
mod searching;
mod seen;
mod short;
mod steps;
mod tally;
mod tries;
mod twins;
mod write;
pub mod wrong;

pub use books::{any_book, harbour, last_four_forbidden, one_forbidden, one_large_column};
pub use books::{one_of_each, one_sheet, plant, regular, tiny, BOARD, MOTOR, WIDTH};
pub use case::{Case, Mend};
pub use compare::{agreed, agreed_answers, agreed_run, compare, compare_run};
pub use compare::{Calls, FENCE, LIBRARY};
pub use covers::stairs;
pub use done::{count_done, look_for_done};
pub use forbidden::{count_forbidden, has_forbidden, look_for_forbidden};
pub use forbidding::turned_over;
pub use orders::{any_list, back, every_mask, example_orders, finish, narrow, searches};
pub use orders::{FINISH, MARK, NO_KIND};
pub use program::{program, Folder};
pub use random::Random;
pub use reference::{all_values, space_for, Book, Order, Sheet, ANY, BLOCK, ROWS_OF_A_BLOCK};
pub use region::Region;
pub use rows::{rising_rows, row_bytes, RowByte};
pub use run::{Run, Shape};
pub use searching::{contradicting, tries_of_contradicting};
pub use seen::Seen;
pub use short::{count_short, has_short_rows, twin};
pub use steps::{count_steps, look_for_steps};
pub use tally::Tally;
pub use tries::{count_tries, look_for_tries};
pub use twins::Twins;
pub use write::{changed, mend, mend_block, write, FORBIDDEN, LONGEST};

use std::io::Write;

/// How many inputs are tried: the usual number, or more if this variable of the environment asks for it.
pub fn asked(variable: &str, usual: u64) -> u64 {
    let asked = std::env::var(variable).ok();
    let asked = asked.map(|number| number.parse().expect("a number of inputs"));
    asked.unwrap_or(usual).max(usual)
}

/// Writes straight to standard error, so that it is seen when a test passes too.
pub fn show(text: &str) {
    let _ = writeln!(std::io::stderr().lock(), "\n{text}");
}

/// refusal × 65,536 + place
pub fn refused(refusal: u64, place: usize) -> u64 {
    refusal * 65_536 + place as u64
}

/// A number as words, for messages.
pub fn spelled(number: u64) -> String {
    match (number / 65_536, number % 65_536) {
        (0, figure) => format!("accepted {figure}"),
        (refusal, place) => format!("refusal {refusal}, place {place}"),
    }
}
