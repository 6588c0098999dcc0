//! Fuzzing of the two calls: any bytes are an input, and on each the library and the independent
//! version must give the same numbers and the same space.
//!
//! [`Input`] makes a book, a list of orders and the length of a space out of a fuzzer's bytes;
//! [`compare`] runs both versions on it. The script `run` beside
//! this crate links `boundary` with libFuzzer; the program of this crate writes the first inputs
//! and goes through saved ones again.

#![deny(unsafe_code)]

mod boundary;
mod compare;
mod finish;
mod input;
mod seeds;

pub use boundary::{check_null, run_nulls, run_one_too_long, stack_used};
pub use compare::{compare, try_bytes};
pub use finish::shorten_finishes;
pub use input::{described, described_by_seed, raw, Input, DESCRIBED, LONGEST_INPUT, MENDED};
pub use seeds::seeds;
