//! Seeded books, lists of orders and spaces: the library and the reference run them alike, and every
//! byte of every answer is the same.
//!
//! `FITTING_SESSIONS` asks for more of them than the usual number.

use conformance::{agreed_run, asked, show, space_for};
use conformance::{count_done, count_forbidden, count_short, count_steps, count_tries};
use conformance::{look_for_done, look_for_forbidden, look_for_steps, look_for_tries};
use conformance::{Random, Run, Seen, Shape::*, Tally};
use reference::{book_refusals, run_refusals};
use std::panic;

/// What both give; a difference is told with the seed.
fn agreed(seed: u64, run: &Run) -> (u64, Vec<u8>) {
    let both = || agreed_run(&run.book, &run.orders, run.space);
    panic::catch_unwind(both).unwrap_or_else(|cause| {
        show(&format!("seed {seed}: {:?}", run.shape));
        panic::resume_unwind(cause)
    })
}

/// Counts the run of this seed; gives its answers, none if it is refused.
fn answers(seed: u64, tally: &mut Tally) -> Vec<Seen> {
    let run = Run::new(seed);
    let (number, space) = agreed(seed, &run);
    let refusal = number / 65_536;
    tally.add(&format!("books: {:?}", run.shape), 1);
    tally.add(&format!("runs, refusal {refusal}"), 1);
    let (bytes, needed) = (run.orders.len(), space_for(&run.orders));
    for (words, holds) in [
        ("lists without an order", refusal == 0 && bytes == 0),
        ("lists of 256", refusal == 0 && bytes == 2_048),
        ("lists that are too long", refusal == 10 && bytes > 2_048),
        ("ragged lists", refusal == 10 && bytes % 8 != 0),
        (
            "spaces short by one",
            refusal == 11 && run.space + 1 == needed,
        ),
        ("exact spaces", refusal == 0 && run.space == needed),
        ("long spaces", refusal == 0 && run.space > needed),
    ] {
        tally.add(words, holds.into());
    }
    if refusal > 0 {
        return Vec::new();
    }
    let answers = Seen::read_all(&space[..needed]);
    let accepted = answers[1..].iter().filter(|answer| answer.refusal == 0);
    assert_eq!(accepted.count() as u64, number, "seed {seed}");
    prefix_runs_alike(seed, &run, &space);
    let book = reference::decode(&run.book).expect("an accepted book");
    let orders = run.orders.as_chunks().0;
    count_steps(tally, &book.counts, orders, &answers);
    count_short(tally, &book, &answers);
    count_done(tally, &book, orders, &answers);
    count_tries(tally, &book, orders, &answers);
    count_forbidden(tally, &book, orders, &answers);
    answers
}

/// The first orders alone get the first answers.
fn prefix_runs_alike(seed: u64, run: &Run, space: &[u8]) {
    let length = Random::new(seed).within(0..=run.orders.len() / 8);
    let orders = &run.orders[..8 * length];
    let mut prefix = vec![0xEE; space_for(orders)];
    let number = fitting::run_number(&run.book, orders, &mut prefix);
    assert!(number < 65_536, "seed {seed}, {length} orders");
    let same = prefix == space[..prefix.len()];
    assert!(same, "seed {seed}, {length} orders");
}

#[test]
fn every_run_agrees() {
    let mut tally = Tally::default();
    look_for_steps(&mut tally);
    look_for_done(&mut tally);
    look_for_tries(&mut tally);
    look_for_forbidden(&mut tally);
    let books = book_refusals().into_iter().map(|(refusal, _)| refusal);
    for refusal in books.chain(run_refusals()).chain([0]) {
        tally.add(&format!("runs, refusal {refusal}"), 0);
    }
    for shape in [
        Tiny, Small, Ring, Differing, Covering, Forbidding, Searching, Any, Largest, Damaged,
    ] {
        tally.add(&format!("books: {shape:?}"), 0);
    }
    let seeds = 0..asked("FITTING_SESSIONS", 100_000);
    let runs = seeds.end;
    let answers: usize = seeds.map(|seed| answers(seed, &mut tally).len()).sum();
    show(&format!(
        "{runs} seeded runs, library and reference agree in every byte of {answers} answers\n\n{tally}"
    ));
    tally.assert_each_above(250);
}
