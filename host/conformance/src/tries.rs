//! Finishes by their limits and their tries: how often a run has each sort.

use crate::{Order, Seen, Tally};
use reference::{limit_of, search, Book, Kind, MOST_TRIES};

/// What is counted of a finish, in words.
const WORDS: [&str; 16] = [
    "found within the limit, after tries",
    "none within the limit, after tries",
    "stopped",
    "stopped at limit 1",
    "stopped one try short",
    "found with exactly the tries of the limit",
    "none with exactly the tries of the limit",
    "one try to spare",
    "256 tries or more",
    "limit 0, after tries",
    "limit 65,535, after tries",
    "without a try, decided",
    "without a try, dead",
    "refused with 27",
    "refused with 27, limit 65,536",
    "refused with 25, where 27 applies too",
];

/// Looks for all of them.
pub fn look_for_tries(tally: &mut Tally) {
    for words in WORDS {
        tally.add(&counted(words), 0);
    }
}

fn counted(words: &str) -> String {
    format!("finishes, {words}")
}

/// Counts the finishes of one run by its answers, the opening first.
pub fn count_tries(tally: &mut Tally, book: &Book, orders: &[Order], answers: &[Seen]) {
    let states = Seen::states(answers);
    for (i, order) in orders.iter().enumerate() {
        if Kind::of(order) == Kind::Finish {
            let sorts = sorts_of(book, order, &answers[i + 1], &states[i]);
            for (words, holds) in WORDS.iter().zip(sorts) {
                tally.add(&counted(words), holds.into());
            }
        }
    }
}

/// Whether this finish is of each sort. The state before it is the one after it.
fn sorts_of(book: &Book, order: &Order, answer: &Seen, state: &Seen) -> [bool; WORDS.len()] {
    let limit = limit_of(order);
    let tries = u32::from(answer.tries);
    let [found, none, stopped] = [1, 2, 3].map(|outcome| answer.outcome == outcome);
    let [by_25, by_27] = [25, 27].map(|refusal| answer.refusal == refusal);
    let domains = &state.domains[..book.counts.len()];
    let one_more = || search(book, domains, limit + 1).is_some();
    [
        found && tries > 0,
        none && tries > 0,
        stopped,
        stopped && limit == 1,
        stopped && one_more(),
        found && tries == limit,
        none && tries == limit,
        (found || none) && tries > 0 && tries + 1 == limit,
        tries >= 256,
        order[4..] == [0; 4] && tries > 0,
        order[4..] == [255, 255, 0, 0] && tries > 0,
        found && tries == 0,
        none && tries == 0,
        by_27,
        by_27 && limit == MOST_TRIES + 1,
        by_25 && limit > MOST_TRIES,
    ]
}
