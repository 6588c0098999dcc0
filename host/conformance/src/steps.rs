//! Counts of what the orders of many runs did, by what the answers show.

use crate::seen::values;
use crate::{Order, Seen, Tally};
use reference::Kind;

const STATUS: [&str; 3] = ["dead", "open", "decided"];

/// Looks for each status, each number of done sheets, and each kind of order with each of its refusals.
pub fn look_for_steps(tally: &mut Tally) {
    for status in STATUS {
        tally.add(&format!("openings: {status}"), 0);
        tally.add(&format!("orders that left it {status}"), 0);
    }
    for sheets in 0..=8 {
        tally.add(&format!("orders that left {sheets} sheets done"), 0);
    }
    for kind in Kind::ALL {
        let accepted = (kind != Kind::Other).then_some(0);
        for refusal in accepted.into_iter().chain(kind.refusals()) {
            tally.add(&ordered(kind, refusal), 0);
        }
    }
}

fn ordered(kind: Kind, refusal: u8) -> String {
    match refusal {
        0 => format!("{kind:?}, accepted"),
        _ => format!("{kind:?}, refusal {refusal}"),
    }
}

/// Counts one run: its orders, and the answers to them, the opening first. `counts` has the number
/// of values of each column.
pub fn count_steps(tally: &mut Tally, counts: &[u8], orders: &[Order], answers: &[Seen]) {
    let states = Seen::states(answers);
    let opening = &states[0];
    tally.add(
        &format!("openings: {}", STATUS[usize::from(opening.status)]),
        1,
    );
    if !opening.is_dead() {
        let all: usize = counts.iter().map(|&count| usize::from(count)).sum();
        tally.add("values struck at openings", all - values(&opening.domains));
    }
    for ((order, answer), state) in orders.iter().zip(&answers[1..]).zip(states.windows(2)) {
        if answer.outcome != 0 {
            finish(tally, &state[0], answer);
        }
        step(tally, order, &state[0], &state[1]);
    }
}

fn finish(tally: &mut Tally, before: &Seen, answer: &Seen) {
    let lowest = before.domains.map(|domain| domain & domain.wrapping_neg());
    let [found, none] = [1, 2].map(|outcome| answer.outcome == outcome);
    let dead = before.is_dead();
    for (words, holds) in [
        (
            "finishes with the lowest values",
            found && answer.domains == lowest,
        ),
        ("finishes with others", found && answer.domains != lowest),
        ("finishes without a set, alive", none && !dead),
        ("finishes without a set, dead", none && dead),
    ] {
        tally.add(words, holds.into());
    }
}

fn step(tally: &mut Tally, order: &Order, before: &Seen, after: &Seen) {
    let kind = Kind::of(order);
    tally.add(&ordered(kind, after.refusal), 1);
    tally.add(
        &format!("orders that left it {}", STATUS[usize::from(after.status)]),
        1,
    );
    tally.add(
        &format!("orders that left {} sheets done", after.done.count_ones()),
        1,
    );
    let (was_dead, is_dead) = (before.is_dead(), after.is_dead());
    for (words, holds) in [
        ("orders at depth 16", after.depth == 16),
        ("sessions made dead", !was_dead && is_dead),
        ("sessions revived", was_dead && !is_dead),
    ] {
        tally.add(words, holds.into());
    }
    if was_dead || is_dead {
        return;
    }
    let mut kept = before.domains;
    for (kept, after) in kept.iter_mut().zip(after.domains) {
        *kept &= after;
    }
    tally.add("values revived", values(&after.domains) - values(&kept));
    if after.refusal == 0 && kind == Kind::Narrow {
        let mask = u32::from_le_bytes([order[4], order[5], order[6], order[7]]);
        let taken = before.domains[usize::from(order[1])] & !mask;
        let taken = taken.count_ones() as usize;
        tally.add("values taken by masks", taken);
        tally.add(
            "values struck because of it",
            values(&before.domains) - values(&kept) - taken,
        );
    }
}
