//! One input given to the library and to the independent version.

use crate::Input;
use conformance::{
    compare_run, count_done, count_forbidden, count_short, count_steps, count_tries, space_for,
    Calls, Seen, Tally, FENCE, LIBRARY,
};

/// Compares both versions on the input that these bytes stand for, and counts it. A difference
/// panics.
pub fn try_bytes(bytes: &[u8], tally: &mut Tally) {
    let input = Input::read(bytes);
    let agreed = compare(&input, &LIBRARY);
    let (checked, ran, answers) = agreed.unwrap_or_else(|difference| panic!("{difference}"));
    tally.add("inputs tried", 1);
    if input.shortened > 0 {
        tally.add("finishes with a smaller limit", input.shortened);
    }
    tally.add(&format!("books, refusal {}", checked / 65_536), 1);
    tally.add(&format!("runs, refusal {}", ran / 65_536), 1);
    if ran < 65_536 {
        let book = reference::decode(&input.book).expect("an accepted book");
        let (orders, answers) = (input.orders.as_chunks().0, Seen::read_all(&answers));
        count_steps(tally, &book.counts, orders, &answers);
        count_short(tally, &book, &answers);
        count_done(tally, &book, orders, &answers);
        count_tries(tally, &book, orders, &answers);
        count_forbidden(tally, &book, orders, &answers);
    }
}

/// Compares these calls with the independent version, first between fences, then on memory of
/// exactly the bytes that they are lent. Gives the numbers of the check and of the run, and the
/// answers; none if the run is refused.
pub fn compare(input: &Input, calls: &Calls) -> Result<(u64, u64, Vec<u8>), String> {
    let book: Box<[u8]> = (*input.book).into();
    let checked = conformance::compare(calls, &book)?;
    let (ran, mut answers) = compare_run(calls, &[FENCE, 0], &book, &input.orders, input.space)?;
    let accepted = usize::from(ran < 65_536);
    answers.truncate(accepted * space_for(&input.orders));
    Ok((checked, ran, answers))
}
