//! The typed run: a list in, answers out. That the answers say what the bytes say is compared by
//! `conformance/tests/typed.rs`, on seeded runs.

use conformance::{harbour, tiny, write, Book, Sheet, BOARD, MOTOR, WIDTH};
use fitting::{
    check, run, space_for, Answer, Order, OrderList, OrderRefusal, Outcome, Refusal, Space, Values,
};
use std::num::NonZeroU16;

/// The answers are the space itself, by every way to them, and what is not there is not found.
#[test]
fn answers_lie_in_the_space() -> Result<(), Refusal> {
    let mut list = OrderList::new();
    list.narrow(WIDTH, Values::from_mask(2))?.finish()?;
    let mut space = [9; space_for(2) + 3];
    let answers = run(&write(&harbour()), &list, &mut space)?;
    let all = [0, 1, 2].map(|number| answers.get(number).unwrap());
    assert!(answers.iter().eq(all));
    assert!(answers.into_iter().rev().eq([all[2], all[1], all[0]]));
    assert_eq!([answers.opening(), answers.last()], [all[0], all[2]]);
    assert_eq!([3, usize::MAX].map(|number| answers.get(number)), [None; 2]);
    assert_eq!(all.map(|answer| answer.done()), [0, 1, 1]);
    for sheet in [0, 1, 7, 8, 64, usize::MAX] {
        let done = all.map(|answer| answer.is_done(sheet));
        assert_eq!(done, [false, sheet == 0, sheet == 0]);
    }
    let bytes = all.map(|answer| *answer.bytes());
    assert_eq!(space[..216], *bytes.as_flattened());
    assert_eq!(space[216..], [9; 3]);
    Ok(())
}

/// Every length that a list can have, with the space that it needs and with one byte less.
#[test]
fn lists_and_spaces() -> Result<(), Refusal> {
    let bytes = write(&tiny());
    let mut whole = Space::new();
    let mut list = OrderList::new();
    for count in 0..=OrderList::MOST {
        let answers = check(&bytes)?.run(&list, &mut whole);
        let found = (answers.iter().len(), answers.accepted());
        assert_eq!(found, (count + 1, count.min(16)));
        let mut space = vec![9; space_for(count)];
        let needed = space.len() as u16;
        let short = run(&bytes, &list, &mut space[1..]);
        assert_eq!(short, Err(Refusal::Space { needed }));
        assert_eq!(run(&bytes, &list, &mut space), Ok(answers));
        let full = list.push(Order::Mark).is_err();
        assert_eq!(full, count == OrderList::MOST);
    }
    assert_eq!(space_for(usize::MAX), usize::MAX);
    Ok(())
}

#[test]
fn answers_show_themselves() -> Result<(), Refusal> {
    let bytes = write(&harbour());
    let mut list = OrderList::new();
    list.narrow(WIDTH, Values::from_mask(8))?;
    let mut space = Space::new();
    let answers = check(&bytes)?.run(&list, &mut space);
    let [opening, last] = ["None", "Some(Mask)"].map(|refusal| {
        format!(
            "Answer {{ refusal: {refusal}, status: Open, depth: 0, outcome: None, tries: None, done: 0, \
             domains: [{{0, 1, 2}}, {{0, 1}}, {{0, 1}}] }}"
        )
    });
    assert_eq!(format!("{answers:?}"), format!("[{opening}, {last}]"));
    assert_eq!(format!("{space:?}"), "Space { .. }");
    Ok(())
}

/// The harbour book with a forbidden sheet 1 of these rows.
fn forbidding(rows: &[[u8; 2]]) -> Vec<u8> {
    let mut book = harbour();
    book.sheets[1].forbidden = true;
    book.sheets[1].rows = rows.iter().map(|row| row.to_vec()).collect();
    write(&book)
}

/// The rows of sheet 1 say that motor 1 doesn't go with board 0. Said so, in a forbidden sheet of one row, the book allows
/// the same, and every answer is the same.
#[test]
fn a_forbidden_pair() -> Result<(), Refusal> {
    let mut list = OrderList::new();
    list.finish()?.mark()?.narrow(BOARD, Values::from_mask(1))?;
    list.finish()?
        .back(1)?
        .narrow(WIDTH, Values::from_mask(4))?;
    list.narrow(MOTOR, Values::from_mask(1))?.finish()?;
    let [plain, forbidden] = [write(&harbour()), forbidding(&[[1, 0]])];
    let [mut one, mut other] = [Space::new(), Space::new()];
    let expected = check(&plain)?.run(&list, &mut one);
    assert_eq!(check(&forbidden)?.run(&list, &mut other), expected);
    Ok(())
}

/// "no rows forbid nothing": then the sheet is done at the opening. With every combination forbidden the book allows
/// nothing.
#[test]
fn forbidden_sheets_of_no_rows_and_of_all() -> Result<(), Refusal> {
    let all = [[0, 0], [0, 1], [1, 0], [1, 1]];
    for (rows, done, domains) in [
        (0, [false, true], [7, 3, 3]),
        (1, [false; 2], [7, 3, 3]),
        (2, [true; 2], [6, 2, 3]),
        (3, [true; 2], [6, 2, 2]),
        (4, [false; 2], [0; 3]),
    ] {
        let bytes = forbidding(&all[..rows]);
        let mut space = Space::new();
        let opening = check(&bytes)?.run(&OrderList::new(), &mut space).opening();
        assert!(opening.domains().map(Values::mask).eq(domains), "{rows}");
        assert_eq!([0, 1].map(|sheet| opening.is_done(sheet)), done, "{rows}");
    }
    Ok(())
}

/// What a finish says: its outcome, its tries and its full set.
type Said = (Option<Outcome>, Option<u16>, Option<Vec<u8>>);

/// Runs a finish with each of these limits at the opening.
fn finished(book: &Book, limits: &[u16]) -> Vec<Said> {
    let bytes = write(book);
    let limit = |&limit| NonZeroU16::new(limit).expect("a limit is above 0");
    let orders = limits.iter().map(limit);
    let list = OrderList::of(orders.map(|limit| Order::FinishWithin { limit })).expect("few");
    let mut space = Space::new();
    let answers = check(&bytes).expect("a right book").run(&list, &mut space);
    assert_eq!(answers.accepted(), limits.len());
    let said = |it: Answer| {
        (
            it.outcome(),
            it.tries(),
            it.full_set().map(Iterator::collect),
        )
    };
    answers.iter().skip(1).map(said).collect()
}

/// "Byte 3 is 3, stopped, exactly when the answer needs more tries than the limit": harbour H needs 2, and no
/// larger limit changes what is found.
#[test]
fn a_finish_within_its_limit() {
    let stopped = (Some(Outcome::Stopped), Some(1), None);
    let found = (Some(Outcome::Found), Some(2), Some(vec![0, 0, 0]));
    let said = finished(&harbour(), &[1, 2, 3, 65_535]);
    assert_eq!(said, [stopped, found.clone(), found.clone(), found]);
}

/// K7 needs 2 tries, both of them dead: stopped is not none, and the last try may tell that there is none.
#[test]
fn none_within_its_limit() {
    let pair = |columns: [u8; 2]| Sheet {
        forbidden: false,
        columns: columns.to_vec(),
        rows: vec![vec![0, 1], vec![1, 0]],
    };
    let k7 = Book {
        counts: vec![2; 3],
        sheets: [[0, 1], [0, 2], [1, 2]].map(pair).to_vec(),
    };
    let none = (Some(Outcome::None), Some(2), None);
    let stopped = (Some(Outcome::Stopped), Some(1), None);
    let said = finished(&k7, &[1, 2, 65_535]);
    assert_eq!(said, [stopped, none.clone(), none]);
}

/// A dead session has none and a decided one its set without a try; a finish that names no limit has the
/// largest, and one that names a larger is refused. No answer but an accepted finish's has tries.
#[test]
fn tries_of_finishes_alone() -> Result<(), Refusal> {
    let bytes = write(&harbour());
    let mut list = OrderList::new();
    list.finish()?.push(Order::Raw([4, 0, 0, 0, 0, 0, 1, 0]))?;
    list.mark()?.narrow(WIDTH, Values::from_mask(4))?.finish()?;
    list.narrow(WIDTH, Values::NONE)?.finish()?.back(1)?;
    let mut space = Space::new();
    let answers = check(&bytes)?.run(&list, &mut space);
    let tries = [
        None,
        Some(2),
        None,
        None,
        None,
        Some(0),
        None,
        Some(0),
        None,
    ];
    assert!(answers.iter().map(|it| it.tries()).eq(tries));
    let outcomes = answers.iter().filter_map(|it| it.outcome());
    assert!(outcomes.eq([Outcome::Found, Outcome::Found, Outcome::None]));
    assert!(answers.refused().eq([(2, OrderRefusal::Limit)]));
    assert!(answers.iter().all(|it| it.bytes()[5] == 0));
    let without = answers.iter().filter(|it| it.outcome().is_none());
    assert!(without.into_iter().all(|it| it.bytes()[6..8] == [0, 0]));
    Ok(())
}
