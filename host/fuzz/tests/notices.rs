//! The comparison notices a library that is wrong in one thing.

use conformance::{example_orders, harbour, write, Calls, LIBRARY};
use fuzz::{compare, described, raw, Input};

fn harbour_run() -> Input {
    Input::read(&described(&harbour(), &example_orders().concat()))
}

/// What is said about these calls.
fn noticed(input: &Input, calls: Calls) -> String {
    compare(input, &calls).expect_err("a difference")
}

#[test]
fn the_library_agrees() {
    let (checked, ran, answers) = compare(&harbour_run(), &LIBRARY).unwrap();
    assert_eq!((checked, ran, answers.len()), (50, 5, 7 * 72));
}

#[test]
fn a_wrong_number() {
    let mut spoilt = write(&harbour());
    spoilt[600] ^= 1;
    let refused = Input::read(&raw(0, &spoilt, &[]));
    let check = |book: &[u8]| fitting::check_number(book) + 1;
    let run =
        |book: &[u8], orders: &[u8], space: &mut [u8]| fitting::run_number(book, orders, space) + 1;
    let wrong_check = Calls { check, ..LIBRARY };
    let said = noticed(&harbour_run(), wrong_check);
    assert_eq!(said, "check gives accepted 51 and not accepted 50");
    let said = noticed(&refused, wrong_check);
    assert!(said.ends_with("refusal 2, place 2 and not refusal 2, place 1"));
    let said = noticed(&harbour_run(), Calls { run, ..LIBRARY });
    assert_eq!(said, "run gives accepted 6 and not accepted 5");
}

/// Every byte of every answer counts, and those behind the answers too.
#[test]
fn a_wrong_byte_anywhere() {
    const ANSWERS: usize = 7 * 72;
    for at in 0..ANSWERS + 3 {
        // A plain function can't hold the place, so the length of the space tells it.
        let mut input = harbour_run();
        input.space = ANSWERS + at + 1;
        let run = |book: &[u8], orders: &[u8], space: &mut [u8]| {
            let number = fitting::run_number(book, orders, space);
            space[space.len() - ANSWERS - 1] ^= 1;
            number
        };
        touched(&input, run, at);
    }
}

#[test]
fn a_touched_space_of_a_refused_run() {
    let mut input = harbour_run();
    input.space -= 1;
    let run = |book: &[u8], orders: &[u8], space: &mut [u8]| {
        space[0] = 0;
        fitting::run_number(book, orders, space)
    };
    touched(&input, run, 0);
}

/// It is said that such a run has another byte at this place of the space.
fn touched(input: &Input, run: fn(&[u8], &[u8], &mut [u8]) -> u64, at: usize) {
    let said = noticed(input, Calls { run, ..LIBRARY });
    assert!(said.starts_with(&format!("byte {at} of the answers, ")));
}
