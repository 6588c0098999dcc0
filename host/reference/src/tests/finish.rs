//! Finishes and their tries, by hand.

use super::{described, described_harbour};
use crate::answers::answer;
use crate::{session, Book, Order};

/// A finish with these bytes after its kind: 1 to 3, and the limit.
fn finish([a, b, c]: [u8; 3], limit: u32) -> Order {
    let [d, e, f, g] = limit.to_le_bytes();
    [4, a, b, c, d, e, f, g]
}

/// The answer to the last of these orders.
fn last(book: &Book, orders: &[Order]) -> [u8; 72] {
    let shown = session(book, orders);
    answer(book, &shown[orders.len()])
}

/// Byte 0, byte 3, the tries, and the first three domains, of an answer whose other bytes show this
/// status.
fn read(answer: [u8; 72], status: u8) -> (u8, u8, u16, [u8; 3]) {
    assert_eq!((answer[1], answer[2], answer[5]), (status, 0, 0));
    assert!(answer[20..].iter().all(|&byte| byte == 0));
    let tries = u16::from(answer[6]) + 256 * u16::from(answer[7]);
    (
        answer[0],
        answer[3],
        tries,
        [answer[8], answer[12], answer[16]],
    )
}

/// What a finish of an open session with this limit gives after these orders.
fn limited(book: &Book, limit: u32) -> (u8, u8, u16, [u8; 3]) {
    read(last(book, &[finish([0; 3], limit)]), 1)
}

/// K7: "three columns of 2 values and a sheet 01 10 on each pair".
fn three_that_differ() -> Book {
    let differ: &[&[u8]] = &[&[0, 1], &[1, 0]];
    let sheets: [(&[u8], &[&[u8]]); 3] = [(&[0, 1], differ), (&[0, 2], differ), (&[1, 2], differ)];
    described(&[2, 2, 2], &sheets)
}

/// H at the opening: width 0 leaves motor 0 and both boards, and board 0 is the first full set. The
/// motor is single by then, and no try.
#[test]
fn two_tries_and_found() {
    let harbour = described_harbour();
    assert_eq!(limited(&harbour, 1), (0, 3, 1, [0; 3]));
    for limit in [2, 3, 65_535, 0] {
        assert_eq!(limited(&harbour, limit), (0, 1, 2, [1; 3]));
    }
}

/// K7: width 0 leaves 1 in both others, which differ not; the same with 1. Both tries are dead, and the
/// second is the last value.
#[test]
fn two_tries_and_none() {
    let book = three_that_differ();
    assert_eq!(limited(&book, 1), (0, 3, 1, [0; 3]));
    for limit in [2, 3, 65_535, 0] {
        assert_eq!(limited(&book, limit), (0, 2, 2, [0; 3]));
    }
}

/// "27 for a larger limit, after 25, which covers only bytes 1 to 3 here."
#[test]
fn limits_that_are_too_large() {
    let harbour = described_harbour();
    for limit in [65_536, 65_537, 131_072, 1 << 24, u32::MAX] {
        assert_eq!(limited(&harbour, limit), (27, 0, 0, [7, 3, 3]));
        for bytes in [[1, 0, 0], [0, 128, 0], [0, 0, 2]] {
            let refused = last(&harbour, &[finish(bytes, limit)]);
            assert_eq!(read(refused, 1), (25, 0, 0, [7, 3, 3]));
        }
    }
    let refused = last(&harbour, &[finish([0, 0, 1], 2)]);
    assert_eq!(read(refused, 1), (25, 0, 0, [7, 3, 3]));
}

/// Width 2 alone decides, and mask 0 leaves nothing: there is nothing to set.
#[test]
fn no_tries() {
    let harbour = described_harbour();
    for limit in [0, 1, 65_535] {
        let [decided, dead] = [4, 0].map(|mask| {
            let width = [1, 0, 0, 0, mask, 0, 0, 0];
            last(&harbour, &[width, finish([0; 3], limit)])
        });
        assert_eq!(read(decided, 2), (0, 1, 0, [4, 2, 2]));
        assert_eq!(read(dead, 0), (0, 2, 0, [0; 3]));
    }
}

/// Free columns of two values before K7's three: each doubles the tries and adds two, 6, 14 and so on, 510
/// with seven. None of these finds anything, and byte 7 of the answer carries the 256s.
#[test]
fn tries_that_double() {
    let differ: &[&[u8]] = &[&[0, 1], &[1, 0]];
    let sheets: [(&[u8], &[&[u8]]); 3] = [(&[7, 8], differ), (&[7, 9], differ), (&[8, 9], differ)];
    let book = described(&[2; 10], &sheets);
    for (limit, byte_3, tries) in [(0, 2, [254, 1]), (510, 2, [254, 1]), (509, 3, [253, 1])] {
        let shown = last(&book, &[finish([0; 3], limit)]);
        assert_eq!(
            (shown[0], shown[3], [shown[6], shown[7]]),
            (0, byte_3, tries)
        );
    }
}

/// A finish changes nothing: what comes after it, another one too, is as without it.
#[test]
fn the_state_stays() {
    let harbour = described_harbour();
    let board = [1, 2, 0, 0, 1, 0, 0, 0];
    let [stopped, refused, found] = [1, 65_536, 2].map(|limit| finish([0; 3], limit));
    let shown = session(&harbour, &[stopped, refused, found, board]);
    assert_eq!(shown[4], session(&harbour, &[board])[1]);
    assert!(shown[..4].iter().all(|it| it.domains == [7, 3, 3]));
}
