//! Lengths: of the list, of the space for the answers, and what is refused first.

use conformance::{agreed_run, back, changed, harbour, narrow, refused, space_for, tiny, write};
use conformance::{BOARD, FINISH, MARK};

/// The number that both versions give with so much space; a refused run leaves it as it was.
fn number(book: &[u8], orders: &[u8], space: usize) -> u64 {
    agreed_run(book, orders, space).0
}

/// Refusal 10 by the length alone, whatever the bytes are.
#[test]
fn every_length_of_a_list() {
    let book = write(&tiny());
    let mut orders = [MARK, narrow(0, 1), FINISH, back(1)].concat().repeat(75);
    for fill in [None, Some(0), Some(0xFF)] {
        if let Some(byte) = fill {
            orders.fill(byte);
        }
        for length in 0..=orders.len() {
            let list = &orders[..length];
            let number = number(&book, list, space_for(list));
            if length % 8 != 0 || length > 2_048 {
                assert_eq!(number, refused(10, 0), "{length} bytes");
            } else {
                let accepted = if fill.is_some() { 0 } else { length / 8 };
                assert_eq!(number, accepted as u64, "{length} bytes");
            }
        }
    }
}

/// "256 orders run, 257 give 10": of each kind, and lists that are much longer.
#[test]
fn the_longest_list() {
    let book = write(&harbour());
    let narrows = narrow(BOARD, 1);
    for (order, accepted) in [(MARK, 16), (narrows, 256), (FINISH, 256), (back(1), 0)] {
        let orders = order.repeat(257);
        let most = &orders[..2_048];
        assert_eq!(number(&book, most, 72 * 257), accepted);
        assert_eq!(number(&book, most, 72 * 257 - 1), refused(11, 72 * 257));
        assert_eq!(number(&book, &orders, 72 * 258), refused(10, 0));
        for length in [2_049, 2_055, 4_096, 65_536, 524_288] {
            let longer = order.repeat(length / 8 + 1);
            let longer = &longer[..length];
            assert_eq!(number(&book, longer, 72 * 257), refused(10, 0));
        }
    }
    let to_and_fro = [MARK, back(1)].concat().repeat(128);
    assert_eq!(number(&book, &to_and_fro, 72 * 257), 256);
}

/// Every length of the space around each number of answers: 11 names the bytes that are needed, and
/// later bytes are left alone.
#[test]
fn every_length_of_the_space() {
    let book = write(&harbour());
    for count in [0, 1, 2, 3] {
        let orders = [MARK, narrow(BOARD, 1), FINISH].concat();
        let orders = &orders[..8 * count];
        let needed = 72 * (count + 1);
        for space in 0..=needed + 80 {
            let expected = if space < needed {
                refused(11, needed)
            } else {
                count as u64
            };
            assert_eq!(number(&book, orders, space), expected, "{space} bytes");
        }
    }
    for count in 0..=256 {
        let orders = MARK.repeat(count);
        let needed = 72 * (count + 1);
        let accepted = count.min(16) as u64;
        assert_eq!(number(&book, &orders, needed - 1), refused(11, needed));
        assert_eq!(number(&book, &orders, needed), accepted);
        assert_eq!(number(&book, &orders, needed + 1), accepted);
    }
    assert_eq!(number(&book, &MARK.repeat(256), 1 << 20), 16);
}

/// A refused book, then refused orders, then a space that is too short.
#[test]
fn what_is_refused_first() {
    let right = write(&harbour());
    let mut wrong = right.clone();
    wrong[600] ^= 1;
    let [value, filler] = [(513, 2), (514, 1)].map(|change| changed(&harbour(), &[change]));
    let [no_orders, ragged, too_many] = [vec![], vec![0; 9], vec![0; 2_056]];
    for space in [0, 71, 72, 144, 20_000] {
        for orders in [&no_orders, &ragged, &too_many] {
            assert_eq!(number(&wrong, orders, space), refused(2, 1));
            assert_eq!(number(&[], orders, space), refused(1, 0));
            assert_eq!(number(&right[..1_024], orders, space), refused(4, 3));
            assert_eq!(number(&value, orders, space), refused(5, 128));
            assert_eq!(number(&filler, orders, space), refused(6, 128));
        }
        assert_eq!(number(&right, &ragged, space), refused(10, 0));
        assert_eq!(number(&right, &too_many, space), refused(10, 0));
    }
    assert_eq!(number(&right, &no_orders, 71), refused(11, 72));
    assert_eq!(number(&right, &no_orders, 72), 0);
}
