//! The edges of the orders, each with what it must give, and whole ranges of them.

use conformance::{
    agreed_run, all_values, back, finish, harbour, kit, narrow, plant, regular, space_for, write,
    Book, Order, Random, Seen, Sheet, FINISH, MARK, MOTOR, WIDTH,
};

/// What the last answer shows: its refusal, the depth and the domains.
type Shows = (u8, u8, [u32; 16]);

/// The last answer that the library and the reference both give; they must give the same, and to
/// every order before it.
fn agreed(book: &[u8], orders: &[u8]) -> Seen {
    let (number, space) = agreed_run(book, orders, space_for(orders));
    assert!(number < 65_536, "the run is refused");
    Seen::read(space.last_chunk().expect("an answer"))
}

/// What stands after these orders.
fn after(book: &[u8], orders: &[u8]) -> Shows {
    let seen = agreed(book, orders);
    (seen.refusal, seen.depth, seen.domains)
}

/// Accepted, or refused, as the last of a list that ends at this depth; and these domains.
fn shows(refusal: u8, depth: u8, domains: &[u32]) -> Shows {
    let mut all = [0; 16];
    all[..domains.len()].copy_from_slice(domains);
    (refusal, depth, all)
}

/// What stands after these orders over the harbour book.
fn harbour_after(orders: &[Order]) -> Shows {
    after(&write(&harbour()), &orders.concat())
}

/// "a dead session gives the same refusals as an open one, and its finish says none"
#[test]
fn every_kind_and_every_argument() {
    let dead = [MARK, narrow(WIDTH, 0)];
    for (before, here, found) in [
        (&dead[..1], &[7, 3, 3][..], &[1, 1, 1][..]),
        (&dead, &[], &[]),
    ] {
        for kind in 0..=255 {
            for argument in 0..=255 {
                let order = [kind, argument, 0, 0, 0, 0, 0, 0];
                let expected = match (kind, argument) {
                    (1, 0..=2) => shows(0, 1, &[]),
                    (1, _) => shows(21, 1, here),
                    (2, 0) => shows(0, 2, here),
                    (3, 1) => shows(0, 0, &[7, 3, 3]),
                    (3, _) => shows(24, 1, here),
                    (4, 0) => shows(0, 1, found),
                    (2 | 4, _) => shows(25, 1, here),
                    _ => shows(20, 1, here),
                };
                assert_eq!(harbour_after(&[before, &[order]].concat()), expected);
            }
        }
    }
    assert_eq!(harbour_after(&[narrow(255, !0)]), shows(21, 0, &[7, 3, 3]));
}

/// Every byte that must be zero, with every value, in an order that has no other fault and in one
/// that has: the answer shows the unchanged state.
#[test]
fn every_byte_that_must_be_zero() {
    let zeros = [
        (narrow(WIDTH, 4), 2..=3),
        (narrow(3, 8), 2..=3),
        (MARK, 1..=7),
        (back(1), 2..=7),
        (back(9), 2..=7),
        (FINISH, 1..=3),
        (finish(65_536), 1..=3),
    ];
    for (right, bytes) in zeros {
        for byte in bytes {
            for value in 1..=255 {
                let mut order = right;
                order[byte] = value;
                assert_eq!(harbour_after(&[MARK, order]), shows(25, 1, &[7, 3, 3]));
            }
        }
    }
    let mut full = vec![MARK; 17];
    full[16][7] = 1;
    assert_eq!(harbour_after(&full), shows(25, 16, &[7, 3, 3]));
}

#[test]
fn every_number_of_values_and_every_bit_of_a_mask() {
    for count in 1..=32 {
        let book = write(&regular(2, count, 0, 0, 1));
        let all = all_values(count);
        assert_eq!(after(&book, &[]), shows(0, 0, &[all, all]));
        for bit in 0..32 {
            let mask = 1 << bit;
            for (mask, left) in [(mask, mask), (mask | all, all)] {
                let expected = if bit < count {
                    shows(0, 0, &[all, left])
                } else {
                    shows(22, 0, &[all, all])
                };
                assert_eq!(after(&book, &narrow(1, mask)), expected);
            }
        }
    }
}

#[test]
fn every_back_at_every_depth() {
    // Before each mark one more value of the only column goes.
    let book = write(&regular(1, 32, 0, 0, 1));
    let mut orders = Vec::new();
    for depth in 0..=16 {
        let here = u32::MAX << depth;
        assert_eq!(after(&book, &orders), shows(0, depth, &[here]));
        for m in 0..=255 {
            let expected = if (1..=depth).contains(&m) {
                shows(0, m - 1, &[u32::MAX << (m - 1)])
            } else {
                shows(24, depth, &[here])
            };
            assert_eq!(after(&book, &[&orders[..], &back(m)].concat()), expected);
        }
        orders.extend(MARK);
        orders.extend(narrow(0, u32::MAX << (depth + 1)));
    }
    assert_eq!(agreed(&book, &orders).depth, 16, "the narrow after mark 17");
    // "mark 16 is accepted, mark 17 refused"; after a back there is room for one more.
    for (count, refusal, depth) in [
        (16, 0, 16),
        (17, 23, 16),
        (18, 0, 15),
        (19, 0, 16),
        (20, 23, 16),
    ] {
        let mut marks = [MARK; 20];
        marks[17] = back(16);
        let shown = after(&book, &marks[..count].concat());
        assert_eq!(shown, shows(refusal, depth, &[!0]), "{count} orders");
    }
}

/// Mask 0 at every depth, and back to each of the marks before and after it. A sheet without rows is dead
/// whatever stands beside it, and stays so.
#[test]
fn the_dead_come_back() {
    let no_rows = kit::read_contents("values 2 2\nsheet 0\nrow 1\nsheet 0 1");
    let orders = [MARK, FINISH, back(1)].concat();
    assert_eq!(after(&write(&no_rows), &orders), shows(0, 0, &[]));
    for dead_at in 0..=4 {
        let mut orders = vec![MARK; 4];
        orders.insert(dead_at, narrow(MOTOR, 0));
        assert_eq!(harbour_after(&orders), shows(0, 4, &[]));
        for m in 1..=4 {
            let list = [&orders[..], &[back(m)]].concat();
            let depth = m - 1;
            let domains: &[u32] = if usize::from(m) <= dead_at {
                &[7, 3, 3]
            } else {
                &[]
            };
            assert_eq!(harbour_after(&list), shows(0, depth, domains));
        }
    }
}

/// Each row of the largest sheet alone: every bit of every word, and both sides of each block.
#[test]
fn every_row_of_a_sheet_alone() {
    // The two columns give the row its number, 16 times the first and then the second.
    let sheet = |n: usize| Sheet {
        forbidden: false,
        columns: vec![0, 1],
        rows: (0..n)
            .map(|r| vec![(r / 16) as u8, (r % 16) as u8])
            .collect(),
    };
    // Both sides of each word of 64 rows, and of each block of 127.
    for n in (1..=508).filter(|n| (n + 1) % 64 < 3 || (n + 1) % 127 < 3) {
        let counts = vec![32, 16];
        let sheets = vec![sheet(n)];
        let book = write(&Book { counts, sheets });
        for row in 0..512 {
            let (first, second) = (1 << (row / 16), 1 << (row % 16));
            let orders = [narrow(0, first), narrow(1, second)].concat();
            let expected: &[u32] = if row < n { &[first, second] } else { &[] };
            assert_eq!(after(&book, &orders), shows(0, 0, expected));
        }
    }
}

/// A full book narrowed to one of its full sets, column by column in either direction, and back.
#[test]
fn the_largest_book_to_a_full_set_and_back() {
    let random = &mut Random::new(3);
    for width in 1..=4 {
        let mut book = regular(16, 32, 8, 508, width);
        let set: Vec<u8> = (0..16).map(|_| random.below(32) as u8).collect();
        plant(random, &mut book, &set);
        let bytes = write(&book);
        let opening = agreed(&bytes, &[]);
        for upwards in [true, false] {
            let mut orders = Vec::new();
            for i in 0..16 {
                let column = if upwards { i } else { 15 - i };
                orders.extend(MARK);
                orders.extend(narrow(column, 1 << set[usize::from(column)]));
                agreed(&bytes, &orders);
            }
            let single: Vec<u32> = set.iter().map(|value| 1 << value).collect();
            assert_eq!(after(&bytes, &orders), shows(0, 16, &single));
            assert_eq!(agreed(&bytes, &orders).status, 2);
            orders.extend(FINISH);
            let found = agreed(&bytes, &orders);
            assert_eq!((found.outcome, found.domains[..].to_vec()), (1, single));
            orders.extend(back(1));
            assert_eq!(agreed(&bytes, &orders), opening);
        }
    }
}
