//! Finishes and their limits: every limit up to what small books need and one more, and both sides of the largest.

use conformance::{agreed_answers, all_values, back, contradicting, finish, harbour, narrow, show};
use conformance::{tries_of_contradicting, write, Book, Order, Random, Run, Seen, Shape, Sheet};
use conformance::{Tally, FINISH, MARK, WIDTH};
use reference::decode;

/// What finishes with these limits show after these orders; a list has up to 256.
fn limited(book: &Book, before: &[Order], limits: impl IntoIterator<Item = u32>) -> Vec<Seen> {
    let finishes: Vec<Order> = limits.into_iter().map(finish).collect();
    let lists = finishes.chunks(256 - before.len());
    let shown = lists.flat_map(|list| {
        let mut answers = agreed_answers(book, &[before, list].concat());
        answers.split_off(1 + before.len())
    });
    shown.collect()
}

/// "Byte 3 is 3, stopped, exactly when the answer needs more tries than the limit; the domains are then zero."
/// "A larger limit never changes found or none, nor the set." Every limit from 1 to one more than this state needs,
/// the largest, and 0; gives the answer that isn't stopped.
fn every_limit(book: &Book, before: &[Order]) -> Seen {
    let ended = limited(book, before, [0])[0];
    assert!([1, 2].contains(&ended.outcome), "{book:?}: {before:?}");
    let limits = || (1..=ended.tries + 1).chain([u16::MAX, 0]);
    let shown = limited(book, before, limits().map(u32::from));
    for (limit, answer) in limits().zip(shown) {
        let stopped = Seen {
            outcome: 3,
            tries: limit,
            domains: [0; 16],
            ..ended
        };
        let short = (1..ended.tries).contains(&limit);
        let expected = if short { stopped } else { ended };
        assert_eq!(answer, expected, "limit {limit}: {book:?}, {before:?}");
    }
    ended
}

/// Counts such an answer.
fn count(tally: &mut Tally, ended: &Seen) {
    let words = match (ended.outcome, ended.tries) {
        (1, 0) => "decided",
        (1, 1) => "found with one try",
        (1, _) => "found with several",
        (_, 0) => "dead",
        _ => "none, after tries",
    };
    tally.add(words, 1);
}

/// Three columns of two values, and any sheet on each pair of them.
#[test]
fn every_limit_of_every_small_book() {
    let mut tally = Tally::default();
    let pairs = [[0, 1], [0, 2], [1, 2]];
    for rows in 0..1 << 12 {
        let sheet = |(i, columns): (usize, &[u8; 2])| Sheet {
            forbidden: false,
            columns: columns.to_vec(),
            rows: (0..4)
                .filter(|row| rows >> (4 * i + row) & 1 == 1)
                .map(|row| vec![row as u8 / 2, row as u8 % 2])
                .collect(),
        };
        let book = Book {
            counts: vec![2; 3],
            sheets: pairs.iter().enumerate().map(sheet).collect(),
        };
        count(&mut tally, &every_limit(&book, &[]));
    }
    show(&format!("every limit of 4,096 books\n\n{tally}"));
    // K7's three sheets, and the three that make two columns equal and the third differ.
    assert_eq!((tally.kinds(), tally.of("none, after tries")), (5, 4));
}

/// The orders of a seeded run but its finishes, up to sixteen.
fn orders_before(run: &Run) -> Vec<Order> {
    let orders = run.orders.as_chunks().0.iter().copied();
    orders.filter(|order| order[0] != 4).take(16).collect()
}

/// Seeded books in the states that their lists leave, and at the opening.
#[test]
fn every_limit_of_seeded_books() {
    let mut tally = Tally::default();
    let mut most = 0;
    let small = |run: &Run| !matches!(run.shape, Shape::Largest | Shape::Damaged);
    for run in (0..6_000).map(Run::new).filter(small) {
        let book = decode(&run.book).expect("an accepted book");
        for before in [vec![], orders_before(&run)] {
            let ended = every_limit(&book, &before);
            most = most.max(ended.tries);
            count(&mut tally, &ended);
        }
    }
    show(&format!(
        "every limit of seeded books, up to {most} tries\n\n{tally}"
    ));
    tally.assert_each_above(100);
    assert!(most > 1_000);
}

/// Books of so many seeds in which a search has something to do.
fn searched_books(seeds: u64) -> impl Iterator<Item = Book> {
    let runs = (0..seeds).map(Run::new);
    let shapes = [
        Shape::Searching,
        Shape::Differing,
        Shape::Small,
        Shape::Forbidding,
    ];
    let such = runs.filter(move |run| shapes.contains(&run.shape));
    such.map(|run| decode(&run.book).expect("an accepted book"))
}

/// "A buyer's comparison between lists covers mixed books."
fn is_mixed(book: &Book) -> bool {
    let mut kinds = book.sheets.iter().map(|sheet| sheet.forbidden);
    let first = kinds.next();
    kinds.any(|kind| Some(kind) != first)
}

/// Every value of each column but one, or every one.
fn any_allowed(random: &mut Random, book: &Book) -> Vec<u32> {
    let counts = book.counts.iter();
    let allowed = counts.map(|&count| all_values(count) & !(1 << random.below(40).min(31)));
    allowed.collect()
}

/// The list that narrows each column once.
fn straight(allowed: &[u32]) -> Vec<Order> {
    let masks = (0..).zip(allowed);
    masks.map(|(column, &mask)| narrow(column, mask)).collect()
}

/// Another list that allows these values: the other way around and by two narrows each, with a detour that a back ends,
/// and at another depth.
fn around(random: &mut Random, book: &Book, allowed: &[u32]) -> Vec<Order> {
    let mut list = vec![MARK, narrow(0, 0), FINISH, back(1), MARK];
    for (column, &mask) in allowed.iter().enumerate().rev() {
        let some = random.bits() as u32 & all_values(book.counts[column]);
        let others = all_values(book.counts[column]) & !some;
        let [first, second] = [some, others].map(|more| narrow(column as u8, mask | more));
        list.extend([first, finish(1), second]);
    }
    list
}

/// "two lists with equal allowed values give equal tries and outcome at equal limits, stopped for both included"
#[test]
fn equal_allowed_values_give_equal_tries() {
    let random = &mut Random::new(4);
    let mut tally = Tally::default();
    for book in searched_books(4_000) {
        let allowed = any_allowed(random, &book);
        tally.add("books with sheets of both kinds", is_mixed(&book).into());
        let lists = [straight(&allowed), around(random, &book, &allowed)];
        let ended = every_limit(&book, &lists[0]);
        count(&mut tally, &ended);
        let needed = u32::from(ended.tries);
        let limits = [0, 1, needed.max(2) - 1, needed, needed + 1];
        let [one, other] = [0, 1].map(|list: usize| limited(&book, &lists[list], limits));
        for (one, other) in one.into_iter().zip(other) {
            assert_eq!((one.depth, other.depth), (0, 1));
            assert_eq!(Seen { depth: 1, ..one }, other, "{book:?}: {lists:?}");
            tally.add("stopped for both", (one.outcome == 3).into());
        }
    }
    show(&format!("two lists with equal allowed values\n\n{tally}"));
    tally.assert_each_above(20);
}

/// "a narrower and a wider list are compared by the first full sets of document 01, without a limit, since the wider one
/// may stop first"; or the narrower one.
#[test]
fn a_narrower_list_and_a_wider_one() {
    let random = &mut Random::new(5);
    let mut tally = Tally::default();
    for book in searched_books(12_000) {
        tally.add("books with sheets of both kinds", is_mixed(&book).into());
        let wide = any_allowed(random, &book);
        let narrower = any_allowed(random, &book).into_iter().zip(&wide);
        let narrower: Vec<u32> = narrower.map(|(mask, wide)| mask & wide).collect();
        let [wide, narrower] = [wide, narrower].map(|allowed| {
            let list = straight(&allowed);
            let state = agreed_answers(&book, &list)[list.len()];
            (state.domains, limited(&book, &list, [0])[0])
        });
        let mut domains = narrower.0.iter().zip(wide.0);
        assert!(domains.all(|(narrower, wide)| narrower & !wide == 0));
        let ([wide, narrower], found) =
            ([wide.1, narrower.1], [wide.1.outcome, narrower.1.outcome]);
        // A set has one bit in each column, so the lower value is the lower number.
        assert!(
            found[1] != 1 || (found[0] == 1 && wide.domains <= narrower.domains),
            "{book:?}"
        );
        for (words, holds) in [
            (
                "the same set",
                found == [1; 2] && wide.domains == narrower.domains,
            ),
            (
                "a lower set in the wider",
                found == [1; 2] && wide.domains < narrower.domains,
            ),
            ("a set in the wider alone", found == [1, 2]),
            ("a set in neither", found == [2; 2]),
            ("more tries in the wider", wide.tries > narrower.tries),
            ("more tries in the narrower", wide.tries < narrower.tries),
        ] {
            tally.add(words, holds.into());
        }
    }
    show(&format!("narrower and wider lists\n\n{tally}"));
    tally.assert_each_above(5);
}

/// "a limit from 1 to 65,535; 0 is read as 65,535": each of them, and the first that are larger.
#[test]
fn every_limit_is_accepted_or_refused() {
    let limits = || 0..=65_600;
    for (limit, answer) in limits().zip(limited(&harbour(), &[], limits())) {
        let expected = match limit {
            1 => (0, 3, 1),
            0..=65_535 => (0, 1, 2),
            _ => (27, 0, 0),
        };
        let given = (answer.refusal, answer.outcome, answer.tries);
        assert_eq!(given, expected, "limit {limit}");
    }
}

/// "27 for a larger limit, after 25, which covers only bytes 1 to 3 here": every bit above two bytes, in an open session
/// and in a dead one, alone and with another wrong byte.
#[test]
fn every_bit_of_a_larger_limit() {
    for before in [&[][..], &[narrow(WIDTH, 0)]] {
        let state = agreed_answers(&harbour(), before)[before.len()];
        for bit in 16..32 {
            let high = 1 << bit;
            for limit in [high, high | 1, high | 65_535] {
                let mut orders = [finish(limit); 4];
                for (byte, order) in orders.iter_mut().enumerate().skip(1) {
                    order[byte] = 1 << (bit % 8);
                }
                let shown = agreed_answers(&harbour(), &[before, &orders].concat());
                let refused = [27, 25, 25, 25].map(|refusal| Seen { refusal, ..state });
                assert_eq!(shown[before.len() + 1..], refused, "limit {limit}");
            }
        }
    }
}

/// Free columns before three that contradict each other, for both sides of the largest limit.
#[test]
fn the_largest_limit() {
    for (free, values, needed) in [
        (&[3, 4, 4, 4, 4, 4, 4][..], 4, 65_535),
        (&[2, 7, 8, 8, 8], 8, 65_536),
    ] {
        let book = contradicting(free, values);
        assert_eq!(tries_of_contradicting(free, values), needed);
        let outcome = if needed > 65_535 { 3 } else { 2 };
        for answer in limited(&book, &[], [65_535, 0]) {
            assert_eq!((answer.outcome, answer.tries), (outcome, 65_535));
            assert_eq!((answer.status, answer.domains), (1, [0; 16]));
        }
        let stopped = limited(&book, &[], [65_534])[0];
        assert_eq!((stopped.outcome, stopped.tries), (3, 65_534));
    }
}

/// A book of 2,048 bytes whose search nobody sees the end of: 32 to the power of 13 times three sheets' tries.
#[test]
fn a_hard_book() {
    let book = contradicting(&[32; 13], 2);
    assert_eq!(write(&book).len(), 2_048);
    let limits = [0, 65_535, 1, 256];
    for (limit, answer) in limits.into_iter().zip(limited(&book, &[], limits)) {
        let tries = if limit == 0 { 65_535 } else { limit };
        assert_eq!((answer.outcome, u32::from(answer.tries)), (3, tries));
        assert_eq!((answer.status, answer.domains), (1, [0; 16]));
    }
    // With the columns before them decided, two tries are all.
    let decided: Vec<Order> = (0..13).map(|column| narrow(column, 1 << 31)).collect();
    let ended = every_limit(&book, &decided);
    assert_eq!((ended.outcome, ended.tries), (2, 2));
}
