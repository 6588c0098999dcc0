//! Any bytes are an input, and the inputs that come of them are of every kind.

use conformance::{contradicting, example_orders, finish, harbour, narrow, regular, space_for};
use conformance::{look_for_done, look_for_forbidden, look_for_steps, look_for_tries};
use conformance::{write, Random, Tally, ANY, FINISH};
use fuzz::{described, raw, seeds, shorten_finishes, try_bytes};
use fuzz::{Input, DESCRIBED, LONGEST_INPUT, MENDED};
use reference::{book_refusals, decode, run_refusals};

/// Bytes from chance, most often short.
fn any_bytes(random: &mut Random) -> Vec<u8> {
    let most = random.pick(&[0, 8, 64, 600, LONGEST_INPUT]);
    let mut bytes = vec![0; random.within(0..=most)];
    random.fill(&mut bytes);
    bytes
}

/// A first input with a few bytes changed, as a fuzzer does it.
fn changed(random: &mut Random, seeds: &[Vec<u8>]) -> Vec<u8> {
    let mut bytes = seeds[random.below(seeds.len())].clone();
    for _ in 0..random.within(0..=4) {
        let near_front = random.once_in(2);
        let at = random.below(if near_front { 4 } else { bytes.len() });
        bytes[at] = random.byte();
    }
    bytes
}

#[test]
fn any_bytes_are_an_input() {
    let random = &mut Random::new(1);
    for _ in 0..20_000 {
        let bytes = any_bytes(random);
        let input = Input::read(&bytes);
        assert_eq!(input, Input::read(&bytes));
        assert!(input.book.len() <= LONGEST_INPUT.max(33 * 512));
        assert!(input.orders.len() <= LONGEST_INPUT);
        assert!(input.space <= space_for(&input.orders) + 256);
    }
    assert_eq!(Input::read(&[]).book, []);
}

/// What the first inputs are made of comes out of them again.
#[test]
fn books_and_orders_are_read_as_written() {
    let orders = example_orders().concat();
    let mut short = harbour();
    short.sheets[1].rows[0][1] = ANY;
    let mut mixed = short.clone();
    mixed.sheets[0].forbidden = true;
    for book in [
        harbour(),
        short,
        mixed,
        regular(16, 32, 8, 9, 4),
        regular(1, 1, 0, 0, 1),
    ] {
        let bytes = write(&book);
        let mut spoilt = bytes.clone();
        spoilt[508] ^= 1;
        for (input, expected) in [
            (described(&book, &orders), &bytes),
            (raw(0, &bytes, &orders), &bytes),
            (raw(MENDED, &spoilt, &orders), &bytes),
            (raw(0, &spoilt, &orders), &spoilt),
        ] {
            let input = Input::read(&input);
            assert_eq!(input.book, *expected);
            assert_eq!(input.orders, orders);
            assert_eq!(input.space, space_for(&orders));
        }
    }
}

/// A described forbidden sheet is one that is accepted, whatever its rows are: they rise, and no cell is any.
#[test]
fn forbidden_sheets_are_put_in_order() {
    let mut book = harbour();
    book.sheets[1].rows = [[1, 1], [0, 1], [1, 1], [0, 0]].map(Vec::from).to_vec();
    book.sheets[1].forbidden = true;
    let read = decode(&Input::read(&described(&book, &[])).book).expect("an accepted book");
    assert!(!read.sheets[0].forbidden && read.sheets[1].forbidden);
    assert_eq!(read.sheets[1].rows, [[0, 0], [0, 1], [1, 1]]);
    let mut any = book.clone();
    any.sheets[1].rows = vec![vec![0, ANY]];
    let read = decode(&Input::read(&described(&any, &[])).book).expect("an accepted book");
    // 255 mod 2
    assert_eq!(read.sheets[1].rows, [[0, 1]]);
    let random = &mut Random::new(3);
    let mut tally = Tally::default();
    for _ in 0..20_000 {
        let mut bytes = any_bytes(random);
        bytes.resize(bytes.len().max(8), 0);
        // Described, not damaged, and short of orders.
        bytes[0] = DESCRIBED;
        bytes[2..4].fill(0);
        let book = decode(&Input::read(&bytes).book).expect("an accepted book");
        for sheet in &book.sheets {
            let words = format!(
                "width {}, forbidden {}",
                sheet.columns.len(),
                sheet.forbidden
            );
            tally.add(&words, 1);
        }
    }
    println!("{tally}");
    assert_eq!(tally.kinds(), 8);
    tally.assert_each_above(1_000);
}

/// "256 orders run, 257 give 10": a short input can have a list as long as that.
#[test]
fn the_longest_lists() {
    for (room, orders) in [(0, 254), (3, 257), (6, 256), (16, 6)] {
        let mut bytes = described(&harbour(), &example_orders().concat());
        bytes[0] |= 1 << 7;
        bytes[1] = room;
        assert_eq!(Input::read(&bytes).orders.len(), 8 * orders);
    }
}

/// The space is exact, one too short and more, or longer, as the form and the room say.
#[test]
fn every_length_of_a_space() {
    for (form, room, expected) in [
        (0 << 4, 9, 72),
        (1 << 4, 9, 72),
        (2 << 4, 0, 71),
        (2 << 4, 255, 0),
        (3 << 4, 0, 73),
        (3 << 4, 255, 328),
    ] {
        let input = Input::read(&[DESCRIBED | form, room]);
        assert_eq!(input.space, expected);
    }
}

/// Each finish of document 01's list stays, and each that a small limit stops. One that goes through 32 values of
/// 13 columns gets the tries that are left to its list, those after it one each; and what has no search stays.
#[test]
fn long_finishes_get_a_smaller_limit() {
    let mut orders = example_orders().concat();
    assert_eq!(shorten_finishes(&write(&harbour()), &mut orders), 0);
    assert_eq!(orders, example_orders().concat());
    let book = write(&contradicting(&[32; 13], 2));
    let dead = narrow(0, 0);
    let list = [finish(100), FINISH, finish(9), finish(65_536), dead, FINISH];
    let mut orders = list.concat();
    assert_eq!(shorten_finishes(&book, &mut orders), 2);
    // Two rows in each of three sheets, and one more.
    let left = (1 << 15) / 7 - 100;
    let shorter = [
        finish(100),
        finish(left),
        finish(1),
        finish(65_536),
        dead,
        FINISH,
    ];
    assert_eq!(orders, shorter.concat());
}

/// A few thousand inputs agree, and each kind of answer is among them.
#[test]
fn seeded_inputs_agree_and_are_of_every_kind() {
    let (random, seeds) = (&mut Random::new(2), seeds(300));
    let mut tally = Tally::default();
    look_for_steps(&mut tally);
    look_for_done(&mut tally);
    look_for_tries(&mut tally);
    look_for_forbidden(&mut tally);
    for (refusal, _) in book_refusals() {
        tally.add(&format!("books, refusal {refusal}"), 0);
    }
    for refusal in run_refusals() {
        tally.add(&format!("runs, refusal {refusal}"), 0);
    }
    for seed in &seeds {
        try_bytes(seed, &mut tally);
    }
    for _ in 0..5_000 {
        try_bytes(&changed(random, &seeds), &mut tally);
        try_bytes(&any_bytes(random), &mut tally);
    }
    println!("{tally}");
    assert_eq!(tally.of("inputs tried"), seeds.len() + 10_000);
    tally.assert_each_above(20);
}
