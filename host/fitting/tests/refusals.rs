//! Refusals: their names, their numbers, their places and their sentences. Those that tell what stands in
//! the book have `fields.rs` and `rows.rs`.

use conformance::{changed, harbour, write, Random};
use fitting::{check_number, OrderRefusal, Refusal};

#[test]
fn every_refusal_has_its_name_and_its_sentence() {
    use Refusal::*;
    let length = "the length isn't a multiple of 512 from 512 to 16,896";
    let orders = "the orders aren't a multiple of 8 bytes or exceed 2,048 bytes";
    let space = "the answers need 18504 bytes";
    let other = |number, place, words| (Other { number, place }, number, place, words);
    for (refusal, number, place, sentence) in [
        (Length, 1, 0, length),
        (Check { block: 3 }, 2, 3, "the check of block 3 is wrong"),
        (Blocks { needed: 8 }, 4, 8, "the blocks aren't the 8 needed"),
        (Orders, 10, 0, orders),
        (Space { needed: 18_504 }, 11, 18_504, space),
        other(1, 1, "place 1"),
        other(7, 0, "place 0"),
        other(10, 65_535, "place 65535"),
        other(12, 0, "place 0"),
        other(u64::MAX >> 16, 2, "place 2"),
    ] {
        for book in [vec![], write(&harbour())] {
            let read = Refusal::read(number << 16 | u64::from(place), &book);
            assert_eq!(read, Some(refusal));
        }
        assert_eq!((refusal.number(), refusal.place()), (number, place));
        assert_eq!(refusal.to_string(), format!("refusal {number}: {sentence}"));
    }
    let accepted = [0, 50, 65_535].map(|number| Refusal::read(number, &[]));
    assert_eq!(accepted, [None; 3]);
}

/// A number is read with the bytes that it was given for; with any others it has no name.
#[test]
fn numbers_that_do_not_fit_the_bytes() {
    let wrong = [
        &[(8, 99)][..],
        &[(512, 9)],
        &[(514, 9)],
        &[(24, 130), (516, 0)],
    ];
    let wrong = wrong.map(|changes| changed(&harbour(), changes));
    let numbers = [8, 128, 128, 129].into_iter().zip([3, 5, 6, 7]);
    for ((place, number), bytes) in numbers.zip(&wrong) {
        let given = number << 16 | u64::from(place);
        assert_eq!(check_number(bytes), given);
        let whole = write(&harbour());
        let [field, value, filler, rising] = &wrong;
        for bytes in [
            field,
            value,
            filler,
            rising,
            &whole,
            &bytes[..511],
            &value[..512],
            &[],
        ] {
            let unnamed = Refusal::read(given, bytes) == Some(Refusal::Other { number, place });
            assert_eq!(unnamed, check_number(bytes) != given);
        }
    }
}

/// Heads that no book has, and every place: the number and the place come back, and nothing panics.
#[test]
fn any_number_with_any_bytes() {
    let mut seeded = vec![0; 40_000];
    Random::new(1).fill(&mut seeded);
    for bytes in [seeded, vec![0; 600], vec![1; 5_000], vec![255; 300_000]] {
        for (number, place) in [3, 5, 6, 7]
            .into_iter()
            .flat_map(|n| (0..=65_535).map(move |p| (n, p)))
        {
            let read = Refusal::read(number << 16 | u64::from(place), &bytes);
            let refusal = read.expect("a refusal");
            assert_eq!((refusal.number(), refusal.place()), (number, place));
            assert!(refusal
                .to_string()
                .starts_with(&format!("refusal {number}: ")));
        }
    }
}

#[test]
fn every_refusal_of_an_order_has_its_name_and_its_sentence() {
    use OrderRefusal::*;
    let named = [
        (20, Kind, "there is no such kind of order"),
        (21, Column, "the book has no such column"),
        (
            22,
            Mask,
            "the mask has a value that the column doesn't have",
        ),
        (23, Depth, "there are 16 marks already"),
        (24, Mark, "there is no such mark"),
        (25, Zero, "a byte that must be zero isn't"),
        (27, Limit, "the limit of a finish is larger than 65,535"),
    ];
    for number in 1..=255 {
        let unnamed = (number, Other { number }, "the order is refused");
        let mut named = named.into_iter();
        let (_, refusal, sentence) = named.find(|it| it.0 == number).unwrap_or(unnamed);
        assert_eq!(OrderRefusal::from_number(number), Some(refusal));
        assert_eq!(refusal.number(), number);
        assert_eq!(refusal.to_string(), format!("refusal {number}: {sentence}"));
    }
    assert_eq!(OrderRefusal::from_number(0), None);
}
