//! The program `fit`: what it prints, compared with the reference line by line.

use conformance::{
    back, example_orders, harbour, narrow, regular, tiny, write, Case, Folder, Random, Run, FINISH,
    LONGEST, MARK,
};

const SEEDED: u64 = 300;

/// Orders that come byte by byte are the same orders.
#[test]
fn orders_in_pieces() {
    let folder = Folder::new("pieces");
    let book = write(&harbour());
    let example = example_orders().concat();
    let expected = folder.agrees(&book, &example);
    for size in [1, 3, 8, 47] {
        let pieces: Vec<&[u8]> = example.chunks(size).collect();
        assert_eq!(folder.prints(Some(&book), &pieces), expected);
    }
}

#[test]
fn no_book_and_books_of_wrong_length() {
    let folder = Folder::new("lengths");
    for orders in [&[][..], &MARK, &[1], &[0; 3_000]] {
        let printed = folder.prints(None, &[orders]);
        assert_eq!(printed, "refused 1 0\n", "no book.bin");
    }
    // A right book of 33 blocks, and what comes after it.
    let mut book = write(&regular(16, 32, 8, 508, 2));
    assert_eq!(book.len(), LONGEST * 512);
    folder.agrees(&book, &MARK);
    for length in [16_897, 17_408, 20_000, 1 << 20] {
        book.resize(length, 0);
        assert_eq!(folder.agrees(&book, &MARK), "refused 1 0\n");
    }
    for length in [0, 1, 511, 513, 16_895] {
        assert_eq!(folder.agrees(&book[..length], &[]), "refused 1 0\n");
    }
}

#[test]
fn lists_of_every_kind_of_length() {
    let folder = Folder::new("lists");
    let book = write(&harbour());
    let orders = [MARK, narrow(2, 1), FINISH, back(1)].concat().repeat(5_000);
    for length in [0, 8, 16, 2_032, 2_040, 2_048] {
        let printed = folder.agrees(&book, &orders[..length]);
        assert_eq!(printed.lines().count(), length / 8 + 2);
        let last = format!("accepted {}\n", length / 8);
        assert!(printed.ends_with(&last), "{length} bytes");
    }
    for length in [1, 7, 9, 2_047, 2_049, 2_055, 2_056, 4_096, 65_536, 160_000] {
        let printed = folder.agrees(&book, &orders[..length]);
        assert_eq!(printed, "refused 10 0\n", "{length} bytes");
    }
    // A wrong book comes before wrong orders.
    assert_eq!(folder.agrees(&book[..512], &[1]), "refused 4 3\n");
}

/// Every number that a line can have at its longest, and the shortest book.
#[test]
fn wide_and_narrow_lines() {
    let folder = Folder::new("lines");
    let orders = [MARK.repeat(17), narrow(15, 1 << 31).to_vec()].concat();
    let printed = folder.agrees(&write(&regular(16, 32, 0, 0, 1)), &orders);
    let all = " 4294967295".repeat(15);
    let last = format!("18 0 1 16 0 0{all} 2147483648\naccepted 17\n");
    assert!(printed.ends_with(&last), "{printed}");
    assert_eq!(
        folder.agrees(&write(&tiny()), &[]),
        "0 0 2 0 0 0 1\naccepted 0\n"
    );
}

/// Seeded books and lists, and seeded books that are most often damaged.
#[test]
fn seeded_runs() {
    let folder = Folder::new("seeded");
    let (mut accepted, mut refused) = (0, 0);
    for seed in 0..SEEDED {
        let run = Run::new(seed);
        let printed = folder.agrees(&run.book, &run.orders);
        let damaged = Case::new(Random::new(seed).bits()).bytes;
        let other = folder.agrees(&damaged, &run.orders);
        for printed in [printed, other] {
            accepted += usize::from(printed.starts_with('0'));
            refused += usize::from(printed.starts_with("refused"));
        }
    }
    assert_eq!((accepted + refused) as u64, 2 * SEEDED);
    assert!(
        accepted > 200 && refused > 200,
        "{accepted} accepted, {refused} refused"
    );
}
