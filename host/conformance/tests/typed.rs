//! The typed run of `fitting` says what the bytes say, and its refusals name what is wrong in them.

use conformance::{
    any_book, harbour, mend, mend_block, refused, regular, rising_rows, row_bytes, space_for, write,
};
use conformance::{Random, Region, RowByte, Run, Seen, Tally, ANY};
use fitting::{
    Answer, Answers, Book, Cell, Field, OrderList, Outcome, Refusal, RowPlace, Space, Status,
    Values,
};
use reference::lies_in;
use std::panic;

/// The answer once more, from what the view gives.
fn seen(answer: Answer) -> Seen {
    let mut domains = [0; 16];
    for (place, domain) in domains.iter_mut().zip(answer.domains()) {
        *place = domain.mask();
    }
    Seen {
        refusal: answer.refusal().map_or(0, |refusal| refusal.number()),
        status: match answer.status() {
            Status::Dead => 0,
            Status::Open => 1,
            Status::Decided => 2,
        },
        depth: answer.depth(),
        outcome: match answer.outcome() {
            None => 0,
            Some(Outcome::Found) => 1,
            Some(Outcome::None) => 2,
            Some(Outcome::Stopped) => 3,
        },
        done: answer.done(),
        tries: answer.tries().unwrap_or(0),
        domains,
    }
}

/// What the answers give, by every way to them, against the bytes of the independent version.
fn read_alike(answers: Answers, book: Book, expected: &[Seen]) {
    let read: Vec<Seen> = answers.iter().map(seen).collect();
    assert_eq!(read, expected);
    assert_eq!(seen(answers.opening()), expected[0]);
    assert_eq!(seen(answers.last()), expected[expected.len() - 1]);
    let refusals = answers
        .refused()
        .map(|(number, refusal)| (number, refusal.number()));
    let numbered = expected.iter().map(|answer| answer.refusal).enumerate();
    assert!(refusals.eq(numbered.filter(|(_, refusal)| *refusal > 0)));
    for (answer, expected) in answers.iter().zip(expected) {
        assert_eq!(answer.domains().len(), book.columns().into());
        for column in 0..=255 {
            let mask = expected.domains.get(usize::from(column)).copied();
            assert_eq!(answer.domain(column).mask(), mask.unwrap_or(0));
            assert_eq!(answer.domain(column) - book.values(column), Values::NONE);
        }
        let full_set = (expected.outcome == 1).then(|| {
            let single = |column| Values::from_mask(expected.domains[column]).single();
            (0..book.columns().into())
                .map(|column| single(column).unwrap())
                .collect()
        });
        assert_eq!(
            answer.full_set().map(Iterator::collect::<Vec<u8>>),
            full_set
        );
    }
    live_alike(answers.last(), book);
}

/// The rows that lie in the domains of an answer, by what their cells match, against the independent version's.
fn live_alike(answer: Answer, book: Book) {
    let domains: Vec<u32> = answer.domains().map(Values::mask).collect();
    let decoded = reference::decode(book.bytes()).expect("an accepted book");
    for (sheet, decoded) in book.sheets().zip(&decoded.sheets) {
        for row in sheet.rows() {
            let mut cells = sheet.columns().iter().zip(row);
            let live = cells.all(|(&column, &byte)| {
                let matched = Cell::from(byte).matched(answer.domain(column));
                !matched.is_empty()
            });
            assert_eq!(live, lies_in(decoded, row, &domains));
        }
    }
}

/// The typed run of these bytes, by both ways, against the independent version's; what came of it, in
/// words.
fn tried(run: &Run) -> &'static str {
    let mut expected = vec![0; run.space];
    let number = reference::run(&run.book, &run.orders, &mut expected);
    let book = fitting::check(&run.book);
    let Ok(list) = OrderList::from_bytes(&run.orders) else {
        // The library refuses such a list too, if it doesn't refuse the book before it.
        let refusal = book.err().unwrap_or(Refusal::Orders);
        assert_eq!(Refusal::read(number, &run.book), Some(refusal));
        return "refused by their length";
    };
    assert_eq!(list.as_bytes(), run.orders);
    assert_eq!(OrderList::of(&list), Ok(list.clone()));
    let mut bytes = vec![0; run.space];
    let typed = fitting::run(&run.book, &list, &mut bytes);
    match typed {
        Ok(answers) => assert_eq!(answers.accepted() as u64, number),
        Err(refusal) => {
            assert_eq!(Refusal::read(number, &run.book), Some(refusal));
            assert!(!matches!(refusal, Refusal::Other { .. }));
        }
    }
    // A right book has its answers whatever the space was, where it comes with a long enough one.
    if let Ok(book) = book {
        let mut space = Space::new();
        let answers = book.run(&list, &mut space);
        expected.resize(space_for(&run.orders), 0);
        reference::run(&run.book, &run.orders, &mut expected);
        read_alike(answers, book, &Seen::read_all(&expected));
        assert!(typed.is_err() || typed == Ok(answers));
    }
    match typed {
        Ok(_) => "accepted",
        Err(_) => "refused",
    }
}

#[test]
fn seeded_runs_read_alike() {
    let mut tally = Tally::default();
    for seed in 0..5_000 {
        let run = Run::new(seed);
        let words = panic::catch_unwind(|| tried(&run));
        tally.add(words.unwrap_or_else(|_| panic!("seed {seed}")), 1);
    }
    println!("{tally}");
    assert_eq!(tally.kinds(), 3);
    tally.assert_each_above(100);
}

/// The refusal of a book whose rows alone were damaged, against their first byte that is at fault by the book
/// as it was described. What that byte is, in words.
fn named_row(book: &conformance::Book, bytes: &[u8]) -> String {
    let rows = row_bytes(book);
    let Some(first) = rows.iter().position(|byte| !byte.may_be(bytes[byte.at])) else {
        if let Some((sheet, row, at)) = first_fall(book, bytes) {
            let place = (at / 4) as u16;
            let refusal = Refusal::Rising { place, sheet, row };
            assert_eq!(fitting::check(bytes), Err(refusal));
            return "rows that don't rise".into();
        }
        assert!(fitting::check(bytes).is_ok());
        let any = rows.iter().any(|byte| bytes[byte.at] == ANY);
        return format!("none, {} any", if any { "with" } else { "without" });
    };
    let byte = &rows[first];
    let before = rows[..first].iter().filter(|it| it.sheet == byte.sheet);
    let (place, sheet) = ((byte.at / 4) as u16, byte.sheet as u8);
    let row = (before.count() / 4) as u16;
    let refusal = if byte.region == Region::RowValue {
        let column = book.sheets[byte.sheet].columns[byte.at % 4];
        Refusal::Value {
            place,
            sheet,
            row,
            column,
            value: bytes[byte.at],
            count: book.counts[usize::from(column)],
        }
    } else {
        let used = byte.region == Region::RowFiller;
        Refusal::Filler {
            place,
            sheet,
            row,
            used,
        }
    };
    assert_eq!(fitting::check(bytes), Err(refusal));
    let found = RowPlace::of(bytes, place).and_then(|place| place.byte);
    assert_eq!(found, Some((byte.at % 4) as u8));
    format!("{:?}{}", byte.region, near_any(byte, bytes))
}

/// The first row of a forbidden sheet that isn't above the one before it: sheet, row, and where it stands.
fn first_fall(book: &conformance::Book, bytes: &[u8]) -> Option<(u8, u16, usize)> {
    let sheets = (0..).zip(&book.sheets).filter(|(_, sheet)| sheet.forbidden);
    let mut sheets = sheets.zip(rising_rows(book));
    sheets.find_map(|((number, _), rows)| {
        let falls = |r: usize| bytes[rows[r]..][..4] <= bytes[rows[r - 1]..][..4];
        let row = (1..rows.len()).find(|&r| falls(r))?;
        Some((number, row as u16, rows[row]))
    })
}

/// Words on 255 in a wrong byte, or before it in its row.
fn near_any(byte: &RowByte, bytes: &[u8]) -> &'static str {
    let before = &bytes[byte.at / 4 * 4..byte.at];
    match bytes[byte.at] {
        ANY => ", 255",
        _ if before.contains(&ANY) => ", after any",
        _ => "",
    }
}

#[test]
fn the_first_wrong_row_is_named() {
    let regions = [
        Region::RowValue,
        Region::RowFiller,
        Region::UnusedRow,
        Region::RowOrder,
    ];
    let mut tally = Tally::default();
    for seed in 0..20_000 {
        let random = &mut Random::new(seed);
        let book = any_book(random);
        let whole = write(&book);
        let mut bytes = whole.clone();
        for _ in 0..random.within(1..=3) {
            let region = random.pick(&regions);
            region.damage(random, &book, &whole, &mut bytes);
        }
        mend(&mut bytes);
        let first = panic::catch_unwind(|| named_row(&book, &bytes));
        let first = first.unwrap_or_else(|_| panic!("seed {seed}"));
        tally.add(&first, 1);
    }
    println!("{tally}");
    assert_eq!(tally.kinds(), 11);
    tally.assert_each_above(100);
}

/// Words that name the field at this place of a head, and how many bytes it has.
fn field_at(head: &[u8], place: usize) -> (String, usize) {
    let sheet = place.wrapping_sub(24) / 8;
    match place {
        0 => ("the letters".into(), 4),
        4 => ("the number of columns C".into(), 1),
        5 => ("the number of sheets S".into(), 1),
        8..=23 => (format!("column {}'s V", place - 8), 1),
        24..=87 if sheet < head[5].into() && place % 8 == 6 => {
            (format!("sheet {sheet}'s row count"), 2)
        }
        24..=87 => (format!("sheet {sheet}'s "), 1),
        _ => (format!("byte {place}"), 1),
    }
}

/// A wrong field is named by its place, with what stands there.
fn named_field(bytes: &[u8], offset: usize, field: Field) {
    let (name, length) = field_at(bytes, offset);
    let mut found = [0; 4];
    found[..length].copy_from_slice(&bytes[offset..][..length]);
    let found = u32::from_le_bytes(found);
    assert_eq!(field.found, found, "{field}");
    let sentence = field.to_string();
    assert!(sentence.contains(&name), "{field}");
    let shown = format!(", {found}, is not ");
    assert!(offset == 0 || sentence.contains(&shown), "{field}");
}

/// Every byte of a head as every number. Where that makes other rows wrong, or their number, it is named too.
#[test]
fn every_wrong_field_is_named() {
    let mut tally = Tally::default();
    for book in [harbour(), regular(16, 32, 8, 130, 4)] {
        let whole = write(&book);
        for (at, value) in (0..508).flat_map(|at| (0..=255).map(move |value| (at, value))) {
            let mut bytes = whole.clone();
            bytes[at] = value;
            mend_block(&mut bytes, 0);
            let Err(refusal) = fitting::check(&bytes) else {
                continue;
            };
            let number = refused(refusal.number(), refusal.place().into());
            assert_eq!(number, fitting::check_number(&bytes));
            match refusal {
                Refusal::Head { offset, field } => named_field(&bytes, offset.into(), field),
                Refusal::Other { .. } => panic!("{refusal}"),
                _ => {}
            }
            tally.add(&format!("refusal {}", refusal.number()), 1);
        }
    }
    println!("{tally}");
    // The eight sheets of the larger book, each made a forbidden one by its width byte: their rows don't rise.
    assert_eq!((tally.kinds(), tally.of("refusal 7")), (5, 8));
    tally.assert_each_above(7);
}
