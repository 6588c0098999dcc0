//! The library, the hand-written opponents and Gecode must show the same before their times say
//! anything.
//!
//! The opponents are frozen at document 01, so only what newer papers leave alone is compared: plain
//! books and plain orders; of a book that isn't plain, its length and its checks. They know no limit of tries
//! and may search without end, so a finish that the library stops is left out; but they count tries, so those
//! of the others are compared.
//!
//! Forbidden sheets are known to Gecode. Where a book with such sheets can be written in plain ones, the library must
//! say the same of both, byte for byte, and what the opponents show of the plain one is compared too.

use crate::gecode::{distances, Tables};
use crate::measurement::Kind;
use crate::opponents::{self, finish, Finish, Packed, Shown, Words, NOTHING};
use crate::subjects::Subject;
use crate::{timed, Effort};
use conformance::{Case, Order, Run, ANY};
use fitting::Outcome;
use std::num::NonZeroU16;

/// "Byte 3 is 3, stopped"
const STOPPED: u8 = 3;

/// Panics where they differ on a seeded input.
pub fn on_seeds(effort: &Effort) {
    for seed in 0..effort.books {
        on_book(&Case::new(seed).bytes);
    }
    for seed in 0..effort.lists {
        let Run { book, orders, .. } = Run::new(seed);
        let plain = on_book(&book);
        if !plain && !is_for_gecode(&book) {
            continue;
        }
        let orders = orders.as_chunks().0.iter().filter(|order| is_plain(order));
        let orders = ending(&book, orders.take(256).copied().collect());
        let gecode = (seed < effort.gecode).then(|| Tables::of(&book)).flatten();
        if plain {
            on_tries(&book);
            on_list(&book, &orders, gecode.as_ref());
        } else {
            on_gecode(&book, &orders, gecode.as_ref());
        }
    }
}

/// Whether this is a book with forbidden sheets, accepted, that Gecode can be given as it is: without short rows.
fn is_for_gecode(book: &[u8]) -> bool {
    fitting::check(book).is_ok_and(|book| {
        let mut cells = book.sheets().flat_map(|sheet| sheet.rows().flatten());
        book.sheets().any(|sheet| sheet.forbids()) && cells.all(|cell| *cell != ANY)
    })
}

/// Panics where they differ on something that is timed on this subject.
pub fn on_subject(subject: &Subject, gecode: Option<&Tables>) {
    let Subject { name, book, .. } = subject;
    let plain = on_book(book);
    if subject.forbids {
        return on_forbidding(subject, gecode);
    }
    if subject.plain.is_some() {
        return on_short(subject);
    }
    assert_eq!(plain, fitting::check_number(book) >> 16 == 0, "{name}");
    if subject.kinds == [Kind::Check] {
        return;
    }
    for numbers in [by_library(book, &[0]), by_opponents(book, &[0])[0].clone()] {
        assert_eq!(numbers.0, 10 << 16, "{name}");
    }
    let finished = on_tries(book).expect("its finish ends");
    for kind in Kind::ALL {
        for list in subject.lists(kind) {
            let shown = on_list(book, &list, gecode);
            as_it_is_timed(name, kind, &list, &shown);
            if kind == Kind::Finish {
                assert_eq!(shown[1].domains, finished.domains, "{name}");
            }
        }
    }
}

/// Nothing is refused, a narrow leaves the session alive, as a dead one would be no measure of it, and a back leads to
/// the opening.
fn as_it_is_timed(name: &str, kind: Kind, list: &[Order], shown: &[Shown]) {
    let refused = shown.iter().filter(|it| it.refusal != 0).count();
    assert_eq!((shown.len(), refused), (list.len() + 1, 0), "{name}");
    let last = shown[list.len()];
    match kind {
        Kind::Narrow => assert_ne!(last.status, 0, "{name}"),
        Kind::ToAndFro => assert_eq!(last, shown[0], "{name}"),
        _ => {}
    }
}

/// The library and Gecode show the same of a book with forbidden sheets, and the library the same as of the one in
/// plain sheets. Of that one the opponents do, where it has no short rows.
fn on_forbidding(subject: &Subject, gecode: Option<&Tables>) {
    let Subject { name, book, .. } = subject;
    let (outcome, tries) = timed::finish(book, NonZeroU16::MAX);
    assert_ne!(outcome, Outcome::Stopped, "{name}");
    let plain = subject.plain.as_deref();
    if let Some(plain) = plain.filter(|plain| on_book(plain)) {
        let finished = on_tries(plain).map(|it| it.tries);
        assert_eq!(finished, Some(tries.into()), "{name}");
    }
    for kind in Kind::ALL {
        for list in subject.lists(kind) {
            let shown = on_gecode(book, &list, gecode);
            as_it_is_timed(name, kind, &list, &shown);
            if let Some(plain) = plain {
                let [one, other] = [book, plain].map(|book| answers(book, list.as_flattened()));
                assert!(one == other, "{name}");
                if on_book(plain) {
                    assert_eq!(on_list(plain, &list, None), shown, "{name}");
                }
            }
        }
    }
}

/// What a finish at the opening comes to by the opponents; it must take the library as many tries. None where the
/// library is stopped.
fn on_tries(book: &[u8]) -> Option<Finish> {
    let (outcome, tries) = timed::finish(book, NonZeroU16::MAX);
    (outcome != Outcome::Stopped).then(|| {
        let [words, packed] = [finish::<Words>(book), finish::<Packed>(book)];
        assert_eq!(words, packed);
        assert_eq!(words.tries, tries.into());
        words
    })
}

/// These orders without the finishes that the library stops. A finish changes nothing, so the others show what
/// they showed.
fn ending(book: &[u8], orders: Vec<Order>) -> Vec<Order> {
    let mut answers = vec![0; fitting::space_for(orders.len())];
    fitting::run_number(book, orders.as_flattened(), &mut answers);
    let answers = answers.as_chunks::<72>().0[1..].iter();
    let ends = answers.map(|answer| answer[3] != STOPPED);
    let kept = orders.into_iter().zip(ends).filter(|(_, ends)| *ends);
    kept.map(|(order, _)| order).collect()
}

/// Nobody but the library knows a book with short rows: it must accept it, and its narrows must leave
/// the session alive. What it shows is compared elsewhere, with the reference.
fn on_short(subject: &Subject) {
    let name = &subject.name;
    assert_eq!(fitting::check_number(&subject.book) >> 16, 0, "{name}");
    for list in subject.lists(Kind::Narrow) {
        let (accepted, shown) = by_library(&subject.book, list.as_flattened());
        assert_eq!((accepted, shown[1].status != 0), (1, true), "{name}");
    }
}

/// Whether this is a plain book. The library must accept it too; and a wrong length or check is
/// refused alike.
fn on_book(book: &[u8]) -> bool {
    let number = opponents::check(book);
    if number >> 16 < 3 {
        assert_eq!(number, fitting::check_number(book));
    }
    number >> 16 == 0
}

/// Whether newer papers read this order as document 01 does: they use kinds and bytes that it has no
/// use for.
fn is_plain(order: &Order) -> bool {
    matches!(
        order,
        [1, _, 0, 0, ..] | [2 | 4, 0, 0, 0, 0, 0, 0, 0] | [3, _, 0, 0, 0, 0, 0, 0]
    )
}

/// What all show; they must show the same.
fn on_list(book: &[u8], orders: &[Order], gecode: Option<&Tables>) -> Vec<Shown> {
    let library = by_library(book, orders.as_flattened());
    for opponent in by_opponents(book, orders.as_flattened()) {
        assert!(opponent == library, "{opponent:?} and {library:?}");
    }
    on_gecode(book, orders, gecode)
}

/// What the library shows; Gecode must show the same. It gets only the accepted orders.
fn on_gecode(book: &[u8], orders: &[Order], gecode: Option<&Tables>) -> Vec<Shown> {
    let (_, shown) = by_library(book, orders.as_flattened());
    if let Some(gecode) = gecode {
        let answered = orders.iter().zip(&shown[1..]);
        let (accepted, domains): (Vec<Order>, Vec<_>) = answered
            .filter(|(_, it)| it.refusal == 0)
            .map(|(order, it)| (*order, it.domains))
            .unzip();
        for distance in distances() {
            let gecode = gecode.shown(&accepted, distance);
            assert_eq!(gecode[0], shown[0].domains);
            assert_eq!(gecode[1..], domains);
        }
    }
    shown
}

/// The number of a run, and what it shows.
type Ran = (u64, Vec<Shown>);

/// The number of a run of the library, and all that it writes.
fn answers(book: &[u8], orders: &[u8]) -> (u64, Vec<u8>) {
    let mut answers = vec![0; fitting::space_for(orders.len() / 8)];
    let number = fitting::run_number(book, orders, &mut answers);
    (number, answers)
}

fn by_library(book: &[u8], orders: &[u8]) -> Ran {
    let (number, answers) = answers(book, orders);
    let shown = |answer: &[u8; 72]| Shown {
        refusal: answer[0],
        status: answer[1],
        domains: std::array::from_fn(|i| u32::from_le_bytes(answer[8..].as_chunks().0[i])),
    };
    (number, answers.as_chunks().0.iter().map(shown).collect())
}

fn by_opponents(book: &[u8], orders: &[u8]) -> [Ran; 2] {
    [opponents::run::<Words>, opponents::run::<Packed>].map(|run| {
        let mut shown = [NOTHING; 257];
        let number = run(book, orders, &mut shown);
        (number, shown[..=orders.len().min(2_048) / 8].to_vec())
    })
}

#[cfg(test)]
mod tests {
    use super::*;
    use crate::subjects::{forbidding, subjects};

    #[test]
    fn all_agree_on_seeds() {
        on_seeds(&Effort::new(true));
    }

    #[test]
    fn all_agree_on_what_is_timed() {
        let subjects = subjects();
        for subject in &subjects {
            on_subject(subject, subject.tables().as_ref());
        }
        let plain = subjects.iter().filter(|it| it.plain.is_none());
        let numbers = plain.map(|it| opponents::check(&it.book));
        let refused: Vec<u64> = numbers.filter(|number| number >> 16 != 0).collect();
        // The places of document 01: block 32.
        assert_eq!(refused, [5 << 16 | 32, 2 << 16 | 32]);
    }

    #[test]
    fn all_agree_on_forbidden_sheets() {
        let subjects = forbidding();
        for subject in &subjects {
            on_subject(subject, subject.tables().as_ref());
        }
        // Only what is loose has no room in plain sheets.
        let loose = subjects.iter().filter(|it| it.plain.is_none());
        let names: Vec<&str> = loose.map(|it| &*it.name).collect();
        let [few, full] = ["few", "full"].map(|it| [2, 4].map(|k| format!("{it}, width {k}")));
        assert_eq!(names, [few, full].concat());
    }
}
