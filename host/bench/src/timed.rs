//! Who is timed, and with what. There is no call for an opening or for one order: each is what it adds
//! to a run.

use crate::gecode::{distances, Tables};
use crate::measurement::{thousands, time, Kind, Measurement, Opponent, Tries};
use crate::opponents::{self, Packed, Shown, Words, NOTHING};
use crate::race::{median, race, Job};
use crate::subjects::{Subject, TURNS};
use crate::Effort;
use conformance::Order;
use fitting::{OrderList, Outcome};
use std::cell::RefCell;
use std::hint::black_box;
use std::num::NonZeroU16;
use std::time::Instant;

/// What is done with a book: lists, and one that is taken off each of them. The figure is for one of so
/// many parts.
#[derive(Clone, Copy)]
struct Work<'a> {
    lists: &'a [Vec<Order>],
    less: Option<&'static [u8]>,
    parts: f64,
}

/// None is the library itself. Of several contenders of one opponent the fastest counts.
type Contender<'a> = (Option<Opponent>, Job<'a>);

impl<'a> Work<'a> {
    /// Done by somebody who does this with a list.
    fn by(self, who: Option<Opponent>, call: impl Fn(&[u8]) + Copy + 'a) -> Contender<'a> {
        let Self { lists, less, parts } = self;
        let whole = move || lists.iter().for_each(|list| call(list.as_flattened()));
        let mut job: Job = vec![(1.0 / parts, Box::new(whole))];
        if let Some(less) = less {
            let weight = -(lists.len() as f64) / parts;
            job.push((weight, Box::new(move || call(less))));
        }
        (who, job)
    }
}

/// Times one kind on one book.
pub fn measure(
    kind: Kind,
    subject: &Subject,
    gecode: Option<&Tables>,
    effort: &Effort,
) -> Measurement {
    let lists = &subject.lists(kind);
    let turns = if kind == Kind::ToAndFro { TURNS } else { 1 };
    let work = Work {
        lists,
        less: match kind {
            // A run of a single byte is refused as soon as the book has been checked.
            Kind::Opening => Some(&[0]),
            Kind::Narrow | Kind::ToAndFro | Kind::Finish => Some(&[]),
            Kind::Check | Kind::Short | Kind::Long => None,
        },
        parts: (lists.len() * turns) as f64,
    };
    let book = &subject.book;
    let mut contenders = match (subject.is_plain(), kind) {
        (false, _) => by_itself(kind, work, book, subject.plain.as_deref()),
        (true, Kind::Check) => checks(work, book),
        (true, _) => runs(work, book),
    };
    contenders.extend(gecode.into_iter().flat_map(|it| by_gecode(kind, work, it)));
    let (who, jobs): (Vec<_>, Vec<_>) = contenders.into_iter().unzip();
    let (mut library, mut others, mut rounds) = (f64::NAN, [None; Opponent::ALL.len()], 0);
    for (who, times) in who.into_iter().zip(race(&jobs, effort)) {
        rounds = times.len();
        let time = median(times);
        match who.map(|it: Opponent| &mut others[it as usize]) {
            None => library = time,
            Some(best) => *best = Some(best.map_or(time, |best: f64| best.min(time))),
        }
    }
    let tries = (kind == Kind::Finish).then(|| {
        let (outcome, tries) = finish(&subject.book, NonZeroU16::MAX);
        Tries {
            book: subject.name.clone(),
            outcome,
            tries,
            nanos: library,
        }
    });
    Measurement {
        kind,
        book: subject.name.clone(),
        note: note(kind, &subject.book, tries.as_ref()),
        tries,
        library,
        others,
        rounds,
    }
}

fn checks<'a>(work: Work<'a>, book: &'a [u8]) -> Vec<Contender<'a>> {
    let by =
        |who, check: fn(&[u8]) -> u64| work.by(who, move |_| _ = black_box(check(black_box(book))));
    let hand = by(Some(Opponent::Hand), opponents::check);
    vec![by(None, fitting::check_number), hand]
}

/// What a run writes into. It is one for all, so that no call pays for clearing one.
struct Space {
    answers: [u8; fitting::space_for(256)],
    shown: [Shown; 257],
}

thread_local! {
    static SPACE: RefCell<Space> =
        const { RefCell::new(Space { answers: [0; _], shown: [NOTHING; _] }) };
}

/// Of a book that isn't plain the library is its own opponent, on one that is, where there is one.
fn by_itself<'a>(
    kind: Kind,
    work: Work<'a>,
    book: &'a [u8],
    plain: Option<&'a [u8]>,
) -> Vec<Contender<'a>> {
    let of = |book| match kind {
        Kind::Check => checks(work, book),
        _ => runs(work, book),
    };
    let library = |book| of(book).swap_remove(0).1;
    let plain = plain.map(|plain| (Some(Opponent::Plain), library(plain)));
    [(None, library(book))].into_iter().chain(plain).collect()
}

/// Runs over a plain book; the library comes first.
fn runs<'a>(work: Work<'a>, book: &'a [u8]) -> Vec<Contender<'a>> {
    let by = |who, run: fn(&[u8], &[u8], &mut Space) -> u64| {
        work.by(who, move |list| {
            SPACE.with_borrow_mut(|space| {
                black_box(run(black_box(book), black_box(list), black_box(space)));
            });
        })
    };
    vec![
        by(None, |book, list, to| {
            fitting::run_number(book, list, &mut to.answers)
        }),
        by(Some(Opponent::Hand), |book, list, to| {
            opponents::run::<Words>(book, list, &mut to.shown)
        }),
        by(Some(Opponent::Packed), |book, list, to| {
            opponents::run::<Packed>(book, list, &mut to.shown)
        }),
    ]
}

/// Gecode checks no book, so nothing is taken off its opening; and a finish starts there. Its search
/// has two settings.
fn by_gecode<'a>(kind: Kind, work: Work<'a>, tables: &'a Tables) -> Vec<Contender<'a>> {
    let alone = Work { less: None, ..work };
    let built = Some(Opponent::Gecode);
    let run = |distance| move |list: &[u8]| tables.run(list.as_chunks().0, distance);
    let build = |distance| move |list: &[u8]| tables.again().run(list.as_chunks().0, distance);
    let building = |distance| alone.by(Some(Opponent::GecodeWithTables), build(distance));
    let [every, some] = distances();
    match kind {
        Kind::Check => vec![],
        Kind::Opening => vec![alone.by(built, run(every)), building(every)],
        Kind::Narrow | Kind::ToAndFro => vec![work.by(built, run(every))],
        Kind::Finish => [every, some]
            .map(|distance| alone.by(built, move |_| tables.finish(distance)))
            .into(),
        Kind::Short | Kind::Long => {
            let runs = [every, some].map(|distance| alone.by(built, run(distance)));
            runs.into_iter()
                .chain([every, some].map(building))
                .collect()
        }
    }
}

/// What a finish of the library at the opening of a book says, and its tries.
pub fn finish(book: &[u8], limit: NonZeroU16) -> (Outcome, u16) {
    let mut list = OrderList::new();
    list.finish_within(limit).expect("an empty list has room");
    let mut space = [0; fitting::space_for(1)];
    let answers = fitting::run(book, &list, &mut space).expect("a right book");
    let said = answers.last();
    let said = said.outcome().zip(said.tries());
    said.expect("an accepted finish")
}

/// Times the library alone on a finish that its limit stops. It goes on for as long as patience lasts, and
/// the quickest counts: nothing is compared with it.
pub fn stopped(name: &str, book: &[u8], effort: &Effort) -> Tries {
    let start = Instant::now();
    let mut nanos = f64::INFINITY;
    while nanos.is_infinite() || start.elapsed() < effort.patience {
        let start = Instant::now();
        let said = finish(black_box(book), effort.limit);
        nanos = nanos.min(start.elapsed().as_secs_f64() * 1e9);
        assert_eq!(said, (Outcome::Stopped, effort.limit.get()), "{name}");
    }
    Tries {
        book: name.into(),
        outcome: Outcome::Stopped,
        tries: effort.limit.get(),
        nanos,
    }
}

/// What came of it. A finish has its time for each try here.
fn note(kind: Kind, book: &[u8], tries: Option<&Tries>) -> String {
    match (kind, tries) {
        (_, Some(tries)) => format!("{}, {} a try", tries.said(), time(tries.each())),
        (Kind::Check, _) => {
            let number = fitting::check_number(book);
            let outcome = match (number >> 16, number & 0xFFFF) {
                (0, _) => "accepted".into(),
                (refusal, place) => format!("refusal {refusal} place {place}"),
            };
            format!("{} bytes, {outcome}", thousands(book.len() as u64))
        }
        _ => String::new(),
    }
}
