//! The proved library timed against hand-optimised code that nothing proves, and against Gecode where
//! it is installed.
//!
//! `cargo run --release -p bench` prints a table of ratios in Markdown, and writes it into the
//! documents with a picture of it. With `-- --quick` it makes few rounds and writes nothing; with
//! `-- --out FOLDER` it writes there; with `-- --forbidden` it takes the books with forbidden sheets alone, in a
//! minute or two, and writes nothing. Both sides are code for plain x86-64, and all are called in turn, round by
//! round.
//!
//! - What is timed: `subjects`, with the books of `hard` and of `worst`; those of `forbidden`, which have a table of
//!   their own; and those of `limit`, which the limit of a finish stops.
//! - Who is timed: the library, `opponents`, frozen at document 01, and `gecode`. `agree` sees first
//!   that all show the same.
//! - The timing: `timed`, which says who does what, and `race`.
//! - What is shown: `measurement` is the one list of figures; `page`, its words in `page.md`; `picture`.

mod agree;
mod forbidden;
mod gecode;
mod hard;
mod limit;
mod measurement;
mod opponents;
mod page;
mod picture;
mod race;
mod subjects;
mod timed;
mod worst;

use measurement::{Kind, Measurement, Tries};
use page::{Forbidden, Page};
use std::num::NonZeroU16;
use std::path::{Path, PathBuf};
use std::process::ExitCode;
use std::time::Duration;
use subjects::Subject;

const USAGE: &str = "options: --quick (few rounds, no files), --out FOLDER (for the files), \
                     --forbidden (only the books with forbidden sheets, no files)";

/// The repository's documents.
const DOCUMENTS: &str = concat!(env!("CARGO_MANIFEST_DIR"), "/../../docs");

/// How long each row may take where only the books with forbidden sheets are asked for.
const PATIENCE: Duration = Duration::from_millis(500);

/// What a quick run lets a finish try.
const FEW_TRIES: NonZeroU16 = NonZeroU16::new(500).unwrap();

/// How much is compared, and how long is timed.
struct Effort {
    /// Seeded inputs that all must agree on: books, lists, and lists with Gecode among them.
    books: u64,
    lists: u64,
    gecode: u64,
    /// What the turns of one call in one round fill.
    round: Duration,
    /// The most rounds, and the fewest, of what takes long.
    rounds: u64,
    fewest: u64,
    /// What rounds past the fewest may take.
    patience: Duration,
    /// The tries of a finish that is stopped.
    limit: NonZeroU16,
}

impl Effort {
    /// Few rounds show that everything works; their figures say little.
    fn new(quick: bool) -> Self {
        let choice = |few, many| if quick { few } else { many };
        Self {
            books: choice(500, 20_000),
            lists: choice(500, 10_000),
            gecode: choice(50, 1_000),
            round: Duration::from_micros(choice(50, 400)),
            rounds: choice(7, 301),
            fewest: choice(3, 15),
            patience: Duration::from_millis(choice(50, 3_000)),
            limit: if quick { FEW_TRIES } else { NonZeroU16::MAX },
        }
    }
}

fn main() -> ExitCode {
    let Some(options) = options(std::env::args().skip(1)) else {
        eprintln!("{USAGE}");
        return ExitCode::from(2);
    };
    let mut effort = Effort::new(options.quick);
    if options.forbidden {
        effort.patience = effort.patience.min(PATIENCE);
        let forbidden = forbidden(&effort);
        let machine = page::machine(&forbidden.measurements);
        println!("{machine}\n\n{}", forbidden.table());
        return ExitCode::SUCCESS;
    }
    let effort = &effort;
    let subjects = subjects::subjects();
    eprintln!("compared: what all show of seeded inputs");
    agree::on_seeds(effort);
    let page = Page {
        measurements: &measured(&subjects, effort),
        stopped: &stopped(effort),
        subjects: &subjects,
        forbidden: &forbidden(effort),
        effort,
    };
    let tables = [page.table(), page.forbidden.table(), page.tries()];
    println!("{}\n\n{}", page.machine(), tables.join("\n"));
    if let Some(folder) = options.folder {
        put(&folder.join("BENCH.md"), &page.text());
        let picture = picture::svg(page.measurements, &page.machine());
        put(&folder.join("bench.svg"), &picture);
    }
    ExitCode::SUCCESS
}

/// What is asked for.
#[derive(PartialEq, Debug)]
struct Options {
    /// Few rounds.
    quick: bool,
    /// Only the books with forbidden sheets.
    forbidden: bool,
    /// Where to write.
    folder: Option<PathBuf>,
}

/// A full run writes into the documents unless another folder is named; a quick one only if one is, and one of the
/// books with forbidden sheets never. None for anything else.
fn options(mut arguments: impl Iterator<Item = String>) -> Option<Options> {
    let (mut quick, mut forbidden, mut folder) = (false, false, None);
    while let Some(argument) = arguments.next() {
        match argument.as_str() {
            "--quick" => quick = true,
            "--forbidden" => forbidden = true,
            "--out" => folder = Some(arguments.next()?.into()),
            _ => return None,
        }
    }
    if forbidden && folder.is_some() {
        return None;
    }
    let unasked = (!quick && !forbidden).then(|| DOCUMENTS.into());
    Some(Options {
        quick,
        forbidden,
        folder: folder.or(unasked),
    })
}

/// The books with forbidden sheets, and each kind on each of them.
fn forbidden(effort: &Effort) -> Forbidden {
    let subjects = subjects::forbidding();
    Forbidden {
        measurements: measured(&subjects, effort),
        subjects,
    }
}

/// Each kind on each of its books, one kind after the other. All are compared first.
fn measured(subjects: &[Subject], effort: &Effort) -> Vec<Measurement> {
    eprintln!("compared: what all show of {} books", subjects.len());
    let tables: Vec<_> = subjects.iter().map(Subject::tables).collect();
    for (subject, tables) in subjects.iter().zip(&tables) {
        agree::on_subject(subject, tables.as_ref());
    }
    let mut measurements = Vec::new();
    for kind in Kind::ALL {
        eprintln!("timed: {}", kind.title());
        for (subject, tables) in subjects.iter().zip(&tables) {
            if subject.kinds.contains(&kind) {
                measurements.push(timed::measure(kind, subject, tables.as_ref(), effort));
            }
        }
    }
    measurements
}

/// A finish of each book that the limit stops.
fn stopped(effort: &Effort) -> Vec<Tries> {
    eprintln!("timed: {} tries", effort.limit);
    let time = |(name, book)| timed::stopped(name, &conformance::write(&book), effort);
    limit::books().into_iter().map(time).collect()
}

/// Writes a file. Where that can't be done the figures have been printed all the same.
fn put(file: &Path, text: &str) {
    match std::fs::write(file, text) {
        Ok(()) => eprintln!("written: {}", file.display()),
        Err(error) => eprintln!("not written: {}: {error}", file.display()),
    }
}

#[cfg(test)]
mod tests {
    use super::*;

    #[test]
    fn only_a_full_run_writes_unasked() {
        let of = |words: &str| options(words.split_whitespace().map(String::from));
        let options = |quick, forbidden, folder: Option<&str>| {
            let folder = folder.map(PathBuf::from);
            Some(Options {
                quick,
                forbidden,
                folder,
            })
        };
        assert_eq!(of(""), options(false, false, Some(DOCUMENTS)));
        assert_eq!(of("--quick"), options(true, false, None));
        assert_eq!(of("--quick --out x"), options(true, false, Some("x")));
        assert_eq!(of("--forbidden"), options(false, true, None));
        assert_eq!(of("--forbidden --quick"), options(true, true, None));
        for wrong in ["--out", "--fast", "--forbidden --out x"] {
            assert_eq!(of(wrong), None);
        }
        assert!(Path::new(DOCUMENTS).join("DECISIONS.md").exists());
    }
}
