//! The page of the documents: the words of `page.md`, and in them the figures of the run.

use crate::gecode;
use crate::limit;
use crate::measurement::{thousands, time, Kind, Measurement, Opponent, Tries};
use crate::subjects::{size_of, Subject};
use crate::Effort;

/// Ratios within a tenth of 1 count as alike; what is shown as 1.10 is within.
const ALIKE: f64 = 1.105;

/// What is shown of a run.
pub struct Page<'a> {
    pub measurements: &'a [Measurement],
    /// Finishes that their limit stopped.
    pub stopped: &'a [Tries],
    pub subjects: &'a [Subject],
    pub forbidden: &'a Forbidden,
    pub effort: &'a Effort,
}

/// What is shown of the books with forbidden sheets.
pub struct Forbidden {
    pub measurements: Vec<Measurement>,
    pub subjects: Vec<Subject>,
}

impl Forbidden {
    /// The table in Markdown, laid out so that it also reads well in a terminal.
    pub fn table(&self) -> String {
        let mut text = String::from(HEAD_OF_FORBIDDEN);
        let mut kind = None;
        for it in &self.measurements {
            if kind.replace(it.kind) != Some(it.kind) {
                let title = format!("**{}**", it.kind.title());
                text += &line_of_forbidden(&title, "", Default::default(), "");
            }
            let opponents = [
                Opponent::Gecode,
                Opponent::GecodeWithTables,
                Opponent::Plain,
            ];
            let times = opponents.map(|opponent| it.times_text(opponent));
            text += &line_of_forbidden(&it.book, &time(it.library), times, &it.note);
        }
        text
    }

    /// In how many rows Gecode is slower and faster.
    fn against_gecode(&self) -> String {
        let ratios = self.measurements.iter();
        let ratios = ratios.filter_map(|it| it.ratio(Opponent::Gecode));
        let slower = ratios.clone().filter(|it| *it < 1.0 / ALIKE).count();
        let faster = ratios.clone().filter(|it| *it > ALIKE).count();
        let alike = ratios.count() - slower - faster;
        format!(
            "Gecode is slower by more than a tenth in {slower} rows, alike in {alike}, faster in \
             {faster}."
        )
    }
}

impl Page<'_> {
    /// The whole page.
    pub fn text(&self) -> String {
        let gecode = gecode::version().map_or(
            "Gecode, which was not found when this was built: it has no figures".into(),
            |version| format!("Gecode {version}"),
        );
        let mut text = include_str!("page.md").to_string();
        let mut fill = |name: &str, words: &str| text = text.replace(&format!("{{{name}}}"), words);
        fill("machine", &self.machine());
        fill("gecode", &gecode);
        fill("table", &self.table());
        fill("forbidden", &self.forbidden.table());
        fill("forbidden against Gecode", &self.forbidden.against_gecode());
        fill("forbidden books", &books(&self.forbidden.subjects));
        fill("tries", &self.tries());
        fill("limit", &thousands(self.effort.limit.get().into()));
        fill("worst try", &self.worst_try());
        fill("books of the limit", &books_of_the_limit());
        fill("books", &books(self.subjects));
        fill("seeded books", &thousands(self.effort.books));
        fill("seeded lists", &thousands(self.effort.lists));
        fill("seeded with Gecode", &thousands(self.effort.gecode));
        fill("against hand", &self.against(Opponent::Hand));
        fill("against packed", &self.against(Opponent::Packed));
        fill("against Gecode", &self.against(Opponent::Gecode));
        fill("against plain", &self.against(Opponent::Plain));
        for kind in Kind::ALL {
            fill(&format!("slower {}", kind.title()), &self.slower(kind));
        }
        text
    }

    /// The processor, where the system tells it, and how many rounds there were.
    pub fn machine(&self) -> String {
        machine(self.measurements)
    }

    /// The table in Markdown, laid out so that it also reads well in a terminal.
    pub fn table(&self) -> String {
        let mut text = String::from(HEAD);
        let mut kind = None;
        for it in self.measurements {
            if kind.replace(it.kind) != Some(it.kind) {
                let title = format!("**{}**", it.kind.title());
                text += &line(&title, "", Default::default(), "");
            }
            let ratios = Opponent::ALL.map(|opponent| it.ratio_text(opponent));
            text += &line(&it.book, &time(it.library), ratios, &it.note);
        }
        text
    }

    /// The tries of every finish, laid out in the same way.
    pub fn tries(&self) -> String {
        let mut text = String::from(HEAD_OF_TRIES);
        let finishes = self.measurements.iter().filter_map(|it| it.tries.as_ref());
        for it in finishes.chain(self.stopped) {
            let (each, said) = (it.each(), it.said());
            let a_second = match 1e9 / each {
                whole if whole.is_finite() => thousands(whole as u64),
                _ => "-".into(),
            };
            let (whole, each) = (time(it.nanos), time(each));
            let book = &it.book;
            text +=
                &format!("| {book:32} | {said:26} | {whole:>7} | {each:>7} | {a_second:>14} |\n");
        }
        text
    }

    /// The time of the slowest tries, in words.
    fn worst_try(&self) -> String {
        let slowest = |a: &&Tries, b: &&Tries| a.each().total_cmp(&b.each());
        let worst = self.stopped.iter().max_by(slowest);
        worst.map_or("-".into(), |it| {
            format!("{} ({}: {})", time(it.each()), it.book, time(it.nanos))
        })
    }

    /// How the library does against this opponent, over all rows.
    fn against(&self, opponent: Opponent) -> String {
        let ratio = |it| Measurement::ratio(it, opponent).map(|ratio| (ratio, it));
        let mut ratios: Vec<_> = self.measurements.iter().filter_map(ratio).collect();
        ratios.sort_by(|(a, _), (b, _)| a.total_cmp(b));
        let [Some((_, least)), Some((_, most))] = [ratios.first(), ratios.last()] else {
            return "no figures.".into();
        };
        let slower = ratios.iter().filter(|(it, _)| *it > ALIKE).count();
        let faster = ratios.iter().filter(|(it, _)| *it < 1.0 / ALIKE).count();
        let (rows, alike) = (ratios.len(), ratios.len() - slower - faster);
        let [least, most] = [least, most].map(|it| {
            let (ratio, title) = (it.ratio_text(opponent), it.kind.title());
            format!("{ratio} ({title}: {})", it.book)
        });
        format!(
            "of {rows} rows the library is slower by more than a tenth in {slower}, alike in {alike}, \
             faster in {faster}; the ratios go from {least} to {most}."
        )
    }

    /// The rows of this kind in which the library is slower than the hand-optimised opponent.
    fn slower(&self, kind: Kind) -> String {
        let is_slower = |it: &&Measurement| {
            it.kind == kind && it.ratio(Opponent::Hand).is_some_and(|ratio| ratio > ALIKE)
        };
        let row = |it: &Measurement| format!("{} ({})", it.book, it.ratio_text(Opponent::Hand));
        let rows = self.measurements.iter().filter(is_slower).map(row);
        match rows.collect::<Vec<_>>().join("; ") {
            none if none.is_empty() => "nowhere by more than a tenth".into(),
            rows => rows,
        }
    }
}

/// The processor, where the system tells it, and how many rounds there were.
pub fn machine(measurements: &[Measurement]) -> String {
    let told = std::fs::read_to_string("/proc/cpuinfo").unwrap_or_default();
    let line = told.lines().find(|line| line.starts_with("model name"));
    let name = line.and_then(|line| line.split_once(": "));
    let name = name.map_or("a processor without a name", |(_, name)| name.trim());
    let rounds = || measurements.iter().map(|it| it.rounds);
    let (least, most) = (rounds().min().unwrap_or(0), rounds().max().unwrap_or(0));
    format!("{name}, {least} to {most} rounds a row")
}

const HEAD: &str = "\
| book                           | library | / hand-optimised | / packed | / Gecode | / Gecode + tables | / plain | outcome                                |
|--------------------------------|--------:|-----------------:|---------:|---------:|------------------:|--------:|----------------------------------------|
";

const HEAD_OF_TRIES: &str = "\
| book                             | outcome                    |    time |   a try | tries a second |
|----------------------------------|----------------------------|--------:|--------:|---------------:|
";

const HEAD_OF_FORBIDDEN: &str = "\
| book                           | library | Gecode / library | Gecode + tables / library | in plain sheets / library | outcome                                |
|--------------------------------|--------:|-----------------:|--------------------------:|--------------------------:|----------------------------------------|
";

fn books(subjects: &[Subject]) -> String {
    let book = |it: &Subject| format!("- **{}**: {}\n", it.name, it.size);
    subjects.iter().map(book).collect()
}

fn books_of_the_limit() -> String {
    let book = |(name, book)| {
        let length = conformance::write(&book).len();
        format!("- **{name}**: {}\n", size_of(&book, length))
    };
    limit::books().into_iter().map(book).collect()
}

fn line(book: &str, library: &str, ratios: [String; Opponent::ALL.len()], note: &str) -> String {
    let [hand, packed, gecode, with_tables, plain] = ratios;
    format!(
        "| {book:30} | {library:>7} | {hand:>16} | {packed:>8} | {gecode:>8} | {with_tables:>17} | {plain:>7} | {note:38} |\n"
    )
}

fn line_of_forbidden(book: &str, library: &str, times: [String; 3], note: &str) -> String {
    let [gecode, with_tables, plain] = times;
    format!(
        "| {book:30} | {library:>7} | {gecode:>16} | {with_tables:>25} | {plain:>25} | {note:38} |\n"
    )
}

#[cfg(test)]
mod tests {
    use super::*;
    use fitting::Outcome;

    #[test]
    fn the_page_is_filled_and_has_every_row() {
        let tries = |book: &str, outcome, tries| Tries {
            book: book.into(),
            outcome,
            tries,
            nanos: 100.0,
        };
        let row = |kind, book: &str, hand| Measurement {
            kind,
            book: book.into(),
            note: String::new(),
            tries: (kind == Kind::Finish).then(|| tries(book, Outcome::Found, 2)),
            library: 100.0,
            others: [Some(hand), None, Some(30_000.0), Some(-1.0), Some(80.0)],
            rounds: 301,
        };
        let rows = |kind| [row(kind, "easy", 110.0), row(kind, "hard", 50.0)];
        let measurements = Kind::ALL.map(rows);
        let forbidden = Forbidden {
            measurements: vec![
                row(Kind::Check, "few", 110.0),
                row(Kind::Narrow, "few", 1.0),
            ],
            subjects: vec![],
        };
        let page = Page {
            measurements: measurements.as_flattened(),
            stopped: &[tries("endless", Outcome::Stopped, 5)],
            subjects: &[],
            forbidden: &forbidden,
            effort: &Effort::new(true),
        };
        let text = page.text();
        assert!(!text.contains(['{', '}']), "{text}");
        // In the table of tries once more.
        assert_eq!(text.matches("\n| easy ").count(), 8);
        let ratios: String = text.split_whitespace().collect();
        assert!(
            ratios.contains("|hard|100ns|2.00|-|0.003|-|1.25||"),
            "{ratios}"
        );
        assert_eq!(
            ratios.matches("|few|100ns|300|-|0.80||").count(),
            2,
            "{ratios}"
        );
        assert!(text.contains("slower by more than a tenth in 2 rows, alike in 0, faster in 0"));
        let width = |line: &str| line.chars().count();
        for table in [page.table(), page.tries(), forbidden.table()] {
            let widths: Vec<usize> = table.lines().map(width).collect();
            assert!(widths.iter().all(|width| *width == widths[0]));
        }
        let words: String = page.tries().split_whitespace().collect();
        for row in [
            "|easy|foundafter2tries|100ns|50.0ns|20,000,000|",
            "|endless|stoppedafter5tries|100ns|20.0ns|50,000,000|",
        ] {
            assert!(words.contains(row), "{words}");
        }
        assert!(text.contains("20.0 ns (endless: 100 ns)"), "{text}");
        let counts = "slower by more than a tenth in 7, alike in 7, faster in 0";
        assert!(text.contains(counts), "{text}");
        assert_eq!(text.matches("**: hard (2.00). ").count(), 7);
        assert!(text.contains("**Against the packed engine**: no figures."));
        let picture = crate::picture::svg(page.measurements, "Some Processor 9");
        assert_eq!(picture.matches(">hard<").count(), 7);
    }
}
