//! The books that are timed, and the lists that are timed on them.

use crate::forbidden;
use crate::gecode::Tables;
use crate::hard;
use crate::measurement::{thousands, Kind};
use crate::opponents::{finish, Packed};
use crate::worst;
use conformance::{
    all_values, back, harbour, mend, narrow, plant, regular, write, Book, Order, Random, Sheet,
    ANY, BLOCK, FINISH, MARK,
};

/// As many of mark, narrow and back as a list has room for.
pub const TURNS: usize = 85;

/// How many visits a long list has.
const VISITS: usize = 15;

/// A book, and what is timed on it.
pub struct Subject {
    pub name: String,
    /// How large the book is, in words.
    pub size: String,
    pub book: Vec<u8>,
    pub kinds: &'static [Kind],
    /// The same book without 255, where this one has short rows; without forbidden sheets, where it has these and
    /// there is room for their rows.
    pub plain: Option<Vec<u8>>,
    /// Whether it has forbidden sheets.
    pub forbids: bool,
    /// Narrows that cut rows and leave the session alive.
    narrows: Vec<Order>,
}

impl Subject {
    fn new(name: &str, book: &Book, kinds: &'static [Kind]) -> Self {
        let bytes = write(book);
        Self {
            name: name.into(),
            size: size_of(book, bytes.len()),
            kinds,
            narrows: match kinds {
                CHECKED => vec![],
                _ => narrows(book, &aim_of(book, &bytes)),
            },
            plain: None,
            forbids: false,
            book: bytes,
        }
    }

    /// This book with 255 in one cell of so many in a hundred of its rows; the narrows are the same.
    fn short(name: &str, book: &Book, percent: usize) -> Self {
        let mut short = book.clone();
        let random = &mut Random::new(percent as u64);
        for row in short.sheets.iter_mut().flat_map(|sheet| &mut sheet.rows) {
            if random.below(100) < percent {
                let place = random.below(row.len());
                row[place] = ANY;
            }
        }
        let plain = Self::new(&format!("{name}, {percent} % short"), book, SHORT);
        Self {
            size: format!("{}; 255 in {percent} % of the rows", plain.size),
            book: write(&short),
            plain: Some(plain.book),
            ..plain
        }
    }

    /// This book, which has short rows, and whether it allows all choices; its narrows are those of one with a seeded
    /// value in place of each 255.
    fn worst(name: &str, all: bool, book: &Book) -> Self {
        let mut plain = book.clone();
        let random = &mut Random::new(0);
        let cells = plain.sheets.iter_mut().flat_map(|sheet| &mut sheet.rows);
        let any = cells.flatten().filter(|cell| **cell == ANY);
        any.for_each(|cell| *cell = random.below(32) as u8);
        let plain = Self::new(name, &planted(plain), ANSWERED);
        let but = if all { "" } else { " but one" };
        Self {
            size: format!("{}; all choices{but} allowed", plain.size),
            book: write(book),
            plain: Some(plain.book),
            ..plain
        }
    }

    /// This book with forbidden sheets. The middle values are a full set of it, or it can be written in plain sheets.
    fn forbidding(name: &str, book: &Book) -> Self {
        let bytes = write(book);
        let plain = forbidden::in_plain_sheets(book).map(|plain| {
            let bytes = write(&plain);
            (aim_of(&plain, &bytes), bytes)
        });
        let (aim, plain) = plain.unzip();
        Self {
            name: name.into(),
            size: format!("{}; {}", size_of(book, bytes.len()), forbidden::kinds(book)),
            kinds: &Kind::ALL,
            narrows: narrows(book, &aim.unwrap_or_else(|| middle(book))),
            plain,
            forbids: true,
            book: bytes,
        }
    }

    /// Whether it is a book of document 01.
    pub fn is_plain(&self) -> bool {
        self.plain.is_none() && !self.forbids
    }

    /// Gecode's tables of it, where it is there. Of the books that aren't plain it gets those with forbidden sheets.
    pub fn tables(&self) -> Option<Tables<'_>> {
        let known = self.is_plain() || self.forbids;
        known.then(|| Tables::of(&self.book)).flatten()
    }

    /// The lists that are run to time this kind.
    pub fn lists(&self, kind: Kind) -> Vec<Vec<Order>> {
        let narrows = &self.narrows;
        let turn = |narrow: &Order| [MARK, *narrow, back(1)];
        let visits = || (0..VISITS).flat_map(|i| visit(narrows, 6 * i));
        match kind {
            Kind::Check | Kind::Opening => vec![vec![]],
            Kind::Narrow => narrows.iter().map(|it| vec![*it]).collect(),
            Kind::ToAndFro => vec![narrows.iter().cycle().take(TURNS).flat_map(turn).collect()],
            Kind::Finish => vec![vec![FINISH]],
            Kind::Short => vec![visits().take(17).collect()],
            Kind::Long => vec![visits().chain([FINISH]).collect()],
        }
    }
}

const CHECKED: &[Kind] = &[Kind::Check];
const SHORT: &[Kind] = &[Kind::Check, Kind::Opening, Kind::Narrow];
const ANSWERED: &[Kind] = &[Kind::Opening, Kind::Narrow];

/// Every book with forbidden sheets that is timed.
pub fn forbidding() -> Vec<Subject> {
    let books = forbidden::books().into_iter();
    books
        .map(|(name, book)| Subject::forbidding(name, &book))
        .collect()
}

/// Every other book that is timed.
pub fn subjects() -> Vec<Subject> {
    let mut all = Vec::new();
    let mut add = |name: &str, book: Book, kinds: &'static [Kind]| {
        all.push(Subject::new(name, &book, kinds));
    };
    let small = planted(regular(8, 8, 4, 60, 3));
    let full = |values, width| regular(16, values, 8, 508, width);
    add("small, harbour H", harbour(), &Kind::ALL);
    add("small, 8 columns", small, &Kind::ALL);
    add("medium, 8 columns", planted(medium_of_8()), &Kind::ALL);
    add("medium, 12 columns", planted(medium_of_12()), &Kind::ALL);
    for width in 2..=4 {
        let name = format!("full, width {width}");
        add(&name, planted(full(32, width)), &Kind::ALL);
    }
    for (name, book, kinds) in hard::books() {
        add(&name, book, kinds);
    }
    add("full head, no rows", regular(16, 32, 8, 0, 4), CHECKED);
    // 18 is no power of two: the rows joined by `|` do not settle it alone.
    add("full, 18 values", full(18, 4), CHECKED);
    all.extend(spoilt(&full(32, 4)));
    for percent in [5, 30] {
        let mut add = |name: &str, book| all.push(Subject::short(name, &book, percent));
        add("medium, 12 columns", planted(medium_of_12()));
        for width in 2..=4 {
            add(&format!("full, width {width}"), planted(full(32, width)));
        }
    }
    for (name, allows_all, book) in worst::books() {
        all.push(Subject::worst(name, allows_all, &book));
    }
    all
}

/// This full book with a value too large in its last row, and with a wrong check in its last block.
fn spoilt(book: &Book) -> [Subject; 2] {
    let last = 32 * BLOCK;
    let mut row = Subject::new("full, wrong last row", book, CHECKED);
    row.size += "; a value too large in the last row";
    row.book[last + 504] = 32;
    mend(&mut row.book);
    let mut check = Subject::new("full, wrong last check", book, CHECKED);
    check.size += "; a wrong check in the last block";
    check.book[last + 508] ^= 1;
    [row, check]
}

/// A chain of sheets, of two columns and of three in turn.
#[rustfmt::skip]
fn medium_of_8() -> Book {
    chosen(&[12; 8], &[(&[0, 1], 100), (&[1, 2, 3], 100), (&[3, 4], 100), (&[4, 5, 6], 100)])
}

/// A shop's list: columns of all sizes, and sheets from a loose pair to a narrow four.
#[rustfmt::skip]
fn medium_of_12() -> Book {
    chosen(&[16, 8, 12, 4, 10, 6, 8, 5, 12, 3, 6, 2], &[
        (&[0, 1], 64), (&[0, 2, 4], 200), (&[1, 3, 5], 90),
        (&[4, 6, 8], 250), (&[5, 7, 8, 9], 300), (&[2, 9, 10, 11], 180),
    ])
}

/// Sheets of these columns with so many seeded rows, no row twice.
fn chosen(counts: &[u8], sheets: &[(&[u8], usize)]) -> Book {
    let random = &mut Random::new(0);
    let mut sheet = |&(columns, count): &(&[u8], usize)| {
        let mut rows: Vec<Vec<u8>> = Vec::new();
        while rows.len() < count {
            let value = |&column: &u8| random.below(counts[usize::from(column)].into()) as u8;
            let row: Vec<u8> = columns.iter().map(value).collect();
            if !rows.contains(&row) {
                rows.push(row);
            }
        }
        let columns = columns.to_vec();
        Sheet {
            forbidden: false,
            columns,
            rows,
        }
    };
    Book {
        counts: counts.to_vec(),
        sheets: sheets.iter().map(&mut sheet).collect(),
    }
}

/// The middle value of each column: a full set of harbour H, and of every planted book.
pub fn middle(book: &Book) -> Vec<u8> {
    book.counts.iter().map(|count| count / 2).collect()
}

fn planted(mut book: Book) -> Book {
    let set = middle(&book);
    plant(&mut Random::new(1), &mut book, &set);
    book
}

/// What the narrows leave: the middle values, or those of the first full set if there is one and
/// the middle values are none.
fn aim_of(book: &Book, bytes: &[u8]) -> Vec<u8> {
    let middle = middle(book);
    let fits = |sheet: &Sheet| {
        let values = sheet.columns.iter().map(|&c| middle[usize::from(c)]);
        let matches = |row: &Vec<u8>| {
            let mut cells = row.iter().zip(values.clone());
            cells.all(|(&cell, value)| [value, ANY].contains(&cell))
        };
        sheet.rows.iter().any(matches)
    };
    if book.sheets.iter().all(fits) {
        return middle;
    }
    match finish::<Packed>(bytes).domains {
        [0, ..] => middle,
        set => set.map(|bit| bit.trailing_zeros() as u8).to_vec(),
    }
}

/// Narrows of every column that a sheet has, to a half, a quarter, an eighth and a sixteenth of its
/// values in turn. Every value has its rows at the opening, so each of these cuts rows.
fn narrows(book: &Book, aim: &[u8]) -> Vec<Order> {
    let mut narrows = Vec::new();
    for ((column, &value), &count) in (0..).zip(aim).zip(&book.counts) {
        let mut sheets = book.sheets.iter();
        if sheets.any(|sheet| sheet.columns.contains(&column)) {
            let kept = all_values(((count / 2) >> (column % 4)).max(1));
            narrows.push(narrow(column, all_values(count) & kept << value));
        }
    }
    narrows
}

/// What a buyer does in one visit, with six narrows from this one on: choices, a look at what they
/// come to, two ways of going on, and home.
#[rustfmt::skip]
fn visit(narrows: &[Order], first: usize) -> [Order; 17] {
    let mut narrows = narrows.iter().cycle().skip(first);
    let [a, b, c, d, e, f] = std::array::from_fn(|_| *narrows.next().unwrap_or(&MARK));
    [
        MARK, a, b, MARK, c, d, FINISH, MARK, e, f, FINISH,
        back(2), f, MARK, c, FINISH, back(1),
    ]
}

/// How large a book of so many bytes is, in words.
pub fn size_of(book: &Book, bytes: usize) -> String {
    let sheets = &book.sheets;
    let values = span(book.counts.iter().map(|&count| count.into()));
    let rows = span(sheets.iter().map(|sheet| sheet.rows.len()));
    let widths = span(sheets.iter().map(|sheet| sheet.columns.len()));
    let (columns, sheets, bytes) = (book.counts.len(), sheets.len(), thousands(bytes as u64));
    format!(
        "{columns} columns of {values} values, {sheets} sheets of {rows} rows, width {widths}; \
         {bytes} bytes"
    )
}

/// The least and the largest number, or the only one.
fn span(numbers: impl Iterator<Item = usize> + Clone) -> String {
    match (numbers.clone().min(), numbers.max()) {
        (Some(least), Some(most)) if least < most => format!("{least} to {most}"),
        (least, _) => least.unwrap_or(0).to_string(),
    }
}
