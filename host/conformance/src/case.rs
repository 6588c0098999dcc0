//! One seeded input: a book, damaged or not, or bytes that never were one.

use crate::books::largest_book;
use crate::{any_book, mend, rising_rows, write, Random, Region, BLOCK, FORBIDDEN, LONGEST};
use reference::Book;

/// When the checks were made right again. Without it most damage ends as a wrong check.
#[derive(Clone, Copy, Debug, PartialEq, Eq)]
pub enum Mend {
    /// Not at all.
    Never,
    /// After the first damage and before any other.
    BeforeTheLast,
    /// After all damage.
    AtTheEnd,
}

/// One seeded input.
#[derive(Clone, Debug)]
pub struct Case {
    /// The bytes to check.
    pub bytes: Vec<u8>,
    /// The regions of a right book that were damaged, in this order; nothing for bytes from chance.
    pub damaged: Option<Vec<Region>>,
    /// When its checks were made right again.
    pub mend: Mend,
}

impl Case {
    /// The case of this seed.
    pub fn new(seed: u64) -> Self {
        let random = &mut Random::new(seed);
        let (times, mend) = match random.below(22) {
            0 => (0, Mend::Never),
            1..=6 => (1, Mend::AtTheEnd),
            7 => return Self::fallen_rows(random),
            8..=10 => (1, Mend::Never),
            11..=15 => (2, Mend::AtTheEnd),
            16 => (2, Mend::Never),
            17 => (2, Mend::BeforeTheLast),
            18..=19 => return Self::wrong_rows(random),
            _ => return Self::noise(random),
        };
        let book = any_book(random);
        Self::damaged(random, &book, &Region::ALL, times, mend)
    }

    /// Damage to several bytes of the rows alone: which of them is the first counts.
    fn wrong_rows(random: &mut Random) -> Self {
        let mut book = any_book(random);
        while book.sheets.iter().all(|sheet| sheet.rows.is_empty()) {
            book = any_book(random);
        }
        let times = random.within(2..=3);
        Self::damaged(random, &book, &Region::ROWS, times, Mend::AtTheEnd)
    }

    /// Rows of forbidden sheets that don't rise, and nothing else.
    fn fallen_rows(random: &mut Random) -> Self {
        let has_rows = |book: &Book| rising_rows(book).iter().any(|rows| rows.len() > 1);
        // By chance few books have the last blocks.
        let large = random.once_in(8);
        let drawn = if large { largest_book } else { any_book };
        let mut book = drawn(random);
        while !has_rows(&book) {
            book = drawn(random);
        }
        let times = random.within(1..=3);
        Self::damaged(random, &book, &[Region::RowOrder], times, Mend::AtTheEnd)
    }

    /// A book after so many times damage to some of these regions.
    fn damaged(
        random: &mut Random,
        book: &Book,
        aims: &[Region],
        times: usize,
        when: Mend,
    ) -> Self {
        let whole = write(book);
        let mut bytes = whole.clone();
        let mut regions = Vec::new();
        while regions.len() < times {
            if when == Mend::BeforeTheLast && regions.len() + 1 == times {
                mend(&mut bytes);
            }
            let region = random.pick(aims);
            if region.damage(random, book, &whole, &mut bytes) {
                regions.push(region);
            }
        }
        if when == Mend::AtTheEnd {
            mend(&mut bytes);
        }
        Self {
            bytes,
            damaged: Some(regions),
            mend: when,
        }
    }

    fn noise(random: &mut Random) -> Self {
        let mut bytes = match random.below(4) {
            0 => vec![0; random.within(0..=(LONGEST + 2) * BLOCK)],
            _ => vec![0; random.within(1..=LONGEST) * BLOCK],
        };
        match random.below(4) {
            0 if bytes.len() >= BLOCK => near_head(random, &mut bytes[..BLOCK]),
            1 if bytes.len() >= BLOCK => {
                random.fill(&mut bytes);
                bytes[..BLOCK].copy_from_slice(&write(&any_book(random))[..BLOCK]);
            }
            _ => random.fill(&mut bytes),
        }
        if !random.once_in(3) {
            mend(&mut bytes);
        }
        Self {
            bytes,
            damaged: None,
            mend: Mend::Never,
        }
    }
}

/// A head that is right in its first fields and made of small numbers after them.
fn near_head(random: &mut Random, head: &mut [u8]) {
    let columns = random.within(1..=16);
    let sheets = random.within(0..=8);
    head[..4].copy_from_slice(b"FGB1");
    head[4] = columns as u8;
    head[5] = sheets as u8;
    for count in &mut head[8..8 + columns] {
        *count = random.within(1..=32) as u8;
    }
    for entry in head[24..24 + 8 * sheets].chunks_exact_mut(8) {
        let width = random.within(1..=4);
        entry[0] = width as u8 + random.pick(&[0, 0, FORBIDDEN]);
        let mut number = 0;
        for column in &mut entry[1..1 + width] {
            *column = number as u8;
            number += random.within(0..=4);
        }
        entry[6] = random.byte();
        entry[7] = random.below(2) as u8;
    }
}
