//! The valid rows in words, as the library keeps them. The rows of a full word are read straight on,
//! in loops that the compiler unrolls or turns into vector code.

use super::book::{Cell, Sheet};
use super::engine::Rows;

/// Nothing is kept outside of the state.
pub struct Words;

/// The valid rows of a state.
#[derive(Clone, Copy)]
pub struct Kept {
    /// The valid rows of each sheet: row r is bit r mod 64 of word r div 64.
    valid: [[u64; 8]; 8],
    /// The word numbers of each sheet, those of words that aren't zero first.
    index: [[u8; 8]; 8],
    /// How many words of each sheet aren't zero.
    limits: [u8; 8],
}

impl Rows for Words {
    type Kept = Kept;

    const NONE: Kept = Kept {
        valid: [[0; 8]; 8],
        index: [[0, 1, 2, 3, 4, 5, 6, 7]; 8],
        limits: [0; 8],
    };

    fn with<T>(then: impl FnOnce(&mut Self) -> T) -> T {
        then(&mut Self)
    }

    fn fill(&mut self, kept: &mut Kept, s: usize, sheet: &Sheet) {
        let rows = usize::from(sheet.rows);
        // 508 rows leave the last word its place.
        kept.valid[s][..rows / 64].fill(!0);
        kept.valid[s][rows / 64] = (1 << (rows % 64)) - 1;
        kept.limits[s] = rows.div_ceil(64) as u8;
    }

    fn cut(
        &mut self,
        kept: &mut Kept,
        s: usize,
        sheet: &Sheet,
        changed: u16,
        domains: &[u32; 16],
    ) -> Option<bool> {
        let mut any = false;
        for place in 0..sheet.width {
            let column = usize::from(sheet.columns[place]);
            if changed >> column & 1 == 0 {
                continue;
            }
            let domain = domains[column];
            let mut position = usize::from(kept.limits[s]);
            while position > 0 {
                position -= 1;
                let number = usize::from(kept.index[s][position]);
                let word = kept.valid[s][number];
                let (first, next_block) = cells_of(number);
                let left = left_of(&sheet.cells[first..], next_block, place, domain, word);
                if left != word {
                    any = true;
                    kept.valid[s][number] = left;
                    if left == 0 {
                        kept.limits[s] -= 1;
                        kept.index[s].swap(position, usize::from(kept.limits[s]));
                    }
                }
            }
        }
        (kept.limits[s] != 0).then_some(any)
    }

    fn carried(&self, kept: &Kept, s: usize, sheet: &Sheet, wanted: [u32; 4]) -> Option<[u32; 4]> {
        let mut seen = [0; 4];
        for &number in &kept.index[s][..usize::from(kept.limits[s])] {
            let number = usize::from(number);
            let (first, next_block) = cells_of(number);
            let word = kept.valid[s][number];
            gather(&sheet.cells[first..], next_block, word, &mut seen);
            let missing = (0..4).fold(0, |any, place| any | (wanted[place] & !seen[place]));
            if missing == 0 {
                return None;
            }
        }
        Some(seen)
    }
}

/// The cell of a word's first row, and the number of its first row that is in the next block: a
/// block has one cell more than rows, its check.
fn cells_of(number: usize) -> (usize, u32) {
    let over = if number % 2 == 1 { number / 2 + 1 } else { 0 };
    (64 * number + number / 2, 64 - over as u32)
}

/// The rows of a word with a value of the domain at this place.
fn left_of(cells: &[Cell], next_block: u32, place: usize, domain: u32, word: u64) -> u64 {
    match cells.first_chunk() {
        Some(all) if word.count_ones() > 20 => {
            let here = !0 >> (64 - next_block);
            let left = left_of_all(all, place, domain) & word & here;
            left | left_of_set(cells, next_block, place, domain, word & !here)
        }
        _ => left_of_set(cells, next_block, place, domain, word),
    }
}

/// Each turn is a test of one bit and a sum with its carry, twice: the two don't wait for each other.
fn left_of_all(cells: &[Cell; 64], place: usize, domain: u32) -> u64 {
    let fits = |cell: &Cell| u64::from(domain >> (cell[place & 3] & 31) & 1);
    let (mut low, mut high) = (0, 0);
    for i in (0..32).rev() {
        low = low + low + fits(&cells[i]);
        high = high + high + fits(&cells[i + 32]);
    }
    high << 32 | low
}

fn left_of_set(cells: &[Cell], next_block: u32, place: usize, domain: u32, word: u64) -> u64 {
    let mut kept = 0;
    let mut left = word;
    while left != 0 {
        let row = left.trailing_zeros();
        let rest = left & (left - 1);
        let cell = &cells[row as usize + usize::from(row >= next_block)];
        if domain >> (cell[place] & 31) & 1 == 1 {
            kept |= left ^ rest;
        }
        left = rest;
    }
    kept
}

/// Adds the values that the rows of a word carry.
fn gather(cells: &[Cell], next_block: u32, word: u64, seen: &mut [u32; 4]) {
    let run = word.trailing_ones().min(next_block) as usize;
    let mut left = word;
    if run > 40 {
        let carried = carried_by_all(&cells[..run]);
        for place in 0..4 {
            seen[place] |= carried[place];
        }
        if run == 64 {
            return;
        }
        left = word >> run << run;
    }
    let carried = carried_by_set(cells, next_block, left);
    for place in 0..4 {
        seen[place] |= carried[place];
    }
}

/// Inlined, this and the next are no longer vector code.
#[inline(never)]
fn carried_by_all(cells: &[Cell]) -> [u32; 4] {
    let mut carried = [0; 4];
    for cell in cells {
        for place in 0..4 {
            carried[place] |= 1 << (cell[place] & 31);
        }
    }
    carried
}

#[inline(never)]
fn carried_by_set(cells: &[Cell], next_block: u32, word: u64) -> [u32; 4] {
    let mut carried = [0; 4];
    let mut left = word;
    while left != 0 {
        let row = left.trailing_zeros();
        let cell = &cells[row as usize + usize::from(row >= next_block)];
        for place in 0..4 {
            carried[place] |= 1 << (cell[place] & 31);
        }
        left &= left - 1;
    }
    carried
}
