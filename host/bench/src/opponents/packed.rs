//! The valid rows packed: those of a sheet stand first in a list of its own, one after the other.
//!
//! A row that goes is swapped behind those that stay, so that what stood before a try or at a mark
//! comes back with the length alone. Few rows in many words cost a mispredicted branch for every
//! word; here they are read straight on.

use super::book::{Cell, Sheet};
use super::engine::Rows;
use std::cell::RefCell;

/// The rows of each sheet.
pub struct Packed([[Cell; 508]; 8]);

thread_local! {
    /// Where the lists stand. It is not cleared: only what an opening has filled is read.
    static LISTS: RefCell<Packed> = const { RefCell::new(Packed([[[0; 4]; 508]; 8])) };
}

impl Rows for Packed {
    /// How many rows of each list are valid.
    type Kept = [u16; 8];

    const NONE: [u16; 8] = [0; 8];

    fn with<T>(then: impl FnOnce(&mut Self) -> T) -> T {
        LISTS.with_borrow_mut(then)
    }

    fn fill(&mut self, kept: &mut [u16; 8], s: usize, sheet: &Sheet) {
        let lists = self.0[s][..usize::from(sheet.rows)].chunks_mut(127);
        // The last cell of a block is its check.
        for (list, block) in lists.zip(sheet.cells.chunks(128)) {
            list.copy_from_slice(&block[..list.len()]);
        }
        kept[s] = sheet.rows;
    }

    fn cut(
        &mut self,
        kept: &mut [u16; 8],
        s: usize,
        sheet: &Sheet,
        changed: u16,
        domains: &[u32; 16],
    ) -> Option<bool> {
        let list = &mut self.0[s];
        let before = usize::from(kept[s]);
        let mut length = before;
        for (place, &column) in sheet.columns[..sheet.width].iter().enumerate() {
            if changed >> column & 1 == 1 {
                let domain = domains[usize::from(column & 15)];
                length = keep_first(&mut list[..length], place, domain);
            }
        }
        kept[s] = length as u16;
        (length != 0).then_some(length < before)
    }

    fn carried(&self, kept: &[u16; 8], s: usize, _: &Sheet, wanted: [u32; 4]) -> Option<[u32; 4]> {
        let mut seen = [0; 4];
        for rows in self.0[s][..usize::from(kept[s])].chunks(64) {
            let carried = carried_by(rows);
            let mut missing = 0;
            for place in 0..4 {
                seen[place] |= carried[place];
                missing |= wanted[place] & !seen[place];
            }
            if missing == 0 {
                return None;
            }
        }
        Some(seen)
    }
}

/// Puts the rows with a value of the domain at this place before the others, and gives their number.
/// Every row is swapped, so that no branch hangs on its value.
fn keep_first(rows: &mut [Cell], place: usize, domain: u32) -> usize {
    let mut kept = 0;
    for i in 0..rows.len() {
        let fits = domain >> (rows[i][place & 3] & 31) & 1;
        rows.swap(i, kept);
        kept += fits as usize;
    }
    kept
}

/// The values that these rows carry. Inlined, it is no longer vector code.
#[inline(never)]
pub fn carried_by(rows: &[Cell]) -> [u32; 4] {
    let mut carried = [0; 4];
    for row in rows {
        for place in 0..4 {
            carried[place] |= 1 << (row[place] & 31);
        }
    }
    carried
}
