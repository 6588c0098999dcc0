//! The settled domains, by striking what no allowed combination supports until nothing changes.

use crate::choices::carried;
use crate::Book;

/// "Given allowed values for every column, the settled domains are the union, column by column, of
/// all sound boxes within them. If there is none, every domain is empty and the session is dead."
///
/// A value that no allowed combination within the allowed values has is in no sound box within them, so
/// it is struck. When nothing is left to strike and no column is empty, what remains is a sound box
/// itself, and every other one within the allowed values lies in it.
pub fn closure(book: &Book, allowed: &[u32]) -> Vec<u32> {
    let mut domains = allowed.to_vec();
    loop {
        if domains.contains(&0) {
            return vec![0; domains.len()];
        }
        let kept = supported(book, &domains);
        if kept == domains {
            return domains;
        }
        domains = kept;
    }
}

/// The domains met, "for each sheet", with the values that the combinations have which it allows in the
/// box.
fn supported(book: &Book, domains: &[u32]) -> Vec<u32> {
    let mut kept = domains.to_vec();
    for sheet in &book.sheets {
        let carried = carried(sheet, domains);
        for (i, &column) in sheet.columns.iter().enumerate() {
            kept[usize::from(column)] &= carried[i];
        }
    }
    kept
}
