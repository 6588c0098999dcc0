//! The 72 bytes of an answer.

use crate::choices::allows_every_choice;
use crate::orders::value_bit;
use crate::session::{Outcome, Shown};
use crate::Book;

/// "Status: 0 dead; 2 decided, each column holds one value; 1 open, otherwise." Dead is that "every
/// domain is empty"; settled domains are never empty in part.
fn status(domains: &[u32]) -> u8 {
    if domains.iter().all(|&domain| domain == 0) {
        0
    } else if domains.iter().all(|domain| domain.count_ones() == 1) {
        2
    } else {
        1
    }
}

/// "Done now holds exactly when the session isn't dead and every choice of one value from the current
/// domain of each column of the sheet is allowed by it." "The done byte has bit s for sheet s."
pub(crate) fn done(book: &Book, domains: &[u32]) -> u8 {
    let mut done = 0;
    for (s, sheet) in book.sheets.iter().enumerate() {
        if status(domains) != 0 && allows_every_choice(sheet, domains) {
            done |= 1 << s;
        }
    }
    done
}

/// "byte 0 the refusal or 0; byte 1 status; byte 2 depth; byte 3 zero, or for an accepted finish 1
/// found, 2 none", and "3, stopped"; "byte 4 done"; byte 5 zero; "bytes 6 and 7 carry the tries made" by
/// an accepted finish, else they are zero too; "bytes 8 to 71 sixteen domains of 32 bits, zero from C
/// on."
pub(crate) fn answer(book: &Book, shown: &Shown) -> [u8; 72] {
    let mut bytes = [0; 72];
    bytes[0] = shown.refusal;
    bytes[1] = status(&shown.domains);
    bytes[2] = shown.depth as u8;
    bytes[3] = match shown.outcome {
        Outcome::NoFinish => 0,
        Outcome::Found(_) => 1,
        Outcome::None => 2,
        Outcome::Stopped => 3,
    };
    bytes[4] = done(book, &shown.domains);
    bytes[6..8].copy_from_slice(&shown.tries.to_le_bytes()[..2]);
    for (column, domain) in domains_shown(shown).into_iter().enumerate() {
        bytes[8 + 4 * column..12 + 4 * column].copy_from_slice(&domain.to_le_bytes());
    }
    bytes
}

/// "An accepted finish puts the full set there, one bit for each column, or zeros for none." When it is
/// stopped, "the domains are then zero".
fn domains_shown(shown: &Shown) -> Vec<u32> {
    match &shown.outcome {
        Outcome::NoFinish => shown.domains.clone(),
        Outcome::Found(set) => set.iter().map(|&value| value_bit(value)).collect(),
        Outcome::None | Outcome::Stopped => vec![0; shown.domains.len()],
    }
}
