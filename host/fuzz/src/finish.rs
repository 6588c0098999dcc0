//! Finishes whose searches are long get smaller limits before the calls: each ends, but 256 of 65,535 tries in a
//! large book would take the independent version long.

use conformance::{finish, searches, space_for, Order, Seen, NO_KIND};
use reference::{limit_of, search};

/// The rows that the searches of one list may look at, each time they settle.
const ROWS_OF_A_LIST: u32 = 1 << 15;

/// Gives each finish that would make more tries than are left to its list a limit of these, or of 1 if there are none;
/// gives how many. A list that isn't run stays as it is.
pub fn shorten_finishes(book: &[u8], orders: &mut [u8]) -> usize {
    let (list, rest) = orders.as_chunks_mut();
    if !rest.is_empty() || !list.iter().any(searches) {
        return 0;
    }
    let Some(described) = reference::decode(book) else {
        return 0;
    };
    // One more, so that a book without rows has a bound too.
    let rows = 1 + described.sheets.iter().map(|s| s.rows.len()).sum::<usize>();
    let mut left = ROWS_OF_A_LIST / rows as u32;
    let before = seen_before(book, list);
    let mut shortened = 0;
    for (order, seen) in list.iter_mut().zip(&before).filter(|(it, _)| searches(it)) {
        let domains = &seen.domains[..described.counts.len()];
        let limit = limit_of(order);
        let within = limit.min(left);
        let ended = search(&described, domains, within);
        if ended.is_none() && within < limit {
            *order = finish(within.max(1));
            shortened += 1;
        }
        left -= ended.map_or(within, |(_, tries)| tries);
    }
    shortened
}

/// The state before each order. A finish changes nothing, so the list is run without any; of a list
/// that is too long, nothing is seen but zeros.
fn seen_before(book: &[u8], list: &[Order]) -> Vec<Seen> {
    let without = |order: &Order| if searches(order) { NO_KIND } else { *order };
    let orders = list.iter().map(without).collect::<Vec<_>>().concat();
    let mut answers = vec![0; space_for(&orders)];
    fitting::run_number(book, &orders, &mut answers);
    Seen::read_all(&answers)
}
