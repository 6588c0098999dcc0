//! The search of a finish, with its tries.

use crate::closure::closure;
use crate::orders::value_bit;
use crate::{Book, Outcome};

/// What a finish with this limit gives, and the tries that it makes. "Byte 3 is 3, stopped, exactly when
/// the answer needs more tries than the limit"; the tries made "when stopped are the limit".
pub(crate) fn finish(book: &Book, domains: &[u32], limit: u32) -> (Outcome, u32) {
    let answer = search(book, domains, limit);
    answer.unwrap_or((Outcome::Stopped, limit))
}

/// The answer to a finish in these settled domains, and the tries that it needs; nothing if they are more
/// than this.
///
/// "The search sets the lowest column that isn't single to each of its values in rising order and
/// settles; picking a column and trying its values take turns until every column is single." "One try
/// is one value set on the lowest column that isn't single, and settled, in document 01's order, up to
/// the first full set or the search's end."
pub fn search(book: &Book, domains: &[u32], most: u32) -> Option<(Outcome, u32)> {
    if domains.contains(&0) {
        return Some((Outcome::None, 0));
    }
    let open = domains.iter().position(|domain| domain.count_ones() > 1);
    let Some(column) = open else {
        let set = domains.iter().map(|&domain| values_of(domain)[0]);
        return Some((Outcome::Found(set.collect()), 0));
    };
    let mut tries = 0;
    for value in values_of(domains[column]) {
        tries += 1;
        let left = most.checked_sub(tries)?;
        let mut tried = domains.to_vec();
        tried[column] = value_bit(value);
        let (outcome, more) = search(book, &closure(book, &tried), left)?;
        tries += more;
        if outcome != Outcome::None {
            return Some((outcome, tries));
        }
    }
    Some((Outcome::None, tries))
}

/// The values of a domain in rising order.
pub(crate) fn values_of(domain: u32) -> Vec<u8> {
    (0..32)
        .filter(|&value| domain & value_bit(value) != 0)
        .collect()
}

/// Every way to take one thing of each list; what is taken of the last list changes first.
pub(crate) fn one_of_each<T: Copy>(lists: &[Vec<T>]) -> Vec<Vec<T>> {
    let mut all = vec![vec![]];
    for list in lists {
        let with = |one: &Vec<T>| {
            list.iter()
                .map(|&thing| [one, &[thing][..]].concat())
                .collect()
        };
        all = all.iter().flat_map::<Vec<_>, _>(with).collect();
    }
    all
}
