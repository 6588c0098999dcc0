//! Orders as their 8 bytes, right ones and wrong ones.

use crate::{tiny, Book, Order, Random};
use reference::{all_values, session, Kind};

/// Mark.
pub const MARK: Order = [2, 0, 0, 0, 0, 0, 0, 0];
/// Finish, with limit 0, which is read as the largest.
pub const FINISH: Order = [4, 0, 0, 0, 0, 0, 0, 0];
/// An order of no kind, which is refused with 20 and changes nothing.
pub const NO_KIND: Order = [200, 0, 0, 0, 0, 0, 0, 0];

/// Whether a full set is searched for: the order is a finish and isn't refused, which its bytes alone decide.
pub fn searches(order: &Order) -> bool {
    Kind::of(order) == Kind::Finish && session(&tiny(), &[*order])[1].refusal == 0
}

/// The first number from 1 on that no kind has; `Kind::ALL` has the other kinds too.
const NEXT_KIND: u8 = Kind::ALL.len() as u8;

/// Narrow a column to the values of this mask.
pub fn narrow(column: u8, mask: u32) -> Order {
    let [a, b, c, d] = mask.to_le_bytes();
    [1, column, 0, 0, a, b, c, d]
}

/// Back to before mark m.
pub fn back(m: u8) -> Order {
    [3, m, 0, 0, 0, 0, 0, 0]
}

/// Finish within so many tries.
pub fn finish(limit: u32) -> Order {
    with_limit(FINISH, limit)
}

/// The order with this limit in its bytes 4 to 7.
pub(crate) fn with_limit(mut order: Order, limit: u32) -> Order {
    order[4..].copy_from_slice(&limit.to_le_bytes());
    order
}

/// Document 01's example on H: mark, narrow board 1, finish, back 1, back 1, narrow width 4.
pub fn example_orders() -> [Order; 6] {
    [MARK, narrow(2, 1), FINISH, back(1), back(1), narrow(0, 4)]
}

/// Every mask on each of so many columns of 2 values, each undone, and a finish in each state.
pub fn every_mask(width: usize) -> Vec<Order> {
    let mut orders = Vec::new();
    for masks in 0..1 << (2 * width) {
        orders.push(MARK);
        let mask = |column: usize| masks >> (2 * column) & 3;
        orders.extend((0..width).map(|column| narrow(column as u8, mask(column))));
        orders.extend([FINISH, back(1)]);
    }
    orders
}

/// How often each kind of order comes in a list, by its first letter; w is a wrong one.
const STYLES: [&[u8]; 3] = [
    b"nnnnnnnnnnmmmbbbfww",
    b"nnnnnnmmmmmbbbbbfw",
    b"nnnmmmmmmmmmmmmbfw",
];

/// Any list of so many orders for a book. Most of its narrows leave the values of the aim, one for
/// each column: if that is a full set of the book, they don't end in a dead session.
pub fn any_list(random: &mut Random, book: &Book, aim: &[u8], length: usize) -> Vec<Order> {
    let style = random.pick(&STYLES);
    // Once in so many a narrow isn't aimed; a list whose narrows never are is soon dead.
    let strays = random.pick(&[1, 10, 10, 30, 30, 1_000]);
    // What goes before the first mark never comes back.
    let marked = random.once_in(2);
    let mut depth = 0;
    let mut list = Vec::with_capacity(length);
    while list.len() < length {
        let order = match random.pick(style) {
            _ if list.is_empty() && marked => MARK,
            b'm' => MARK,
            // The last mark more often than any other.
            b'b' if depth > 0 && random.once_in(2) => back(depth),
            b'b' if depth > 0 => back(random.within(1..=depth.into()) as u8),
            b'f' => FINISH,
            b'w' => wrong_order(random, book, depth),
            _ => any_narrow(random, book, aim, strays),
        };
        depth = depth_after(depth, &order);
        list.push(order);
    }
    list
}

/// How deep the list is after this order.
fn depth_after(depth: u8, order: &Order) -> u8 {
    match *order {
        MARK if depth < 16 => depth + 1,
        [3, m, 0, 0, 0, 0, 0, 0] if (1..=depth).contains(&m) => m - 1,
        _ => depth,
    }
}

/// A narrow that is accepted.
fn any_narrow(random: &mut Random, book: &Book, aim: &[u8], strays: usize) -> Order {
    let column = random.below(book.counts.len());
    let count = book.counts[column];
    let all = all_values(count);
    let any = random.bits() as u32;
    let value = 1 << random.below(count.into());
    let mask = match random.below(10) {
        0 => 0,
        1 => all,
        2..=4 => all & !value,
        5 => value,
        6..=7 => any & all,
        8 => any & random.bits() as u32 & all,
        _ => (any | random.bits() as u32) & all,
    };
    let aimed = if random.once_in(strays) {
        0
    } else {
        1 << aim[column]
    };
    narrow(column as u8, mask | aimed)
}

/// An order that is most often refused, for any of the causes or for several.
fn wrong_order(random: &mut Random, book: &Book, depth: u8) -> Order {
    let columns = book.counts.len();
    let column = random.below(columns) as u8;
    let no_column = match random.below(3) {
        0 => columns,
        1 => random.pick(&[16, 32, 128, 255]),
        _ => random.within(columns..=255),
    } as u8;
    let any = random.bits() as u32;
    match random.below(9) {
        0 => {
            let mut order = any_bytes(random);
            let [a, b, c, d] = [0, 1, 2, 3].map(|by| NEXT_KIND + by);
            order[0] = random.pick(&[0, 0, a, a, b, c, d, 16, 128, 129, 255]);
            order
        }
        1 => {
            let column = random.pick(&[column, no_column]);
            with_a_byte(random, narrow(column, any), 2, 3)
        }
        2 => narrow(no_column, random.pick(&[0, 1, any])),
        3 => {
            let count = book.counts[usize::from(column)];
            // Bit 32 isn't there, so a column of 32 values is narrowed after all.
            let over = (1_u64 << random.within(count.into()..=32)) as u32;
            let others = random.pick(&[0, any & all_values(count), any]);
            narrow(column, over | others)
        }
        4 => with_a_byte(random, MARK, 1, 7),
        5 => {
            let m = random.pick(&[0, depth, depth + 1]);
            with_a_byte(random, back(m), 2, 7)
        }
        6 => back(random.pick(&[0, depth + 1, depth + 2, 16, 17, 255])),
        7 => with_a_byte(random, FINISH, 1, 7),
        _ => any_bytes(random),
    }
}

/// The order with some byte from here to there that isn't zero.
fn with_a_byte(random: &mut Random, mut order: Order, first: usize, last: usize) -> Order {
    let byte = 1 << random.below(8);
    order[random.within(first..=last)] |= byte;
    order
}

/// Bytes that are often zero, and near the known kinds.
fn any_bytes(random: &mut Random) -> Order {
    let mut order = random.bits().to_le_bytes();
    let zeros = random.byte();
    for (i, byte) in order.iter_mut().enumerate() {
        if zeros >> i & 1 == 1 {
            *byte = 0;
        }
    }
    order[0] = random.within(0..=usize::from(NEXT_KIND) + 1) as u8;
    order
}
