//! The orders of a list: their kinds, why each is refused, and the trail that they leave.

use crate::Book;

/// "orders of 8 bytes: byte 0 kind, byte 1 argument, bytes 2, 3 zero, bytes 4 to 7 a mask", of a finish
/// "a limit"
pub type Order = [u8; 8];

/// The kinds of orders, by their numbers.
#[derive(Clone, Copy, Debug, PartialEq, Eq, PartialOrd, Ord)]
pub enum Kind {
    /// "**Narrow**, kind 1."
    Narrow = 1,
    /// "**Mark**, kind 2."
    Mark = 2,
    /// "**Back**, kind 3."
    Back = 3,
    /// "**Finish**, kind 4."
    Finish = 4,
    /// "**Other kinds**": every other number.
    Other = 0,
}

/// A refusal of an order, and whether it applies, by "its bytes, the book and this list only".
type Cause = (u8, fn(&Order, &Book, &[Entry]) -> bool);

impl Kind {
    /// All of them.
    pub const ALL: [Self; 5] = [
        Self::Narrow,
        Self::Mark,
        Self::Back,
        Self::Finish,
        Self::Other,
    ];

    /// "byte 0 kind"
    pub fn of(order: &Order) -> Self {
        let mut kinds = Self::ALL.into_iter();
        let kind = kinds.find(|&kind| kind as u8 == order[0]);
        kind.unwrap_or(Self::Other)
    }

    /// The refusals that an order of this kind can get.
    pub fn refusals(self) -> Vec<u8> {
        self.causes().iter().map(|&(refusal, _)| refusal).collect()
    }

    /// The causes of its refusals, in the order in which they are written.
    fn causes(self) -> &'static [Cause] {
        match self {
            // "Refused with 25 if byte 2 or 3 isn't zero, 21 if the column isn't below C, 22 if a
            // mask bit at or above V is set."
            Self::Narrow => &[
                (25, |order, _, _| any_set(&order[2..=3])),
                (21, |order, book, _| column_of(order) >= book.counts.len()),
                (22, |order, book, _| {
                    mask_of(order) & !values(order, book) != 0
                }),
            ],
            // "Refused with 25 if any of bytes 1 to 7 isn't zero, 23 if depth is 16."
            Self::Mark => &[
                (25, |order, _, _| any_set(&order[1..=7])),
                (23, |_, _, trail| depth(trail) == 16),
            ],
            // "Byte 1 is m. Refused with 25 if any of bytes 2 to 7 isn't zero, 24 if m is 0 or
            // above the depth."
            Self::Back => &[
                (25, |order, _, _| any_set(&order[2..=7])),
                (24, |order, _, trail| {
                    order[1] == 0 || mark_of(order) > depth(trail)
                }),
            ],
            // "27 for a larger limit, after 25, which covers only bytes 1 to 3 here."
            Self::Finish => &[
                (25, |order, _, _| any_set(&order[1..=3])),
                (27, |order, _, _| limit_of(order) > MOST_TRIES),
            ],
            // "Other kinds are refused with 20, before the rest."
            Self::Other => &[(20, |_, _, _| true)],
        }
    }
}

/// "An order's refusal goes by its bytes, the book and this list only." "Within a kind, the cause
/// written first counts." 0 if it is accepted.
pub(crate) fn refusal(book: &Book, trail: &[Entry], order: &Order) -> u8 {
    let mut causes = Kind::of(order).causes().iter();
    let first = causes.find(|(_, applies)| applies(order, book, trail));
    first.map_or(0, |&(refusal, _)| refusal)
}

/// One entry of the trail, which is document 01's "standing list".
#[derive(Clone, Copy, Debug, PartialEq, Eq)]
pub(crate) enum Entry {
    /// "an accepted narrow joins its end"
    Narrowed { column: usize, mask: u32 },
    /// "a mark adds a bar"
    Bar,
}

/// What an accepted order does to the trail. "any other order, finish and every refused one
/// included, does nothing"
pub(crate) fn stand(trail: &mut Vec<Entry>, order: &Order) {
    match Kind::of(order) {
        Kind::Narrow => trail.push(Entry::Narrowed {
            column: column_of(order),
            mask: mask_of(order),
        }),
        Kind::Mark => trail.push(Entry::Bar),
        Kind::Back => cut(trail, mark_of(order)),
        Kind::Finish | Kind::Other => {}
    }
}

/// "back m cuts away bar m and all after it"; marks are counted from 1.
fn cut(trail: &mut Vec<Entry>, m: usize) {
    let bars = (0..trail.len()).filter(|&at| trail[at] == Entry::Bar);
    let bar = bars.take(m).last().unwrap_or(0);
    trail.truncate(bar);
}

/// "Depth is the number of bars."
pub(crate) fn depth(trail: &[Entry]) -> usize {
    trail.iter().filter(|&&entry| entry == Entry::Bar).count()
}

/// "Allowed values of a column are all its values met with every standing narrow of it." One mask
/// for each of the C columns.
pub(crate) fn allowed(book: &Book, trail: &[Entry]) -> Vec<u32> {
    let mut allowed: Vec<u32> = book.counts.iter().map(|&count| all_values(count)).collect();
    for entry in trail {
        if let Entry::Narrowed { column, mask } = *entry {
            allowed[column] &= mask;
        }
    }
    allowed
}

/// "The values are 0 to V − 1", as a mask.
pub fn all_values(count: u8) -> u32 {
    (0..count).map(value_bit).sum()
}

/// "shown as 32 bits, bit v for value v"
pub(crate) fn value_bit(value: u8) -> u32 {
    1 << value
}

/// "Byte 1 is the column"
fn column_of(order: &Order) -> usize {
    usize::from(order[1])
}

/// "Byte 1 is m."
fn mark_of(order: &Order) -> usize {
    usize::from(order[1])
}

/// "bytes 4 to 7 a mask", the lowest byte first.
pub(crate) fn mask_of(order: &Order) -> u32 {
    last_four_of(order)
}

/// "a limit from 1 to 65,535"
pub const MOST_TRIES: u32 = 65_535;

/// "Bytes 4 to 7 of a finish become a limit from 1 to 65,535; 0 is read as 65,535."
pub fn limit_of(order: &Order) -> u32 {
    match last_four_of(order) {
        0 => MOST_TRIES,
        limit => limit,
    }
}

fn last_four_of(order: &Order) -> u32 {
    u32::from_le_bytes([order[4], order[5], order[6], order[7]])
}

/// All values of the order's column; none if there is no such column.
fn values(order: &Order, book: &Book) -> u32 {
    let count = book.counts.get(column_of(order));
    count.map_or(0, |&count| all_values(count))
}

fn any_set(bytes: &[u8]) -> bool {
    bytes.iter().any(|&byte| byte != 0)
}
