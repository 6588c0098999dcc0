//! Lists of orders that are never too long.

use crate::{Order, Refusal, Values};
use core::error::Error;
use core::fmt;
use core::hash::{Hash, Hasher};
use core::iter::Map;
use core::num::NonZeroU16;
use core::slice;

/// The orders of a list in turn, made by [`OrderList::iter`].
pub type OrderIter<'a> = Map<slice::Iter<'a, [u8; 8]>, fn(&'a [u8; 8]) -> Order>;

/// A list of orders: whole ones, and [`MOST`](Self::MOST) at most, so no run refuses its length.
///
/// Its bytes are inside, 2,048 of them, and adding an order allocates nothing. Each adding function
/// gives the list back, or [`Full`]:
///
/// ```
/// use fitting::{Order, OrderList, Refusal, Values};
///
/// let mut list = OrderList::new();
/// list.mark()?.narrow(2, Values::of([0])?)?.finish()?;
/// assert_eq!(list.len(), 3);
///
/// // The buyer undoes the last click.
/// assert_eq!(list.pop(), Some(Order::Finish));
/// list.back(1)?;
/// for order in &list {
///     println!("{order:?}");
/// }
///
/// // Its bytes can be kept, and read again.
/// assert_eq!(OrderList::from_bytes(list.as_bytes())?, list);
/// assert_eq!(OrderList::from_bytes(&[2, 0, 0]), Err(Refusal::Orders));
/// # Ok::<(), Box<dyn std::error::Error>>(())
/// ```
#[derive(Clone)]
pub struct OrderList {
    orders: [[u8; 8]; Self::MOST],
    /// How many of them there are; what stands after these is of no account.
    count: usize,
}

impl OrderList {
    /// The most orders that a list has.
    pub const MOST: usize = 256;

    /// A list without orders.
    pub const fn new() -> Self {
        Self {
            orders: [[0; 8]; Self::MOST],
            count: 0,
        }
    }

    /// These orders.
    pub fn of(orders: impl IntoIterator<Item = Order>) -> Result<Self, Full> {
        let mut list = Self::new();
        for order in orders {
            list.push(order)?;
        }
        Ok(list)
    }

    /// Reads a list that came over the wire. Refused with 10 if these aren't whole orders, or more
    /// than a list may have; whether each *order* is right is for a run to say.
    pub fn from_bytes(bytes: &[u8]) -> Result<Self, Refusal> {
        match bytes.as_chunks() {
            (orders, []) => Ok(Self::of(orders.iter().copied().map(Order::Raw))?),
            _ => Err(Refusal::Orders),
        }
    }

    /// The bytes of the list, 8 for each order, as a run reads them.
    pub fn as_bytes(&self) -> &[u8] {
        self.orders().as_flattened()
    }

    /// Adds an order at the end. A list that is full stays as it was.
    pub fn push(&mut self, order: Order) -> Result<&mut Self, Full> {
        let place = self.orders.get_mut(self.count).ok_or(Full)?;
        *place = order.bytes();
        self.count += 1;
        Ok(self)
    }

    /// Adds a narrow: of this column only these values may stay.
    pub fn narrow(&mut self, column: u8, values: Values) -> Result<&mut Self, Full> {
        self.push(Order::Narrow { column, values })
    }

    /// Adds a mark.
    pub fn mark(&mut self) -> Result<&mut Self, Full> {
        self.push(Order::Mark)
    }

    /// Adds a back to what stood before this mark; marks count from 1.
    pub fn back(&mut self, mark: u8) -> Result<&mut Self, Full> {
        self.push(Order::Back { mark })
    }

    /// Adds a finish.
    pub fn finish(&mut self) -> Result<&mut Self, Full> {
        self.push(Order::Finish)
    }

    /// Adds a finish that makes so many tries at most.
    pub fn finish_within(&mut self, limit: NonZeroU16) -> Result<&mut Self, Full> {
        self.push(Order::FinishWithin { limit })
    }

    /// Takes the last order away.
    pub fn pop(&mut self) -> Option<Order> {
        let last = *self.orders().last()?;
        self.count -= 1;
        Some(last.into())
    }

    /// Keeps the first so many orders; a list that has no more stays as it was.
    pub fn truncate(&mut self, count: usize) {
        self.count = self.count.min(count);
    }

    /// Takes every order away.
    pub fn clear(&mut self) {
        self.count = 0;
    }

    /// How many orders there are.
    pub const fn len(&self) -> usize {
        self.count
    }

    /// Whether there is none.
    pub const fn is_empty(&self) -> bool {
        self.count == 0
    }

    /// The orders in turn.
    pub fn iter(&self) -> OrderIter<'_> {
        self.orders().iter().map(|&bytes| bytes.into())
    }

    fn orders(&self) -> &[[u8; 8]] {
        &self.orders[..self.count]
    }
}

impl Default for OrderList {
    fn default() -> Self {
        Self::new()
    }
}

impl PartialEq for OrderList {
    fn eq(&self, other: &Self) -> bool {
        self.orders() == other.orders()
    }
}

impl Eq for OrderList {}

impl Hash for OrderList {
    fn hash<H: Hasher>(&self, state: &mut H) {
        self.orders().hash(state);
    }
}

impl<'a> IntoIterator for &'a OrderList {
    type Item = Order;
    type IntoIter = OrderIter<'a>;

    fn into_iter(self) -> OrderIter<'a> {
        self.iter()
    }
}

impl fmt::Debug for OrderList {
    fn fmt(&self, f: &mut fmt::Formatter<'_>) -> fmt::Result {
        f.debug_list().entries(self).finish()
    }
}

/// The list has as many orders as a list may have. One more is what refusal 10 is for, so it turns
/// into that.
///
/// ```
/// use fitting::{Full, Refusal};
///
/// assert_eq!(Full.to_string(), "the list has 256 orders already");
/// assert_eq!(Refusal::from(Full), Refusal::Orders);
/// ```
#[derive(Clone, Copy, Debug, PartialEq, Eq, Hash)]
pub struct Full;

impl fmt::Display for Full {
    fn fmt(&self, f: &mut fmt::Formatter<'_>) -> fmt::Result {
        write!(f, "the list has {} orders already", OrderList::MOST)
    }
}

impl Error for Full {}

impl From<Full> for Refusal {
    fn from(_: Full) -> Self {
        Self::Orders
    }
}
