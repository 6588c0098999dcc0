//! The space that answers are written into.

use crate::answer::ANSWER;
use crate::OrderList;
use core::fmt;

/// How many bytes the answers to so many orders need: one answer more than there are orders.
///
/// ```
/// assert_eq!(fitting::space_for(0), 72); // the opening
/// assert_eq!(fitting::space_for(256), 18_504);
/// ```
pub const fn space_for(orders: usize) -> usize {
    orders.saturating_add(1).saturating_mul(ANSWER)
}

/// Room for the answers to the longest list, so that none is too long for it: 18,504 bytes, inside.
///
/// One for each thread will do, used for run after run: a run writes its answers and leaves the rest
/// as it was. A host that wants it off the stack puts it into a `Box`, or into a static.
#[derive(Clone)]
pub struct Space {
    pub(crate) bytes: [u8; space_for(OrderList::MOST)],
}

impl Space {
    /// A space of zeros.
    pub const fn new() -> Self {
        Self {
            bytes: [0; space_for(OrderList::MOST)],
        }
    }
}

impl Default for Space {
    fn default() -> Self {
        Self::new()
    }
}

impl fmt::Debug for Space {
    fn fmt(&self, f: &mut fmt::Formatter<'_>) -> fmt::Result {
        f.debug_struct("Space").finish_non_exhaustive()
    }
}
