//! Sets of values of one column.

use crate::OrderRefusal;
use core::fmt;
use core::iter::FusedIterator;
use core::ops::{BitAnd, BitOr, Sub};

/// A set of values of one column: what an answer leaves there, or what a narrow lets stay.
///
/// Values are 0 to 31. The set is one number, bit v for value v:
///
/// ```text
/// bit     31 …  5  4  3  2  1  0
/// mask     0 …  1  0  0  1  0  1      the values 0, 2 and 5
/// ```
///
/// ```
/// use fitting::Values;
///
/// let values = Values::of([5, 0, 2])?;
/// assert_eq!((values.len(), values.mask()), (3, 0b100101));
/// assert!(values.contains(2) && !values.contains(1));
/// assert_eq!(values.to_string(), "0 2 5");
/// for value in values {
///     println!("<option>{value}</option>"); // 0, then 2, then 5
/// }
///
/// // Sets are met, joined and cut like those of `std`.
/// let low = Values::of(0..3)?;
/// assert_eq!(low & values, Values::of([0, 2])?);
/// assert_eq!(low | values, Values::of([0, 1, 2, 5])?);
/// assert_eq!((low - values).single(), Some(1));
/// # Ok::<(), fitting::OrderRefusal>(())
/// ```
#[derive(Clone, Copy, Default, PartialEq, Eq, Hash)]
pub struct Values(u32);

impl Values {
    /// No value.
    pub const NONE: Self = Self(0);

    /// These values, in any order. A value above 31 is one that no column has, so it is refused as
    /// the library refuses such values, with 22.
    pub fn of(values: impl IntoIterator<Item = u8>) -> Result<Self, OrderRefusal> {
        let mut mask = 0;
        for value in values {
            mask |= 1_u32.checked_shl(value.into()).ok_or(OrderRefusal::Mask)?;
        }
        Ok(Self(mask))
    }

    /// The values of a mask, bit v for value v.
    pub const fn from_mask(mask: u32) -> Self {
        Self(mask)
    }

    /// The values 0 to count − 1.
    pub(crate) const fn below(count: u8) -> Self {
        Self(!u32::MAX.unbounded_shl(count as u32))
    }

    /// The set as a mask, bit v for value v.
    pub const fn mask(self) -> u32 {
        self.0
    }

    /// Whether the set has this value; it never has one above 31.
    pub const fn contains(self, value: u8) -> bool {
        value < 32 && self.0 >> value & 1 == 1
    }

    /// How many values the set has, 0 to 32.
    pub const fn len(self) -> usize {
        self.0.count_ones() as usize
    }

    /// Whether the set has no value.
    pub const fn is_empty(self) -> bool {
        self.0 == 0
    }

    /// The value, where the set has just one.
    pub const fn single(self) -> Option<u8> {
        match self.0.count_ones() {
            1 => Some(self.0.trailing_zeros() as u8),
            _ => None,
        }
    }

    /// The values in rising order.
    pub const fn iter(self) -> ValueIter {
        ValueIter(self)
    }
}

impl BitAnd for Values {
    type Output = Self;

    fn bitand(self, other: Self) -> Self {
        Self(self.0 & other.0)
    }
}

impl BitOr for Values {
    type Output = Self;

    fn bitor(self, other: Self) -> Self {
        Self(self.0 | other.0)
    }
}

impl Sub for Values {
    type Output = Self;

    fn sub(self, other: Self) -> Self {
        Self(self.0 & !other.0)
    }
}

impl IntoIterator for Values {
    type Item = u8;
    type IntoIter = ValueIter;

    fn into_iter(self) -> ValueIter {
        self.iter()
    }
}

impl fmt::Display for Values {
    fn fmt(&self, f: &mut fmt::Formatter<'_>) -> fmt::Result {
        for (i, value) in self.iter().enumerate() {
            let space = if i > 0 { " " } else { "" };
            write!(f, "{space}{value}")?;
        }
        Ok(())
    }
}

impl fmt::Debug for Values {
    fn fmt(&self, f: &mut fmt::Formatter<'_>) -> fmt::Result {
        f.debug_set().entries(self.iter()).finish()
    }
}

/// The values of a set in rising order, made by [`Values::iter`].
#[derive(Clone, Debug, Default)]
pub struct ValueIter(Values);

impl ValueIter {
    /// Takes the value of this bit out of those still to come.
    fn take_out(&mut self, bit: Option<u32>) -> Option<u8> {
        let value = bit? as u8;
        self.0 = self.0 - Values(1 << value);
        Some(value)
    }
}

impl Iterator for ValueIter {
    type Item = u8;

    fn next(&mut self) -> Option<u8> {
        let Values(mask) = self.0;
        self.take_out((mask != 0).then(|| mask.trailing_zeros()))
    }

    fn size_hint(&self) -> (usize, Option<usize>) {
        (self.0.len(), Some(self.0.len()))
    }
}

impl DoubleEndedIterator for ValueIter {
    fn next_back(&mut self) -> Option<u8> {
        self.take_out(self.0 .0.checked_ilog2())
    }
}

impl ExactSizeIterator for ValueIter {}
impl FusedIterator for ValueIter {}
