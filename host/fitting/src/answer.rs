//! The answers of a run, read as they lie in the space.

use crate::{OrderRefusal, Values};
use core::fmt;
use core::iter::{repeat_n, Map, RepeatN, Zip};
use core::slice;

/// The bytes of an answer.
pub(crate) const ANSWER: usize = 72;
const TRIES: usize = 6;
const DOMAINS: usize = 8;
const DOMAIN: usize = 4;

/// The answers of a run in turn, made by [`Answers::iter`].
pub type AnswerIter<'a> =
    Map<Zip<slice::Iter<'a, [u8; ANSWER]>, RepeatN<u8>>, fn((&'a [u8; ANSWER], u8)) -> Answer<'a>>;

/// The answers of an accepted run: the opening, then one for each order.
///
/// It is a view of the space that the run has written, small enough to be copied.
///
/// ```
/// # let bytes = conformance::write(&conformance::harbour());
/// # let book = fitting::check(&bytes)?;
/// # let mut space = fitting::Space::new();
/// use fitting::{OrderList, OrderRefusal, Values};
///
/// let mut list = OrderList::new();
/// list.narrow(2, Values::of([0])?)?.narrow(2, Values::of([5])?)?;
/// let answers = book.run(&list, &mut space);
///
/// for answer in answers {
///     println!("{}: {:?}", answer.status(), answer.domains().collect::<Vec<_>>());
/// }
/// assert_eq!(answers.opening().domain(1).to_string(), "0 1");
/// assert_eq!(answers.get(1).unwrap().domain(1).to_string(), "0");
/// assert_eq!(answers.last().refusal(), Some(OrderRefusal::Mask));
/// assert_eq!(answers.accepted(), 1);
/// assert!(answers.refused().eq([(2, OrderRefusal::Mask)])); // order 2; orders count from 1
/// # Ok::<(), Box<dyn std::error::Error>>(())
/// ```
#[derive(Clone, Copy, PartialEq, Eq, Hash)]
pub struct Answers<'a> {
    parts: &'a [[u8; ANSWER]],
    columns: u8,
    accepted: usize,
}

impl<'a> Answers<'a> {
    /// The answers to so many orders in a space that an accepted run has written.
    pub(crate) fn written(space: &'a [u8], orders: usize, columns: u8, accepted: usize) -> Self {
        let (parts, _) = space.as_chunks();
        Self {
            parts: parts.get(..=orders).unwrap_or(parts),
            columns,
            accepted,
        }
    }

    /// The answer before any order.
    pub fn opening(&self) -> Answer<'a> {
        self.numbered(0)
    }

    /// The answer to the last order; to an empty list the opening.
    pub fn last(&self) -> Answer<'a> {
        self.numbered(self.parts.len().saturating_sub(1))
    }

    /// Answer 0 is the opening, answer i that to order i.
    pub fn get(&self, number: usize) -> Option<Answer<'a>> {
        (number < self.parts.len()).then(|| self.numbered(number))
    }

    /// How many orders of the run were accepted.
    pub fn accepted(&self) -> usize {
        self.accepted
    }

    /// The refused orders: the number of each, counted from 1, and why.
    pub fn refused(&self) -> impl Iterator<Item = (usize, OrderRefusal)> + Clone + 'a {
        let numbered = self.iter().enumerate();
        numbered.filter_map(|(number, answer)| Some((number, answer.refusal()?)))
    }

    /// The answers in turn.
    pub fn iter(&self) -> AnswerIter<'a> {
        let columns = repeat_n(self.columns, self.parts.len());
        let parts = self.parts.iter().zip(columns);
        parts.map(|(bytes, columns)| Answer { bytes, columns })
    }

    /// An accepted run has written the opening at least, so these bytes are there.
    fn numbered(&self, number: usize) -> Answer<'a> {
        Answer {
            bytes: self.parts.get(number).unwrap_or(&[0; ANSWER]),
            columns: self.columns,
        }
    }
}

impl fmt::Debug for Answers<'_> {
    fn fmt(&self, f: &mut fmt::Formatter<'_>) -> fmt::Result {
        f.debug_list().entries(self).finish()
    }
}

impl<'a> IntoIterator for Answers<'a> {
    type Item = Answer<'a>;
    type IntoIter = AnswerIter<'a>;

    fn into_iter(self) -> AnswerIter<'a> {
        self.iter()
    }
}

impl<'a> IntoIterator for &Answers<'a> {
    type Item = Answer<'a>;
    type IntoIter = AnswerIter<'a>;

    fn into_iter(self) -> AnswerIter<'a> {
        self.iter()
    }
}

/// What a session shows at the opening, or after an order: a view of 72 bytes.
///
/// ```
/// # let bytes = conformance::write(&conformance::harbour());
/// # let book = fitting::check(&bytes)?;
/// # let mut space = fitting::Space::new();
/// use fitting::{OrderList, Status, Values};
///
/// let mut list = OrderList::new();
/// list.mark()?.narrow(2, Values::of([0])?)?.finish()?;
/// let answers = book.run(&list, &mut space);
///
/// let narrowed = answers.get(2).unwrap();
/// assert_eq!((narrowed.refusal(), narrowed.outcome()), (None, None)); // it is no finish
/// assert_eq!((narrowed.status(), narrowed.depth()), (Status::Open, 1));
/// assert!(narrowed.is_done(0) && narrowed.is_done(1));
/// assert_eq!(narrowed.domain(0).to_string(), "0 1");
///
/// let set: Option<Vec<u8>> = answers.last().full_set().map(Iterator::collect);
/// assert_eq!(set, Some(vec![0, 0, 0]));
/// # Ok::<(), Box<dyn std::error::Error>>(())
/// ```
#[derive(Clone, Copy, PartialEq, Eq, Hash)]
pub struct Answer<'a> {
    bytes: &'a [u8; ANSWER],
    columns: u8,
}

impl<'a> Answer<'a> {
    /// The bytes of the answer.
    pub fn bytes(&self) -> &'a [u8; ANSWER] {
        self.bytes
    }

    /// Why the order was refused; `None` if it was accepted, and at the opening.
    pub fn refusal(&self) -> Option<OrderRefusal> {
        OrderRefusal::from_number(self.bytes[0])
    }

    /// How the session stands.
    pub fn status(&self) -> Status {
        match self.bytes[1] {
            0 => Status::Dead,
            2 => Status::Decided,
            _ => Status::Open,
        }
    }

    /// The number of marks, 0 to 16.
    pub fn depth(&self) -> u8 {
        self.bytes[2]
    }

    /// What an accepted finish says; `None` after anything else.
    pub fn outcome(&self) -> Option<Outcome> {
        match self.bytes[3] {
            0 => None,
            1 => Some(Outcome::Found),
            2 => Some(Outcome::None),
            _ => Some(Outcome::Stopped),
        }
    }

    /// How many tries an accepted finish has made; `None` after anything else. Where it was stopped they are
    /// its limit.
    ///
    /// ```
    /// # let bytes = conformance::write(&conformance::harbour());
    /// # let book = fitting::check(&bytes)?;
    /// # let mut space = fitting::Space::new();
    /// use fitting::{OrderList, Outcome};
    ///
    /// let mut list = OrderList::new();
    /// list.finish_within(1_u16.try_into()?)?.finish_within(2_u16.try_into()?)?;
    /// let answers = book.run(&list, &mut space);
    /// let said = |number| answers.get(number).map(|it| (it.outcome(), it.tries()));
    /// assert_eq!(said(0), Some((None, None))); // the opening is no finish
    /// assert_eq!(said(1), Some((Some(Outcome::Stopped), Some(1))));
    /// assert_eq!(said(2), Some((Some(Outcome::Found), Some(2))));
    /// # Ok::<(), Box<dyn std::error::Error>>(())
    /// ```
    pub fn tries(&self) -> Option<u16> {
        let [low, high] = [self.bytes[TRIES], self.bytes[TRIES + 1]];
        self.outcome().map(|_| u16::from_le_bytes([low, high]))
    }

    /// The sheets that are done, bit s for sheet s; [`is_done`](Self::is_done) says when.
    pub fn done(&self) -> u8 {
        self.bytes[4]
    }

    /// Whether a sheet is done: the session isn't dead, and the sheet allows every choice of one value left
    /// in each of its columns.
    ///
    /// A page may then hide the sheet's questions, also where several of its columns are open: whatever is
    /// picked there, this sheet allows. It stays done at every narrow that leaves the session alive; a back
    /// may end it. After a finish it is said of the session still, and not of the full set.
    ///
    /// ```
    /// # let rows = vec![vec![0, 0], vec![0, 1], vec![1, 0], vec![1, 1]];
    /// # let bytes = conformance::write(&conformance::one_sheet(&[2, 2], rows));
    /// # let book = fitting::check(&bytes)?;
    /// # let mut space = fitting::Space::new();
    /// // The sheet has all four of 2 motors by 2 boards.
    /// let opening = book.run(&fitting::OrderList::new(), &mut space).opening();
    /// assert!(opening.is_done(0));
    /// assert!(opening.domains().all(|left| left.len() == 2)); // and both columns are open
    /// # Ok::<(), fitting::Refusal>(())
    /// ```
    pub fn is_done(&self, sheet: usize) -> bool {
        sheet < 8 && self.done() >> sheet & 1 == 1
    }

    /// The values left in each column.
    ///
    /// After an accepted finish the full set is here, one value for each column, or nothing where it found
    /// none or was stopped. What is left then is what the answer to the last order that was no finish shows.
    pub fn domains(
        &self,
    ) -> impl ExactSizeIterator<Item = Values> + DoubleEndedIterator + Clone + 'a {
        let parts = self.bytes[DOMAINS..].as_chunks::<DOMAIN>().0;
        let parts = parts.get(..self.columns.into()).unwrap_or(parts).iter();
        parts.map(|&bytes| Values::from_mask(u32::from_le_bytes(bytes)))
    }

    /// The values left in one column; none in a column that the book doesn't have.
    pub fn domain(&self, column: u8) -> Values {
        self.domains().nth(column.into()).unwrap_or_default()
    }

    /// The values of the full set that a finish has found, one for each column.
    pub fn full_set(
        &self,
    ) -> Option<impl ExactSizeIterator<Item = u8> + DoubleEndedIterator + Clone + 'a> {
        let lowest = |values: Values| values.mask().trailing_zeros() as u8;
        (self.outcome()? == Outcome::Found).then(|| self.domains().map(lowest))
    }
}

impl fmt::Debug for Answer<'_> {
    fn fmt(&self, f: &mut fmt::Formatter<'_>) -> fmt::Result {
        let domains = fmt::from_fn(|f| f.debug_list().entries(self.domains()).finish());
        f.debug_struct("Answer")
            .field("refusal", &self.refusal())
            .field("status", &self.status())
            .field("depth", &self.depth())
            .field("outcome", &self.outcome())
            .field("tries", &self.tries())
            .field("done", &self.done())
            .field("domains", &domains)
            .finish()
    }
}

/// How a session stands. It shows itself in the words dead, open and decided.
#[derive(Clone, Copy, Debug, PartialEq, Eq, Hash)]
pub enum Status {
    /// No value is left in any column.
    Dead,
    /// Some column has more than one value. It is no proof that there is a full set.
    Open,
    /// Each column has one value: together they are a full set.
    Decided,
}

impl fmt::Display for Status {
    fn fmt(&self, f: &mut fmt::Formatter<'_>) -> fmt::Result {
        f.pad(match self {
            Self::Dead => "dead",
            Self::Open => "open",
            Self::Decided => "decided",
        })
    }
}

/// What an accepted finish says. It shows itself in the words found, none and stopped.
#[derive(Clone, Copy, Debug, PartialEq, Eq, Hash)]
pub enum Outcome {
    /// There is a full set, and the answer has the first in the place of the domains.
    Found,
    /// There is none.
    None,
    /// It takes more tries than the limit to tell: there may be one, or none. The same finish with a larger
    /// limit may tell.
    Stopped,
}

impl fmt::Display for Outcome {
    fn fmt(&self, f: &mut fmt::Formatter<'_>) -> fmt::Result {
        f.pad(match self {
            Self::Found => "found",
            Self::None => "none",
            Self::Stopped => "stopped",
        })
    }
}
