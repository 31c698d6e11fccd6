//! Records, and which problem made them.
use std::sync::atomic::{AtomicU64, Ordering};

/// Who makes records: a number that no other problem of this process has.
#[derive(Clone, Copy, Debug, PartialEq, Eq, PartialOrd, Ord, Hash)]
pub(crate) struct Maker(u64);

impl Maker {
    pub(crate) fn new() -> Maker {
        static MADE: AtomicU64 = AtomicU64::new(0);
        Maker(MADE.fetch_add(1, Ordering::Relaxed))
    }
}

/// A constraint of one problem. It is to be used exactly once: as a child, or by
/// [`Problem::require`](crate::Problem::require). Another problem refuses it; a clone takes the records that were made
/// before it was cloned.
///
/// ```
/// use sortlib::{Place, Problem, Refusal, Sort, Term};
///
/// let mut problem = Problem::new(1, 1);
/// let mut other = Problem::new(1, 1);
/// let record = problem.assign(Term(0), Sort(0), Place(1));
/// assert_eq!(other.require(record), Err(Refusal::ForeignRecord { record: 0 }));
/// assert_eq!(problem.require(record), Ok(()));
/// ```
#[derive(Clone, Copy, Debug, PartialEq, Eq, PartialOrd, Ord, Hash)]
#[must_use = "each record is used exactly once: as a child, or by `require`"]
pub struct Record {
    pub(crate) maker: Maker,
    pub(crate) number: usize,
}

impl Record {
    /// Its number among the problem's records, from 0. An [`Error`](crate::Error) tells it.
    ///
    /// ```
    /// use sortlib::{Place, Problem, Sort, Term};
    ///
    /// let mut problem = Problem::new(1, 1);
    /// let record = problem.assign(Term(0), Sort(0), Place(1));
    /// assert_eq!(record.number(), 0);
    /// ```
    pub fn number(self) -> usize {
        self.number
    }
}
