//! Refusals.
use crate::layout::{
    FULL, NO_ARGUMENTS, NO_SORTS, NO_TREES, OUT_OF_RANGE, SET_CONSTRUCTOR, TOO_DEEP, TOO_MANY,
    UNBOUND_FUNCTION, UNSORTED_GLOBAL,
};
use crate::number::{Head, Place};
use std::fmt;

/// The call was refused, and nothing has changed. Each kind but the last two has its answer number, in docs/LAYOUTS.md
/// of the repository.
///
/// ```
/// use sortlib::{Place, Problem, Refusal, Sort, Term};
///
/// let mut problem = Problem::new(1, 1);
/// let record = problem.assign(Term(0), Sort(1), Place(1));
/// problem.require(record)?;
/// let refused = problem.solve().unwrap_err();
/// assert_eq!(refused, Refusal::OutOfRange); // there is one sort: 0
/// println!("{refused}");
/// # Ok::<(), Refusal>(())
/// ```
#[derive(Clone, Copy, Debug, PartialEq, Eq)]
#[non_exhaustive]
pub enum Refusal {
    /// 1: more of something than there may be. `Problem::new(257, 1).solve()` gives it.
    TooMany,
    /// 2: a term, sort, global, context or count is out of range, or a bound term is no variable.
    OutOfRange,
    /// 3: a record is used twice, or not at all.
    NoTrees,
    /// 4: records are nested more than eight deep.
    TooDeep,
    /// 7: an atom without terms.
    NoArguments,
    /// 8: a signature without sorts, or of the exact length 0.
    NoSorts,
    /// 9: a global without a sort.
    UnsortedGlobal,
    /// 10: what is added would be more than there may be.
    Full,
    /// 20: the head has no signature that the context permits.
    UnboundFunction {
        /// The head.
        head: Head,
        /// Where it stands.
        place: Place,
    },
    /// 21: `set` of a constructor.
    SetConstructor {
        /// The constructor.
        head: Head,
        /// Where it is set.
        place: Place,
    },
    /// The wrapper's own: a record that another problem made.
    ForeignRecord {
        /// Its number in that problem.
        record: usize,
    },
    /// A number that this version of the wrapper does not know, from a library of another version.
    Unknown(usize),
}

impl Refusal {
    pub(crate) fn of(number: usize) -> Refusal {
        match number {
            TOO_MANY => Refusal::TooMany,
            OUT_OF_RANGE => Refusal::OutOfRange,
            NO_TREES => Refusal::NoTrees,
            TOO_DEEP => Refusal::TooDeep,
            NO_ARGUMENTS => Refusal::NoArguments,
            NO_SORTS => Refusal::NoSorts,
            UNSORTED_GLOBAL => Refusal::UnsortedGlobal,
            FULL => Refusal::Full,
            other => Refusal::Unknown(other),
        }
    }

    /// A generator's refusal: two of its numbers come with a head and a place.
    pub(crate) fn at(number: usize, head: Head, place: Place) -> Refusal {
        match number {
            UNBOUND_FUNCTION => Refusal::UnboundFunction { head, place },
            SET_CONSTRUCTOR => Refusal::SetConstructor { head, place },
            other => Refusal::of(other),
        }
    }
}

impl fmt::Display for Refusal {
    fn fmt(&self, f: &mut fmt::Formatter<'_>) -> fmt::Result {
        match self {
            Refusal::TooMany => {
                write!(f, "refused 1: there is more of something than there may be")
            }
            Refusal::OutOfRange => write!(
                f,
                "refused 2: a term, sort, global, context or count is out of range, or a bound term is no variable"
            ),
            Refusal::NoTrees => write!(f, "refused 3: a record is used twice, or not at all"),
            Refusal::TooDeep => write!(f, "refused 4: records are nested more than 8 deep"),
            Refusal::NoArguments => write!(f, "refused 7: an atom has no terms"),
            Refusal::NoSorts => write!(
                f,
                "refused 8: a signature has no sorts, or the exact length 0"
            ),
            Refusal::UnsortedGlobal => write!(f, "refused 9: a global has no sort"),
            Refusal::Full => write!(
                f,
                "refused 10: what is added would be more than there may be"
            ),
            Refusal::UnboundFunction { head, place } => write!(
                f,
                "refused 20: at {place}, {head} has no signature that the context permits"
            ),
            Refusal::SetConstructor { head, place } => write!(
                f,
                "refused 21: at {place}, {head} is a constructor and cannot be set"
            ),
            Refusal::ForeignRecord { record } => {
                write!(f, "refused: record {record} was made by another problem")
            }
            Refusal::Unknown(number) => write!(
                f,
                "the library answered {number}, a number that this version of the wrapper does not know"
            ),
        }
    }
}

impl std::error::Error for Refusal {}
