//! Why there is a conflict, and type errors.
use crate::layout::{ARITY, ERROR_CELLS, MISMATCH, NONE_FITS, OPEN};
use crate::number::{Head, Place, Sort, Term};
use crate::raw::{self, Outcome, Told};
use std::fmt;

/// Why there is a conflict. `record` is the number of the constraint that failed
/// ([`Record::number`](crate::Record::number)), `place` where it comes from.
///
/// ```
/// use sortlib::{Answer, Error, Place, Problem, Sort, Term};
///
/// let mut problem = Problem::new(1, 2);
/// let first = problem.assign(Term(0), Sort(0), Place(1));
/// let second = problem.assign(Term(0), Sort(1), Place(2));
/// problem.require(first)?;
/// problem.require(second)?;
/// let Answer::Conflict(error) = problem.solve()?.answer else {
///     panic!("two sorts for one term");
/// };
/// let failed = match &error {
///     Error::Mismatch { record, .. } => *record,
///     Error::NoneFits { record, .. } => *record,
///     Error::Arity { record, .. } => *record,
///     _ => panic!("a kind that a later version has"),
/// };
/// assert_eq!(failed, second.number());
/// assert_eq!(
///     error.to_string(),
///     "place 2, record 1: term 0 would have two sorts: expected sort 1, actual sort 0"
/// );
/// # Ok::<(), sortlib::Refusal>(())
/// ```
#[derive(Clone, Debug, PartialEq, Eq)]
#[non_exhaustive]
pub enum Error {
    /// Two sorts for a term.
    #[non_exhaustive]
    Mismatch {
        /// The number of the constraint that failed.
        record: usize,
        /// Where it comes from.
        place: Place,
        /// The term.
        term: Term,
        /// The sort that the constraint wants.
        expected: Sort,
        /// The sort that it met.
        actual: Sort,
    },
    /// No alternative is left.
    #[non_exhaustive]
    NoneFits {
        /// The number of the constraint that failed.
        record: usize,
        /// Where it comes from.
        place: Place,
        /// Why each alternative fails, in order.
        alternatives: Vec<Error>,
    },
    /// A head with a wrong number of terms.
    #[non_exhaustive]
    Arity {
        /// The number of the constraint that failed.
        record: usize,
        /// Where it comes from.
        place: Place,
        /// The head.
        head: Head,
        /// How many terms it takes, the output counted.
        expected_with_output: usize,
    },
}

impl fmt::Display for Error {
    fn fmt(&self, f: &mut fmt::Formatter<'_>) -> fmt::Result {
        match self {
            Error::Mismatch {
                record,
                place,
                term,
                expected,
                actual,
            } => {
                write!(f, "{place}, record {record}: ")?;
                two_sorts(f, *term, *expected, *actual)
            }
            Error::NoneFits {
                record,
                place,
                alternatives,
            } => {
                write!(f, "{place}, record {record}: ")?;
                none_fits(f, alternatives.len())?;
                listed(f, alternatives)
            }
            Error::Arity {
                record,
                place,
                head,
                expected_with_output,
            } => write!(
                f,
                "{place}, record {record}: {head} has a wrong number of terms: \
                 expected {expected_with_output}, with the output"
            ),
        }
    }
}

fn two_sorts(f: &mut fmt::Formatter<'_>, term: Term, expected: Sort, actual: Sort) -> fmt::Result {
    write!(
        f,
        "{term} would have two sorts: expected {expected}, actual {actual}"
    )
}

fn none_fits(f: &mut fmt::Formatter<'_>, alternatives: usize) -> fmt::Result {
    write!(f, "no alternative fits, of {alternatives}")
}

/// Errors in brackets, if there are any.
fn listed(f: &mut fmt::Formatter<'_>, errors: &[Error]) -> fmt::Result {
    for (number, error) in errors.iter().enumerate() {
        let before = if number == 0 { " (" } else { "; " };
        write!(f, "{before}{error}")?;
    }
    let end = if errors.is_empty() { "" } else { ")" };
    write!(f, "{end}")
}

impl std::error::Error for Error {}

/// The whole error at the front of an error list. None where an entry is of a kind that this wrapper does not know.
pub(crate) fn error(errors: &[usize]) -> Option<Error> {
    next_error(&mut errors.chunks_exact(ERROR_CELLS))
}

/// Takes one whole error off the front of a list in preorder.
fn next_error<'a>(entries: &mut impl Iterator<Item = &'a [usize]>) -> Option<Error> {
    let entry = entries.next()?;
    let (number, record, place) = (entry[0], entry[1], Place(entry[2]));
    match number {
        MISMATCH => Some(Error::Mismatch {
            record,
            place,
            term: Term(entry[3]),
            expected: Sort(entry[4]),
            actual: Sort(entry[5]),
        }),
        NONE_FITS => {
            // a loop: adapters of iterators would take much more stack without optimisation
            let mut alternatives = Vec::new();
            for _ in 0..entry[3] {
                alternatives.push(next_error(entries)?);
            }
            Some(Error::NoneFits {
                record,
                place,
                alternatives,
            })
        }
        ARITY => Some(Error::Arity {
            record,
            place,
            head: Head(entry[3]),
            expected_with_output: entry[4],
        }),
        _ => None,
    }
}

/// A type error; `place` is where its constraint comes from. The alternatives of `NoneFits` follow it in the list.
///
/// ```
/// use sortlib::{Place, Problem, Term, TypeError};
///
/// let mut problem = Problem::new(1, 1);
/// problem.ask(Term(0), Place(7));
/// let errors = problem.solve()?.type_errors;
/// let error = errors.as_slice()[0];
/// let what_to_do = match error {
///     TypeError::Unsorted { term, .. } => format!("say which sort {term} has"),
///     TypeError::Mismatch { expected, actual, .. } => format!("decide: {expected} or {actual}"),
///     TypeError::NoneFits { .. } => "read the errors behind it".to_string(),
///     TypeError::Arity { expected_inputs, .. } => format!("write {expected_inputs} inputs"),
///     _ => "read a later version's page".to_string(),
/// };
/// assert_eq!(what_to_do, "say which sort term 0 has");
/// assert_eq!(error.to_string(), "place 7: term 0 has no sort");
/// # Ok::<(), sortlib::Refusal>(())
/// ```
#[derive(Clone, Copy, Debug, PartialEq, Eq)]
#[non_exhaustive]
pub enum TypeError {
    /// Two sorts for a term.
    #[non_exhaustive]
    Mismatch {
        /// Where the constraint comes from.
        place: Place,
        /// The term.
        term: Term,
        /// The sort that the constraint wants.
        expected: Sort,
        /// The sort that it met.
        actual: Sort,
    },
    /// A term that was asked for has no sort.
    #[non_exhaustive]
    Unsorted {
        /// Where it was asked for.
        place: Place,
        /// The term.
        term: Term,
    },
    /// No alternative is left.
    #[non_exhaustive]
    NoneFits {
        /// Where the constraint comes from.
        place: Place,
        /// How many alternatives there were; why each fails follows in the list.
        alternatives: usize,
    },
    /// A head with a wrong number of terms.
    #[non_exhaustive]
    Arity {
        /// Where the constraint comes from.
        place: Place,
        /// The head.
        head: Head,
        /// How many terms it takes, the output not counted.
        expected_inputs: usize,
    },
}

impl fmt::Display for TypeError {
    fn fmt(&self, f: &mut fmt::Formatter<'_>) -> fmt::Result {
        match self {
            TypeError::Mismatch {
                place,
                term,
                expected,
                actual,
            } => {
                write!(f, "{place}: ")?;
                two_sorts(f, *term, *expected, *actual)
            }
            TypeError::Unsorted { place, term } => write!(f, "{place}: {term} has no sort"),
            TypeError::NoneFits {
                place,
                alternatives,
            } => {
                write!(f, "{place}: ")?;
                none_fits(f, *alternatives)
            }
            TypeError::Arity {
                place,
                head,
                expected_inputs,
            } => write!(
                f,
                "{place}: {head} has a wrong number of terms: expected {expected_inputs}, without the output"
            ),
        }
    }
}

impl std::error::Error for TypeError {}

/// The type errors of a problem, in preorder: the first says what is wrong, the others why each alternative fails. A
/// problem whose terms all got their sorts has none.
///
/// ```
/// use sortlib::{Place, Problem, Term};
///
/// let mut problem = Problem::new(1, 1);
/// problem.ask(Term(0), Place(7));
/// let errors = problem.solve()?.type_errors;
/// assert_eq!(errors.to_string(), "place 7: term 0 has no sort");
/// # Ok::<(), sortlib::Refusal>(())
/// ```
#[derive(Clone, Debug, Default, PartialEq, Eq)]
pub struct TypeErrors(Vec<TypeError>);

impl TypeErrors {
    /// One after the other.
    ///
    /// ```
    /// use sortlib::Problem;
    ///
    /// assert!(Problem::new(1, 1).solve()?.type_errors.as_slice().is_empty());
    /// # Ok::<(), sortlib::Refusal>(())
    /// ```
    pub fn as_slice(&self) -> &[TypeError] {
        &self.0
    }

    /// The one of a term that is open.
    pub(crate) fn of_open(outcome: Outcome) -> TypeErrors {
        let told = raw::outcome_type_error(outcome);
        TypeErrors(type_error(told, outcome.place).into_iter().collect())
    }

    /// Those of a conflict, from the error list that solving left for so many records.
    pub(crate) fn of_conflict(records: usize, errors: &[usize]) -> TypeErrors {
        let entries = errors.chunks_exact(ERROR_CELLS).enumerate();
        let all = entries.map_while(|(number, entry)| {
            type_error(raw::type_error(records, number, errors), entry[2])
        });
        TypeErrors(all.collect())
    }
}

/// None past the error's end.
fn type_error(told: Told, place: usize) -> Option<TypeError> {
    let place = Place(place);
    match told.number {
        MISMATCH => Some(TypeError::Mismatch {
            place,
            term: Term(told.first),
            expected: Sort(told.second),
            actual: Sort(told.third),
        }),
        OPEN => Some(TypeError::Unsorted {
            place,
            term: Term(told.first),
        }),
        NONE_FITS => Some(TypeError::NoneFits {
            place,
            alternatives: told.first,
        }),
        ARITY => Some(TypeError::Arity {
            place,
            head: Head(told.first),
            expected_inputs: told.second,
        }),
        _ => None,
    }
}

/// A line for each.
impl fmt::Display for TypeErrors {
    fn fmt(&self, f: &mut fmt::Formatter<'_>) -> fmt::Result {
        for (number, error) in self.0.iter().enumerate() {
            let before = if number == 0 { "" } else { "\n" };
            write!(f, "{before}{error}")?;
        }
        Ok(())
    }
}

impl std::error::Error for TypeErrors {}
