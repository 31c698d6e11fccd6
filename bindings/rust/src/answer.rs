//! What solving gives.
use crate::error::{self, Error, TypeErrors};
use crate::layout::{Room, ARITY, DONE, MISMATCH, NONE_FITS, OPEN};
use crate::number::{Place, Sort, Term};
use crate::raw::Outcome;
use crate::refusal::Refusal;

/// A problem that was solved: the answer, and the same as type errors.
///
/// [`Solved::into_sorts`] is the short way: the sorts, or the type errors.
///
/// ```
/// use sortlib::{Place, Problem, Sort, Term};
///
/// fn sort_of_the_first(problem: &Problem) -> Result<Option<Sort>, Box<dyn std::error::Error>> {
///     let sorts = problem.solve()?.into_sorts()?;
///     Ok(sorts.of(Term(0)))
/// }
///
/// let mut problem = Problem::new(1, 1);
/// problem.ask(Term(0), Place(7));
/// let open = sort_of_the_first(&problem).unwrap_err();
/// assert_eq!(open.to_string(), "place 7: term 0 has no sort");
///
/// let record = problem.assign(Term(0), Sort(0), Place(8));
/// problem.require(record)?;
/// assert_eq!(sort_of_the_first(&problem)?, Some(Sort(0)));
/// # Ok::<(), Box<dyn std::error::Error>>(())
/// ```
#[derive(Clone, Debug, PartialEq, Eq)]
#[must_use = "the answer may be that a term is open, or a conflict"]
#[non_exhaustive]
pub struct Solved {
    /// How many passes were begun, the last or failing one included.
    pub passes: usize,
    /// What came of it.
    pub answer: Answer,
    /// None where the answer is [`Answer::Sorted`].
    pub type_errors: TypeErrors,
}

/// What solving says.
///
/// ```
/// use sortlib::{Answer, Problem, Refusal};
///
/// fn told(problem: &Problem) -> Result<String, Refusal> {
///     Ok(match problem.solve()?.answer {
///         Answer::Sorted(sorts) => format!("{} terms have a sort", sorts.iter().count()),
///         Answer::Open { term, place, .. } => format!("{term} of {place} is open"),
///         Answer::Conflict(error) => error.to_string(),
///         _ => "an answer that a later version has".to_string(),
///     })
/// }
///
/// assert_eq!(told(&Problem::new(1, 1))?, "0 terms have a sort");
/// # Ok::<(), Refusal>(())
/// ```
#[derive(Clone, Debug, PartialEq, Eq)]
#[non_exhaustive]
pub enum Answer {
    /// Every term that was asked for has a sort.
    Sorted(Sorts),
    /// A term that was asked for has no sort: the first such.
    #[non_exhaustive]
    Open {
        /// The term.
        term: Term,
        /// Where it was asked for.
        place: Place,
    },
    /// No sorts satisfy the constraints.
    Conflict(Error),
}

/// Which sort each term has. A term that nobody asked for may have none.
///
/// ```
/// use sortlib::{Place, Problem, Sort, Term};
///
/// let mut problem = Problem::new(2, 1);
/// let record = problem.assign(Term(1), Sort(0), Place(1));
/// problem.require(record)?;
/// let sorts = problem.solve()?.into_sorts()?;
/// assert_eq!(sorts.of(Term(0)), None);
/// assert_eq!(sorts.of(Term(1)), Some(Sort(0)));
/// # Ok::<(), Box<dyn std::error::Error>>(())
/// ```
#[derive(Clone, Debug, PartialEq, Eq)]
pub struct Sorts(Vec<Option<Sort>>);

impl Solved {
    /// The sorts, where every term that was asked for has one; else the type errors, of which there is at least one.
    ///
    /// ```
    /// use sortlib::{Place, Problem, Term};
    ///
    /// let mut problem = Problem::new(1, 1);
    /// assert!(problem.solve()?.into_sorts().is_ok());
    /// problem.ask(Term(0), Place(1));
    /// let errors = problem.solve()?.into_sorts().unwrap_err();
    /// assert_eq!(errors.to_string(), "place 1: term 0 has no sort");
    /// # Ok::<(), sortlib::Refusal>(())
    /// ```
    pub fn into_sorts(self) -> Result<Sorts, TypeErrors> {
        match self.answer {
            Answer::Sorted(sorts) => Ok(sorts),
            Answer::Open { .. } | Answer::Conflict(_) => Err(self.type_errors),
        }
    }

    /// What solving left for so many records.
    pub(crate) fn of(outcome: Outcome, records: usize, room: &Room) -> Result<Solved, Refusal> {
        let (answer, type_errors) = match outcome.number {
            DONE => (
                Answer::Sorted(Sorts::of_cells(&room.sort_list)),
                TypeErrors::default(),
            ),
            OPEN => (
                Answer::Open {
                    term: Term(outcome.term),
                    place: Place(outcome.place),
                },
                TypeErrors::of_open(outcome),
            ),
            MISMATCH | NONE_FITS | ARITY => (
                Answer::Conflict(
                    error::error(&room.errors).ok_or(Refusal::Unknown(outcome.number))?,
                ),
                TypeErrors::of_conflict(records, &room.errors),
            ),
            number => return Err(Refusal::of(number)),
        };
        Ok(Solved {
            passes: outcome.passes,
            answer,
            type_errors,
        })
    }
}

impl Sorts {
    /// The term's sort, if it has one.
    ///
    /// ```
    /// use sortlib::{Problem, Term};
    ///
    /// let sorts = Problem::new(1, 1).solve()?.into_sorts()?;
    /// assert_eq!(sorts.of(Term(0)), None);
    /// # Ok::<(), Box<dyn std::error::Error>>(())
    /// ```
    pub fn of(&self, term: Term) -> Option<Sort> {
        self.0.get(term.0).copied().flatten()
    }

    /// Each term that has a sort, with it, by the terms' numbers.
    ///
    /// ```
    /// use sortlib::{Place, Problem, Sort, Term};
    ///
    /// let mut problem = Problem::new(2, 1);
    /// let record = problem.assign(Term(1), Sort(0), Place(1));
    /// problem.require(record)?;
    /// let sorts = problem.solve()?.into_sorts()?;
    /// for (term, sort) in sorts.iter() {
    ///     assert_eq!((term, sort), (Term(1), Sort(0)));
    /// }
    /// # Ok::<(), Box<dyn std::error::Error>>(())
    /// ```
    pub fn iter(&self) -> impl Iterator<Item = (Term, Sort)> + '_ {
        let all = self.0.iter().enumerate();
        all.filter_map(|(term, sort)| sort.map(|sort| (Term(term), sort)))
    }

    /// A cell is 0 for none, else the sort + 1.
    fn of_cells(cells: &[usize]) -> Sorts {
        Sorts(
            cells
                .iter()
                .map(|cell| cell.checked_sub(1).map(Sort))
                .collect(),
        )
    }
}

#[cfg(test)]
mod tests {
    use super::*;
    use crate::layout::ERROR_CELLS;

    /// A kind of error that this version does not know.
    const LATER: usize = 34;

    fn solved(number: usize, entries: &[[usize; ERROR_CELLS]]) -> Result<Solved, Refusal> {
        let outcome = Outcome {
            number,
            ..Outcome::default()
        };
        let mut room = Room::new(0, entries.len());
        room.errors = entries.concat();
        Solved::of(outcome, entries.len(), &room)
    }

    #[test]
    fn an_answer_of_a_later_library_is_no_answer() {
        let later = [LATER, 0, 1, 0, 0, 0, 0, 0];
        assert_eq!(solved(LATER, &[later]), Err(Refusal::Unknown(LATER)));
    }

    #[test]
    fn an_error_with_an_unknown_part_is_not_taken_for_another() {
        let none_of_one = [NONE_FITS, 1, 1, 1, 0, 0, 0, 0];
        let later = [LATER, 0, 1, 0, 0, 0, 0, 0];
        let refused = Err(Refusal::Unknown(NONE_FITS));
        assert_eq!(solved(NONE_FITS, &[none_of_one, later]), refused);
        assert_eq!(solved(NONE_FITS, &[none_of_one]), refused);
    }
}
