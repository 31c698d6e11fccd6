//! Groundedness: whether a rule's body gives every variable a value.
use crate::layout::{
    Room, ATOM_CELLS, DONE, MAX_RECORDS, TERM_CELLS, TERM_GLOBAL, TERM_LITERAL, TERM_VARIABLE,
    UNGROUNDED,
};
use crate::number::Term;
use crate::raw::{self, BodyCounts};
use crate::refusal::Refusal;

const ATOM_FUNCTION: usize = 0;
const ATOM_PRIMITIVE: usize = 1;
const ATOM_EQUALITY: usize = 2;

/// The place of the rule, which the answer here does not show.
const NO_PLACE: usize = 0;

/// A rule's body: terms, and atoms over them. Its terms are numbered from 0, apart from those of any problem.
///
/// ```
/// use sortlib::{Body, Grounded};
///
/// let mut body = Body::new();
/// let (x, y) = (body.variable(), body.variable());
/// body.function(&[x]);
/// body.equal(x, y);
/// assert!(matches!(body.check()?, Grounded::All { .. }));
/// # Ok::<(), sortlib::Refusal>(())
/// ```
#[derive(Clone, Debug, Default, PartialEq, Eq)]
pub struct Body {
    terms: Vec<usize>,
    atoms: Vec<usize>,
    arguments: Vec<usize>,
}

/// Whether every variable of a body's atoms is grounded.
///
/// ```
/// use sortlib::{Body, Grounded};
///
/// let mut body = Body::new();
/// let (x, y) = (body.variable(), body.variable());
/// body.equal(x, y);
/// let told = match body.check()? {
///     Grounded::All { .. } => "every variable is grounded".to_string(),
///     Grounded::Not { term, .. } => format!("{term} is not grounded"),
///     _ => "an answer that a later version has".to_string(),
/// };
/// assert_eq!(told, "term 0 is not grounded");
/// # Ok::<(), sortlib::Refusal>(())
/// ```
#[derive(Clone, Copy, Debug, PartialEq, Eq)]
#[must_use = "a variable may not be grounded"]
#[non_exhaustive]
pub enum Grounded {
    /// Every variable is.
    #[non_exhaustive]
    All {
        /// How many passes were begun.
        passes: usize,
    },
    /// Not every variable is.
    #[non_exhaustive]
    Not {
        /// The first variable that is not.
        term: Term,
        /// How many passes were begun.
        passes: usize,
    },
}

impl Body {
    /// Without terms and atoms.
    ///
    /// ```
    /// use sortlib::Body;
    ///
    /// assert_eq!(Body::new(), Body::default());
    /// ```
    pub fn new() -> Body {
        Body::default()
    }

    /// One more term: a variable. It has to be grounded where an atom has it.
    ///
    /// ```
    /// use sortlib::{Body, Term};
    ///
    /// assert_eq!(Body::new().variable(), Term(0));
    /// ```
    pub fn variable(&mut self) -> Term {
        self.term(TERM_VARIABLE)
    }

    /// One more term: a global.
    ///
    /// ```
    /// use sortlib::{Body, Term};
    ///
    /// assert_eq!(Body::new().global(), Term(0));
    /// ```
    pub fn global(&mut self) -> Term {
        self.term(TERM_GLOBAL)
    }

    /// One more term: a literal.
    ///
    /// ```
    /// use sortlib::{Body, Term};
    ///
    /// assert_eq!(Body::new().literal(), Term(0));
    /// ```
    pub fn literal(&mut self) -> Term {
        self.term(TERM_LITERAL)
    }

    /// A function's atom: it grounds all its terms.
    ///
    /// ```
    /// use sortlib::Body;
    ///
    /// let mut body = Body::new();
    /// let (x, y) = (body.variable(), body.variable());
    /// body.function(&[x, y]);
    /// ```
    pub fn function(&mut self, terms: &[Term]) {
        self.atom(ATOM_FUNCTION, terms);
    }

    /// A primitive's atom: it grounds its output, the last term, once its inputs are grounded.
    ///
    /// ```
    /// use sortlib::Body;
    ///
    /// let mut body = Body::new();
    /// let (input, output) = (body.literal(), body.variable());
    /// body.primitive(&[input, output]);
    /// ```
    pub fn primitive(&mut self, terms: &[Term]) {
        self.atom(ATOM_PRIMITIVE, terms);
    }

    /// Where one side is grounded, the other is.
    ///
    /// ```
    /// use sortlib::Body;
    ///
    /// let mut body = Body::new();
    /// let (x, one) = (body.variable(), body.literal());
    /// body.equal(x, one);
    /// ```
    pub fn equal(&mut self, x: Term, y: Term) {
        self.atom(ATOM_EQUALITY, &[x, y]);
    }

    /// Whether every variable that an atom has is grounded. `Ok` says that the body was not refused, and no more: see
    /// [`Grounded`]. A thread should have 96 kB of [stack](crate#stack) for it.
    ///
    /// ```
    /// use sortlib::{Body, Grounded};
    ///
    /// let mut body = Body::new();
    /// let (x, y) = (body.variable(), body.variable());
    /// body.equal(x, y);
    /// assert!(matches!(body.check()?, Grounded::Not { term, .. } if term == x));
    /// # Ok::<(), sortlib::Refusal>(())
    /// ```
    pub fn check(&self) -> Result<Grounded, Refusal> {
        let counts = BodyCounts {
            atoms: self.atoms.len() / ATOM_CELLS,
            arguments: self.arguments.len(),
            terms: self.terms.len() / TERM_CELLS,
        };
        let mut room = Room::new(counts.terms, MAX_RECORDS);
        let outcome = raw::grounded_check(
            counts,
            NO_PLACE,
            &self.atoms,
            &self.arguments,
            &self.terms,
            &mut room.work,
            &mut room.sort_list,
            &mut room.errors,
        );
        let passes = outcome.passes;
        match outcome.number {
            DONE => Ok(Grounded::All { passes }),
            UNGROUNDED => Ok(Grounded::Not {
                term: Term(outcome.term),
                passes,
            }),
            number => Err(Refusal::of(number)),
        }
    }

    fn term(&mut self, kind: usize) -> Term {
        let number = self.terms.len() / TERM_CELLS;
        self.terms.extend([kind, 0]);
        Term(number)
    }

    fn atom(&mut self, kind: usize, terms: &[Term]) {
        let start = self.arguments.len();
        self.arguments.extend(terms.iter().map(|term| term.0));
        let cells: [usize; ATOM_CELLS] = [kind, 0, start, terms.len(), 0, 0, 0, 0];
        self.atoms.extend(cells);
    }
}
