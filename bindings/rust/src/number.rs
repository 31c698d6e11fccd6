//! A type for each kind of number, so that none can stand for another.
use crate::layout::CONTEXTS;
use std::fmt;

/// Declares a number of one kind, which is shown with its word in front.
macro_rules! number {
    ($(#[$about:meta])* $name:ident, $word:literal) => {
        $(#[$about])*
        #[derive(Clone, Copy, Debug, PartialEq, Eq, PartialOrd, Ord, Hash)]
        pub struct $name(pub usize);

        impl fmt::Display for $name {
            fn fmt(&self, f: &mut fmt::Formatter<'_>) -> fmt::Result {
                write!(f, concat!($word, " {}"), self.0)
            }
        }
    };
}

number! {
    /// A term of a problem or of a body, numbered from 0: a thing that the rule speaks of.
    ///
    /// ```
    /// use sortlib::{Problem, Term};
    ///
    /// let mut problem = Problem::new(2, 1);
    /// assert_eq!(problem.variable(), Term(2));
    /// assert_eq!(Term(2).to_string(), "term 2");
    /// ```
    ///
    /// A sort is no term, and the compiler says so:
    ///
    /// ```compile_fail,E0308
    /// use sortlib::{Place, Problem, Sort, Term};
    ///
    /// let mut problem = Problem::new(1, 1);
    /// let record = problem.assign(Sort(0), Term(0), Place(1));
    /// ```
    Term, "term"
}

number! {
    /// A sort, numbered from 0. Two sorts are equal exactly when their numbers are.
    ///
    /// ```
    /// use sortlib::Sort;
    ///
    /// let (reading, setpoint) = (Sort(0), Sort(1));
    /// assert_ne!(reading, setpoint);
    /// assert_eq!(setpoint.to_string(), "sort 1");
    /// ```
    Sort, "sort"
}

number! {
    /// A head: what takes terms and gives one. Any number is a head.
    ///
    /// ```
    /// use sortlib::{Head, Sort, Tables};
    ///
    /// let dist = Head(7);
    /// let mut tables = Tables::new();
    /// tables.function(dist, &[Sort(0), Sort(1)]);
    /// assert_eq!(dist.to_string(), "head 7");
    /// ```
    Head, "head"
}

number! {
    /// A place, such as a line's number. Any number is a place; it is handed back and never compared.
    ///
    /// ```
    /// use sortlib::{Answer, Place, Problem, Term};
    ///
    /// let mut problem = Problem::new(1, 1);
    /// problem.ask(Term(0), Place(12));
    /// let Answer::Open { place, .. } = problem.solve()?.answer else {
    ///     panic!("nothing gives the term a sort");
    /// };
    /// assert_eq!(place.to_string(), "place 12");
    /// # Ok::<(), sortlib::Refusal>(())
    /// ```
    Place, "place"
}

number! {
    /// A global of [`Tables`](crate::Tables), numbered from 0: a thing that all rules know.
    ///
    /// ```
    /// use sortlib::{Global, Sort, Tables};
    ///
    /// let mut tables = Tables::new();
    /// assert_eq!(tables.global(Some(Sort(0))), Global(0));
    /// assert_eq!(Global(0).to_string(), "global 0");
    /// ```
    Global, "global"
}

number! {
    /// The context in which a rule's atoms or actions stand, from 0 to 7. [`Contexts`] has those that permit a
    /// primitive.
    ///
    /// ```
    /// use sortlib::{Context, Problem, Query, Refusal, Tables};
    ///
    /// let mut problem = Problem::new(0, 1);
    /// let refused = problem.add_query(&Tables::new(), Context(8), &Query::new());
    /// assert_eq!(refused, Err(Refusal::OutOfRange));
    /// assert_eq!(Context(8).to_string(), "context 8");
    /// ```
    Context, "context"
}

/// The contexts in which a primitive may be used.
///
/// ```
/// use sortlib::{Context, Contexts, Head, Place, Problem, Query, Refusal, Sort, Tables};
///
/// let shows = Head(0);
/// let mut tables = Tables::new();
/// tables.simple(shows, Contexts::of(&[Context(0), Context(2)]), &[Sort(0)]);
///
/// let mut problem = Problem::new(0, 1);
/// let d = problem.variable();
/// let mut query = Query::new();
/// query.atom(shows, &[d], Place(1));
/// let refused = Refusal::UnboundFunction { head: shows, place: Place(1) };
/// assert_eq!(problem.add_query(&tables, Context(1), &query), Err(refused));
/// assert_eq!(problem.add_query(&tables, Context(2), &query), Ok(()));
/// ```
///
/// A number alone could be taken for a context's or for a mask, and the compiler takes neither:
///
/// ```compile_fail,E0423
/// let three = sortlib::Contexts(3);
/// ```
#[derive(Clone, Copy, Debug, PartialEq, Eq, PartialOrd, Ord, Hash)]
pub struct Contexts {
    /// Bit N permits context N.
    pub(crate) mask: usize,
}

impl Contexts {
    /// Every context.
    ///
    /// ```
    /// use sortlib::Contexts;
    ///
    /// assert_eq!(Contexts::EVERY, Contexts::from_mask(0b1111_1111));
    /// ```
    pub const EVERY: Contexts = Contexts::from_mask(usize::MAX);

    /// These contexts. Numbers from 8 on are no contexts, and permit nothing.
    ///
    /// ```
    /// use sortlib::{Context, Contexts};
    ///
    /// assert_eq!(Contexts::of(&[Context(3), Context(7)]), Contexts::from_mask(0b1000_1000));
    /// assert_eq!(Contexts::of(&[Context(8), Context(usize::MAX)]), Contexts::of(&[]));
    /// ```
    pub fn of(contexts: &[Context]) -> Contexts {
        let numbers = contexts.iter().map(|context| context.0);
        let bits = numbers
            .filter(|number| *number < CONTEXTS)
            .map(|number| 1 << number);
        Contexts::from_mask(bits.fold(0, |mask, bit: usize| mask | bit))
    }

    /// Those whose bit is set: bit N permits [`Context`] N. Bits from the eighth on are no contexts', and are dropped.
    ///
    /// ```
    /// use sortlib::{Context, Contexts};
    ///
    /// assert_eq!(Contexts::from_mask(0b101), Contexts::of(&[Context(0), Context(2)]));
    /// assert_eq!(Contexts::from_mask(usize::MAX), Contexts::EVERY);
    /// ```
    pub const fn from_mask(mask: usize) -> Contexts {
        let every = (1 << CONTEXTS) - 1;
        Contexts { mask: mask & every }
    }
}
