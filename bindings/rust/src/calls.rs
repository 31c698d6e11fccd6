//! What a rule says: a query's atoms, or actions.
use crate::layout::{CALL_CELLS, SIGNATURE_CELLS};
use crate::number::{Context, Head, Place, Term};
use crate::raw::Lent;
use crate::tables::Tables;

const QUERY_HEAD: usize = 0;
const QUERY_EQUALITY: usize = 1;

const ACTION_LET: usize = 0;
const ACTION_SET: usize = 1;
const ACTION_CHANGE: usize = 2;
const ACTION_UNION: usize = 3;
const ACTION_LET_ATOM_TERM: usize = 4;
const ACTION_PANIC: usize = 5;

/// The flat lists of a query or of actions.
#[derive(Clone, Debug, Default, PartialEq, Eq)]
pub(crate) struct Calls {
    pub(crate) calls: Vec<usize>,
    pub(crate) arguments: Vec<usize>,
}

impl Calls {
    fn with_head(&mut self, kind: usize, head: Head, terms: &[Term], value: usize, place: Place) {
        let start = self.arguments.len();
        self.arguments.extend(terms.iter().map(|term| term.0));
        self.add([kind, head.0, start, terms.len(), value, 0, place.0, 0]);
    }

    fn with_two(&mut self, kind: usize, x: Term, y: Term, place: Place) {
        self.add([kind, 0, 0, 0, x.0, y.0, place.0, 0]);
    }

    fn add(&mut self, cells: [usize; CALL_CELLS]) {
        self.calls.extend(cells);
    }

    pub(crate) fn lent(&self, tables: &Tables, context: Context) -> Lent {
        Lent {
            signatures: tables.signatures.len() / SIGNATURE_CELLS,
            signature_sorts: tables.signature_sorts.len(),
            globals: tables.globals.len(),
            context: context.0,
            calls: self.calls.len() / CALL_CELLS,
            arguments: self.arguments.len(),
        }
    }
}

/// A query: atoms and equalities, in order. [`Problem::add_query`](crate::Problem::add_query) takes it.
///
/// ```
/// use sortlib::{Head, Place, Query, Term};
///
/// let mut query = Query::new();
/// query.atom(Head(0), &[Term(0), Term(1)], Place(1));
/// query.equal(Term(1), Term(2), Place(2));
/// ```
///
/// A query is no list of actions, and the compiler says so:
///
/// ```compile_fail,E0308
/// use sortlib::{Context, Problem, Query, Tables};
///
/// let _ = Problem::new(0, 1).add_actions(&Tables::new(), Context(0), &Query::new());
/// ```
#[derive(Clone, Debug, Default, PartialEq, Eq)]
pub struct Query {
    pub(crate) list: Calls,
}

impl Query {
    /// Without atoms.
    ///
    /// ```
    /// use sortlib::Query;
    ///
    /// assert_eq!(Query::new(), Query::default());
    /// ```
    pub fn new() -> Query {
        Query::default()
    }

    /// A head with its terms, the output last.
    ///
    /// ```
    /// use sortlib::{Head, Place, Query, Term};
    ///
    /// let (dist, reading, metre) = (Head(0), Term(0), Term(1));
    /// Query::new().atom(dist, &[reading, metre], Place(1));
    /// ```
    pub fn atom(&mut self, head: Head, terms: &[Term], place: Place) {
        self.list.with_head(QUERY_HEAD, head, terms, 0, place);
    }

    /// Two terms are equal.
    ///
    /// ```
    /// use sortlib::{Place, Query, Term};
    ///
    /// Query::new().equal(Term(0), Term(1), Place(1));
    /// ```
    pub fn equal(&mut self, x: Term, y: Term, place: Place) {
        self.list
            .with_head(QUERY_EQUALITY, Head(0), &[x, y], 0, place);
    }
}

/// Actions, in order. [`Problem::add_actions`](crate::Problem::add_actions) takes them.
///
/// ```
/// use sortlib::{Actions, Head, Place, Term};
///
/// let mut actions = Actions::new();
/// actions.bind(Term(1), Head(0), &[Term(0)], Place(1));
/// actions.union(Term(1), Term(2), Place(2));
/// ```
///
/// Actions are no query, and the compiler says so:
///
/// ```compile_fail,E0308
/// use sortlib::{Actions, Context, Problem, Tables};
///
/// let _ = Problem::new(0, 1).add_query(&Tables::new(), Context(0), &Actions::new());
/// ```
#[derive(Clone, Debug, Default, PartialEq, Eq)]
pub struct Actions {
    pub(crate) list: Calls,
}

impl Actions {
    /// Without actions.
    ///
    /// ```
    /// use sortlib::Actions;
    ///
    /// assert_eq!(Actions::new(), Actions::default());
    /// ```
    pub fn new() -> Actions {
        Actions::default()
    }

    /// `let`: the variable is the output of the head for these terms.
    ///
    /// ```
    /// use sortlib::{Actions, Head, Place, Term};
    ///
    /// let (certificate, reading) = (Term(1), Term(0));
    /// Actions::new().bind(certificate, Head(0), &[reading], Place(1));
    /// ```
    pub fn bind(&mut self, variable: Term, head: Head, terms: &[Term], place: Place) {
        self.list
            .with_head(ACTION_LET, head, terms, variable.0, place);
    }

    /// `set`: the output of the head for these terms becomes the value.
    ///
    /// ```
    /// use sortlib::{Actions, Head, Place, Term};
    ///
    /// let (certificate, reading) = (Term(0), Term(1));
    /// Actions::new().set(Head(0), &[certificate], reading, Place(1));
    /// ```
    pub fn set(&mut self, head: Head, terms: &[Term], value: Term, place: Place) {
        self.list.with_head(ACTION_SET, head, terms, value.0, place);
    }

    /// `change`: a deletion or subsumption. The output is a fresh term, which
    /// [`Problem::add_actions`](crate::Problem::add_actions) hands back.
    ///
    /// ```
    /// use sortlib::{Actions, Head, Place, Term};
    ///
    /// Actions::new().change(Head(0), &[Term(0)], Place(1));
    /// ```
    pub fn change(&mut self, head: Head, terms: &[Term], place: Place) {
        self.list.with_head(ACTION_CHANGE, head, terms, 0, place);
    }

    /// `union`: two terms become one.
    ///
    /// ```
    /// use sortlib::{Actions, Place, Term};
    ///
    /// Actions::new().union(Term(0), Term(1), Place(1));
    /// ```
    pub fn union(&mut self, x: Term, y: Term, place: Place) {
        self.list.with_two(ACTION_UNION, x, y, place);
    }

    /// `bind`: the variable is the term.
    ///
    /// ```
    /// use sortlib::{Actions, Place, Term};
    ///
    /// let (variable, literal) = (Term(0), Term(1));
    /// Actions::new().bind_term(variable, literal, Place(1));
    /// ```
    pub fn bind_term(&mut self, variable: Term, term: Term, place: Place) {
        self.list
            .with_two(ACTION_LET_ATOM_TERM, variable, term, place);
    }

    /// `panic`: nothing is said of any sort.
    ///
    /// ```
    /// use sortlib::{Actions, Place};
    ///
    /// Actions::new().panic(Place(1));
    /// ```
    pub fn panic(&mut self, place: Place) {
        self.list.add([ACTION_PANIC, 0, 0, 0, 0, 0, place.0, 0]);
    }
}
