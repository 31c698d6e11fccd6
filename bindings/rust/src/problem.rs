//! Building a problem: records, children before parents, and what is required.
use crate::answer::Solved;
use crate::calls::{Actions, Query};
use crate::layout::{TERM_GLOBAL, TERM_LITERAL, TERM_VARIABLE};
use crate::lists::Lists;
use crate::number::{Context, Global, Head, Place, Sort, Term};
use crate::raw;
use crate::record::{Maker, Record};
use crate::refusal::Refusal;
use crate::tables::Tables;

const RECORD_EQ: usize = 0;
const RECORD_ASSIGN: usize = 1;
const RECORD_AND: usize = 2;
const RECORD_XOR: usize = 3;
const RECORD_IMPOSSIBLE: usize = 4;
const RECORD_IMPLIES: usize = 5;

/// Constraints over terms and sorts, numbered from 0. They are added one by one, or as a rule gives them. Each record
/// is to be used exactly once: as a child, or by [`Problem::require`].
///
/// Any number may be given. What is out of range or too large is refused by the call that reads it: what a rule adds by
/// the adding call, all else by [`Problem::solve`]. A refused call has changed nothing.
///
/// ```
/// use sortlib::{Place, Problem, Sort, Term};
///
/// // A head takes a Reading or a Setpoint; a statement says which.
/// let (reading, setpoint) = (Sort(0), Sort(1));
/// let d = Term(0);
/// let mut problem = Problem::new(1, 2);
/// let first = problem.assign(d, setpoint, Place(9));
/// let second = problem.assign(d, reading, Place(9));
/// let either = problem.xor(&[first, second], Place(9))?;
/// problem.require(either)?;
/// problem.ask(d, Place(9));
/// let open = problem.solve()?.into_sorts().unwrap_err();
/// assert_eq!(open.to_string(), "place 9: term 0 has no sort");
///
/// let decided = problem.assign(d, reading, Place(10));
/// problem.require(decided)?;
/// assert_eq!(problem.solve()?.into_sorts()?.of(d), Some(reading));
/// # Ok::<(), Box<dyn std::error::Error>>(())
/// ```
///
/// Two problems are equal when their constraints, terms and sorts are. A clone takes the records that were made before
/// it was cloned, and refuses those that the other one made afterwards.
#[derive(Debug)]
pub struct Problem {
    lists: Lists,
    /// Who makes records from now on.
    maker: Maker,
    /// Who made each record.
    makers: Vec<Maker>,
}

impl Clone for Problem {
    fn clone(&self) -> Problem {
        Problem {
            lists: self.lists.clone(),
            maker: Maker::new(),
            makers: self.makers.clone(),
        }
    }
}

impl PartialEq for Problem {
    fn eq(&self, other: &Problem) -> bool {
        self.lists == other.lists
    }
}

impl Eq for Problem {}

/// Without terms and sorts.
impl Default for Problem {
    fn default() -> Problem {
        Problem::new(0, 0)
    }
}

impl Problem {
    /// With so many variables as first terms, and so many sorts. More than 256 of either are refused by
    /// [`Problem::solve`].
    ///
    /// ```
    /// use sortlib::{Problem, Refusal};
    ///
    /// assert!(Problem::new(256, 256).solve()?.into_sorts().is_ok());
    /// assert_eq!(Problem::new(1 << 63, 1).solve(), Err(Refusal::TooMany));
    /// # Ok::<(), Refusal>(())
    /// ```
    pub fn new(variables: usize, sorts: usize) -> Problem {
        Problem {
            lists: Lists::new(variables, sorts),
            maker: Maker::new(),
            makers: Vec::new(),
        }
    }

    /// One more term: a variable.
    ///
    /// ```
    /// use sortlib::{Problem, Term};
    ///
    /// let mut problem = Problem::new(0, 1);
    /// assert_eq!(problem.variable(), Term(0));
    /// assert_eq!(problem.variable(), Term(1));
    /// ```
    pub fn variable(&mut self) -> Term {
        Term(self.lists.add_term(TERM_VARIABLE, 0))
    }

    /// One more term: a global of the tables that the calls are given. It gets its sort where a query or an action has
    /// it.
    ///
    /// ```
    /// use sortlib::{Problem, Sort, Tables, Term};
    ///
    /// let mut tables = Tables::new();
    /// let last_year = tables.global(Some(Sort(0)));
    /// assert_eq!(Problem::new(0, 1).global(last_year), Term(0));
    /// ```
    pub fn global(&mut self, global: Global) -> Term {
        Term(self.lists.add_term(TERM_GLOBAL, global.0))
    }

    /// One more term: a literal of that sort, which it gets where a query or an action has it.
    ///
    /// ```
    /// use sortlib::{Problem, Sort, Term};
    ///
    /// assert_eq!(Problem::new(0, 1).literal(Sort(0)), Term(0));
    /// ```
    pub fn literal(&mut self, sort: Sort) -> Term {
        Term(self.lists.add_term(TERM_LITERAL, sort.0))
    }

    /// The two terms have one sort.
    ///
    /// ```
    /// use sortlib::{Place, Problem, Sort, Term};
    ///
    /// let mut problem = Problem::new(2, 1);
    /// let equal = problem.equal(Term(0), Term(1), Place(1));
    /// let assign = problem.assign(Term(0), Sort(0), Place(2));
    /// problem.require(equal)?;
    /// problem.require(assign)?;
    /// assert_eq!(problem.solve()?.into_sorts()?.of(Term(1)), Some(Sort(0)));
    /// # Ok::<(), Box<dyn std::error::Error>>(())
    /// ```
    pub fn equal(&mut self, x: Term, y: Term, place: Place) -> Record {
        self.record(RECORD_EQ, [x.0, y.0, 0], place)
    }

    /// The term has this sort.
    ///
    /// ```
    /// use sortlib::{Place, Problem, Sort, Term};
    ///
    /// let mut problem = Problem::new(1, 1);
    /// let record = problem.assign(Term(0), Sort(0), Place(1));
    /// problem.require(record)?;
    /// assert_eq!(problem.solve()?.into_sorts()?.of(Term(0)), Some(Sort(0)));
    /// # Ok::<(), Box<dyn std::error::Error>>(())
    /// ```
    pub fn assign(&mut self, term: Term, sort: Sort, place: Place) -> Record {
        self.record(RECORD_ASSIGN, [term.0, sort.0, 0], place)
    }

    /// All children hold. A child of another problem is refused.
    ///
    /// ```
    /// use sortlib::{Place, Problem, Sort, Term};
    ///
    /// let mut problem = Problem::new(2, 1);
    /// let x = problem.assign(Term(0), Sort(0), Place(1));
    /// let y = problem.assign(Term(1), Sort(0), Place(1));
    /// let both = problem.and(&[x, y], Place(1))?;
    /// problem.require(both)?;
    /// assert_eq!(problem.solve()?.into_sorts()?.iter().count(), 2);
    /// # Ok::<(), Box<dyn std::error::Error>>(())
    /// ```
    pub fn and(&mut self, children: &[Record], place: Place) -> Result<Record, Refusal> {
        self.parent(RECORD_AND, children, place)
    }

    /// One of the children holds; as long as several may, nothing is decided. A child of another problem is refused.
    ///
    /// ```
    /// use sortlib::{Place, Problem, Sort, Term};
    ///
    /// let mut problem = Problem::new(1, 2);
    /// let first = problem.assign(Term(0), Sort(0), Place(1));
    /// let second = problem.assign(Term(0), Sort(1), Place(1));
    /// let either = problem.xor(&[first, second], Place(1))?;
    /// problem.require(either)?;
    /// assert_eq!(problem.solve()?.into_sorts()?.of(Term(0)), None);
    /// # Ok::<(), Box<dyn std::error::Error>>(())
    /// ```
    pub fn xor(&mut self, children: &[Record], place: Place) -> Result<Record, Refusal> {
        self.parent(RECORD_XOR, children, place)
    }

    /// A head with a wrong number of terms. The expected number counts the output, and is from 1 to 9,999.
    ///
    /// ```
    /// use sortlib::{Head, Place, Problem};
    ///
    /// let mut problem = Problem::new(0, 1);
    /// let record = problem.impossible(Head(5), 3, Place(1));
    /// problem.require(record)?;
    /// let errors = problem.solve()?.into_sorts().unwrap_err();
    /// assert_eq!(
    ///     errors.to_string(),
    ///     "place 1: head 5 has a wrong number of terms: expected 2, without the output"
    /// );
    /// # Ok::<(), sortlib::Refusal>(())
    /// ```
    pub fn impossible(&mut self, head: Head, expected_with_output: usize, place: Place) -> Record {
        self.record(RECORD_IMPOSSIBLE, [head.0, expected_with_output, 0], place)
    }

    /// Once all watched terms have a sort, the child holds. A child of another problem is refused.
    ///
    /// ```
    /// use sortlib::{Place, Problem, Sort, Term};
    ///
    /// let mut problem = Problem::new(2, 1);
    /// let output = problem.assign(Term(1), Sort(0), Place(1));
    /// let rule = problem.implies(&[Term(0)], output, Place(1))?;
    /// problem.require(rule)?;
    /// assert_eq!(problem.solve()?.into_sorts()?.of(Term(1)), None);
    /// # Ok::<(), Box<dyn std::error::Error>>(())
    /// ```
    pub fn implies(
        &mut self,
        watched: &[Term],
        child: Record,
        place: Place,
    ) -> Result<Record, Refusal> {
        self.own(child)?;
        let start = self.lists.add_side(watched.iter().map(|term| term.0));
        Ok(self.record(RECORD_IMPLIES, [start, watched.len(), child.number], place))
    }

    /// The record is a top-level constraint. One of another problem is refused.
    ///
    /// ```
    /// use sortlib::{Place, Problem, Refusal, Sort, Term};
    ///
    /// let mut problem = Problem::new(1, 1);
    /// let record = problem.assign(Term(0), Sort(0), Place(1));
    /// assert_eq!(problem.solve(), Err(Refusal::NoTrees)); // a record is not used
    /// problem.require(record)?;
    /// assert_eq!(problem.solve()?.into_sorts()?.of(Term(0)), Some(Sort(0)));
    /// # Ok::<(), Box<dyn std::error::Error>>(())
    /// ```
    pub fn require(&mut self, record: Record) -> Result<(), Refusal> {
        self.own(record)?;
        self.lists.tops.push(record.number);
        Ok(())
    }

    /// The term must get a sort; `place` is where it is asked for.
    ///
    /// ```
    /// use sortlib::{Place, Problem, Term};
    ///
    /// let mut problem = Problem::new(1, 1);
    /// problem.ask(Term(0), Place(1));
    /// assert!(problem.solve()?.into_sorts().is_err());
    /// # Ok::<(), sortlib::Refusal>(())
    /// ```
    pub fn ask(&mut self, term: Term, place: Place) {
        self.lists.range.extend([term.0, place.0]);
    }

    /// Adds what a query gives. All its terms are asked for. A thread should have 64 kB of [stack](crate#stack) for it.
    ///
    /// ```
    /// use sortlib::{Context, Head, Place, Problem, Query, Sort, Tables};
    ///
    /// let (dist, reading, metre) = (Head(0), Sort(0), Sort(1));
    /// let mut tables = Tables::new();
    /// tables.function(dist, &[reading, metre]);
    /// let mut problem = Problem::new(0, 2);
    /// let (t, d) = (problem.variable(), problem.variable());
    /// let mut query = Query::new();
    /// query.atom(dist, &[t, d], Place(1));
    /// problem.add_query(&tables, Context(0), &query)?;
    /// assert_eq!(problem.solve()?.into_sorts()?.of(d), Some(metre));
    /// # Ok::<(), Box<dyn std::error::Error>>(())
    /// ```
    pub fn add_query(
        &mut self,
        tables: &Tables,
        context: Context,
        query: &Query,
    ) -> Result<(), Refusal> {
        let calls = &query.list;
        let counts = self.lists.stretch();
        let added = raw::add_query(
            calls.lent(tables, context),
            counts,
            &tables.signatures,
            &tables.signature_sorts,
            &tables.globals,
            &self.lists.terms,
            &calls.calls,
            &calls.arguments,
            &mut self.lists.records,
            &mut self.lists.side,
            &mut self.lists.tops,
            &mut self.lists.range,
        );
        self.keep(added)
    }

    /// Adds what actions give, and hands back the fresh terms: one for each [`Actions::change`], in their order. The
    /// variables of [`Actions::bind`] and [`Actions::bind_term`] are asked for. A thread should have 64 kB of
    /// [stack](crate#stack) for it.
    ///
    /// ```
    /// use sortlib::{Actions, Context, Head, Place, Problem, Sort, Tables};
    ///
    /// let (dist, reading, metre) = (Head(0), Sort(0), Sort(1));
    /// let mut tables = Tables::new();
    /// tables.function(dist, &[reading, metre]);
    /// let mut problem = Problem::new(0, 2);
    /// let t = problem.variable();
    /// let mut actions = Actions::new();
    /// actions.change(dist, &[t], Place(1));
    /// let fresh = problem.add_actions(&tables, Context(0), &actions)?;
    /// let sorts = problem.solve()?.into_sorts()?;
    /// assert_eq!(fresh.len(), 1);
    /// assert_eq!(sorts.of(fresh[0]), Some(metre));
    /// # Ok::<(), Box<dyn std::error::Error>>(())
    /// ```
    pub fn add_actions(
        &mut self,
        tables: &Tables,
        context: Context,
        actions: &Actions,
    ) -> Result<Vec<Term>, Refusal> {
        let calls = &actions.list;
        let counts = self.lists.stretch();
        let added = raw::add_actions(
            calls.lent(tables, context),
            counts,
            &tables.signatures,
            &tables.signature_sorts,
            &tables.globals,
            &mut self.lists.terms,
            &calls.calls,
            &calls.arguments,
            &mut self.lists.records,
            &mut self.lists.side,
            &mut self.lists.tops,
            &mut self.lists.range,
        );
        self.keep(added)?;
        Ok((counts.terms..added.counts.terms).map(Term).collect())
    }

    /// Adds a typed local: the variable has this sort, and is asked for.
    ///
    /// ```
    /// use sortlib::{Place, Problem, Sort};
    ///
    /// let mut problem = Problem::new(0, 1);
    /// let d = problem.variable();
    /// problem.add_local(d, Sort(0), Place(1))?;
    /// assert_eq!(problem.solve()?.into_sorts()?.of(d), Some(Sort(0)));
    /// # Ok::<(), Box<dyn std::error::Error>>(())
    /// ```
    pub fn add_local(&mut self, variable: Term, sort: Sort, place: Place) -> Result<(), Refusal> {
        let counts = self.lists.stretch();
        let added = raw::assign_local(
            counts,
            variable.0,
            sort.0,
            place.0,
            &self.lists.terms,
            &self.lists.side,
            &mut self.lists.records,
            &mut self.lists.tops,
            &mut self.lists.range,
        );
        self.keep(added)
    }

    /// Which sort each term has, or why not: the answer, and the same as type errors. `Ok` says that the problem was
    /// not refused, and no more: a term that is open and a conflict are `Ok` too. [`Solved::into_sorts`] is `Ok` only
    /// where every term that was asked for has a sort.
    ///
    /// A thread should have 80 kB of [stack](crate#stack) for it, or 32 kB where records are nested at most eight deep.
    ///
    /// ```
    /// use sortlib::{Answer, Place, Problem, Sort, Term};
    ///
    /// let mut problem = Problem::new(1, 1);
    /// let record = problem.assign(Term(0), Sort(0), Place(1));
    /// problem.require(record)?;
    /// let solved = problem.solve()?;
    /// assert_eq!(solved.passes, 2);
    /// assert!(matches!(solved.answer, Answer::Sorted(_)));
    /// # Ok::<(), sortlib::Refusal>(())
    /// ```
    pub fn solve(&self) -> Result<Solved, Refusal> {
        let mut room = self.lists.room();
        let outcome = raw::solve(
            self.lists.counts(),
            &self.lists.records,
            &self.lists.side,
            &self.lists.tops,
            &self.lists.range,
            &mut room.work,
            &mut room.sort_list,
            &mut room.errors,
        );
        Solved::of(outcome, self.lists.record_count(), &room)
    }

    fn record(&mut self, kind: usize, values: [usize; 3], place: Place) -> Record {
        let number = self.lists.add_record(kind, values, place);
        self.makers.push(self.maker);
        Record {
            maker: self.maker,
            number,
        }
    }

    /// A record with a part of the side list as children.
    fn parent(
        &mut self,
        kind: usize,
        children: &[Record],
        place: Place,
    ) -> Result<Record, Refusal> {
        children.iter().try_for_each(|child| self.own(*child))?;
        let start = self
            .lists
            .add_side(children.iter().map(|child| child.number));
        Ok(self.record(kind, [start, children.len(), 0], place))
    }

    /// Refuses a record that this problem does not have.
    fn own(&self, record: Record) -> Result<(), Refusal> {
        if self.makers.get(record.number) == Some(&record.maker) {
            Ok(())
        } else {
            Err(Refusal::ForeignRecord {
                record: record.number,
            })
        }
    }

    /// Keeps what a generator's call added. Its records are this problem's own.
    fn keep(&mut self, added: raw::Added) -> Result<(), Refusal> {
        let kept = self.lists.keep(added);
        self.makers.resize(self.lists.record_count(), self.maker);
        kept
    }
}
