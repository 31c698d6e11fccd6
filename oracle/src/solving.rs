//! Builds a problem's constraints through the module's own constructors and runs its `Problem::solve`.
use crate::constraint::{
    Assignment, Constraint, ConstraintError, ImpossibleConstraint, Problem, and, assign, eq,
    implies, impossible, xor,
};
use crate::core::{Atom, AtomTerm, ResolvedAtomTerm};
use crate::lent::*;
use egglog_ast::generic_ast::Literal;
use egglog_ast::span::Span;
use std::cell::Cell;
use std::hash::{Hash, Hasher};
use std::rc::Rc;

/// One entry of an error list, without the two cells that are always 0.
#[derive(Clone, Copy, Debug, PartialEq, Eq)]
pub struct Entry {
    pub number: usize,
    pub record: usize,
    pub place: usize,
    pub values: [usize; 3],
}

#[derive(Clone, Debug, PartialEq, Eq)]
pub enum Ending {
    /// The front of the sort list: for each term 0, or its sort + 1.
    Answered(Vec<usize>),
    /// The first range entry whose term has no sort.
    Open { term: usize, place: usize },
    /// The error in preorder.
    Conflict(Vec<Entry>),
}

#[derive(Clone, Debug, PartialEq, Eq)]
pub struct Outcome {
    pub passes: usize,
    pub ending: Ending,
}

/// Solves a problem that no refusal applies to.
pub fn solve(lent: &Lent) -> Outcome {
    let marked = run(lent, Xors::Marked, Range::Given);
    let plain = run(lent, Xors::Plain, Range::Given);
    assert_eq!(marked.passes, plain.passes, "passes of {}", lent.line);
    let ending = match (marked.result, plain.result) {
        (Ok(cells), Ok(same)) => {
            assert_eq!(cells, same, "sorts of {}", lent.line);
            Ending::Answered(cells)
        }
        (Err(marked), Err(plain)) => ending_of(lent, marked, plain),
        _ => panic!("marks change the result of {}", lent.line),
    };
    check_passes(lent, marked.passes);
    Outcome {
        passes: marked.passes,
        ending,
    }
}

type Error = ConstraintError<Term, Sort>;

fn ending_of(lent: &Lent, marked: Error, plain: Error) -> Ending {
    if let (Error::UnconstrainedVar(one), Error::UnconstrainedVar(other)) = (&marked, &plain) {
        return open_ending(lent, [one, other]);
    }
    let entries = entries_of(marked, Xors::Marked);
    let skeleton: Vec<Entry> = entries.iter().map(without_mark).collect();
    assert_eq!(
        skeleton,
        entries_of(plain, Xors::Plain),
        "error of {}",
        lent.line
    );
    Ending::Conflict(entries)
}

/// The crate's range is a hash set and may name any of its terms that has no sort. Here it must have named one of them,
/// and the first in the range's order is taken.
fn open_ending(lent: &Lent, named: [&Term; 2]) -> Ending {
    let Ok(cells) = run(lent, Xors::Plain, Range::Empty).result else {
        panic!("the range changes the result of {}", lent.line);
    };
    for term in named {
        let entries = lent.range().filter(|entry| entry.term == term.number);
        assert!(entries.count() > 0, "not in the range: {}", lent.line);
        assert_eq!(cells[term.number], 0, "has a sort: {}", lent.line);
    }
    let mut open = lent.range().filter(|entry| cells[entry.term] == 0);
    let first = open.next().expect("the named one at least");
    Ending::Open {
        term: first.term,
        place: first.place,
    }
}

/// The bound that document 01 states.
fn check_passes(lent: &Lent, passes: usize) {
    let records = (0..lent.counts.records).map(|r| lent.record(r));
    let implications = records.filter(|record| record.kind == IMPLIES).count();
    let most = lent.counts.terms + implications + 1;
    assert!(passes <= most, "{passes} passes: {}", lent.line);
}

/// Whether each Xor stands in a constraint of ours that marks its error with the record's number and place.
#[derive(Clone, Copy, PartialEq)]
enum Xors {
    Marked,
    Plain,
}

#[derive(Clone, Copy)]
enum Range {
    Given,
    Empty,
}

struct Run {
    passes: usize,
    /// For each term 0, or its sort + 1.
    result: Result<Vec<usize>, Error>,
}

fn run(lent: &Lent, xors: Xors, range: Range) -> Run {
    let passes = Rc::new(Cell::new(0));
    let mut problem = Problem::default();
    let counter: Constraining = Box::new(PassCounter(passes.clone()));
    problem.constraints.push(counter);
    for &top in lent.tops() {
        problem.constraints.push(constraint(lent, top, xors));
    }
    if let Range::Given = range {
        // The range names no record.
        problem.range = lent
            .range()
            .map(|e| Term::new(e.term, 0, e.place))
            .collect();
    }
    let result = problem.solve(|sort| &sort.name);
    Run {
        passes: passes.get(),
        result: result.map(|assignment| sort_cells(lent, &assignment)),
    }
}

/// A problem as the crate has it, built and not yet solved: for measuring the crate's `solve` alone.
pub struct Prepared(Problem<Term, Sort>);

/// Builds what `solve` solves, without marks and without a counter of passes.
pub fn prepare(lent: &Lent) -> Prepared {
    let mut problem = Problem::default();
    for &top in lent.tops() {
        problem.constraints.push(constraint(lent, top, Xors::Plain));
    }
    problem.range = lent
        .range()
        .map(|e| Term::new(e.term, 0, e.place))
        .collect();
    Prepared(problem)
}

impl Prepared {
    /// Whether it was answered.
    pub fn solve(self) -> bool {
        self.0.solve(|sort| &sort.name).is_ok()
    }
}

fn sort_cells(lent: &Lent, assignment: &Assignment<Term, Sort>) -> Vec<usize> {
    let sort_of = |term| assignment.get(&Term::new(term, 0, 0));
    let cell = |term| sort_of(term).map_or(0, |sort| sort.number + 1);
    (0..lent.counts.terms).map(cell).collect()
}

type Constraining = Box<dyn Constraint<Term, Sort>>;

/// The constraint that a record stands for, with all below it.
fn constraint(lent: &Lent, number: usize, xors: Xors) -> Constraining {
    let record = lent.record(number);
    let term = |term| Term::new(term, number, record.place);
    let child = |child| constraint(lent, child, xors);
    let children = || lent.children(record).into_iter().map(child).collect();
    match record.kind {
        EQ => eq(term(record.v1), term(record.v2)),
        ASSIGN => assign(term(record.v1), Sort::new(record.v2)),
        AND => and(children()),
        XOR if xors == Xors::Marked => Box::new(MarkedXor {
            mark: term(0),
            xor: xor(children()),
        }),
        XOR => xor(children()),
        IMPOSSIBLE => impossible(arity_mismatch(number, record)),
        IMPLIES => {
            let watched = lent.part(record).iter().map(|&t| term(t)).collect();
            let child = child(record.v3);
            // `out` is only ever printed.
            let out = ResolvedAtomTerm::Literal(Span::Panic, Literal::Unit);
            implies(out, watched, Rc::new(move |_| child.clone()))
        }
        kind => unreachable!("kind {kind} is refused"),
    }
}

/// The atom is never looked into by solving, so it can carry the record's number as its one argument.
fn arity_mismatch(number: usize, record: Record) -> ImpossibleConstraint {
    let span = Span::At(record.place);
    ImpossibleConstraint::ArityMismatch {
        atom: Atom {
            span: span.clone(),
            head: record.v1.to_string(),
            args: vec![AtomTerm::Var(span, number.to_string())],
        },
        expected: record.v2,
    }
}

/// A term as a record or the range names it. Only its number is compared, so that an error carries the place and the
/// record that it comes from.
#[derive(Clone, Debug)]
struct Term {
    number: usize,
    record: usize,
    place: usize,
}

impl Term {
    fn new(number: usize, record: usize, place: usize) -> Self {
        Term {
            number,
            record,
            place,
        }
    }
}

impl PartialEq for Term {
    fn eq(&self, other: &Self) -> bool {
        self.number == other.number
    }
}

impl Eq for Term {}

impl Hash for Term {
    fn hash<H: Hasher>(&self, state: &mut H) {
        self.number.hash(state);
    }
}

#[derive(Clone, Debug)]
struct Sort {
    number: usize,
    name: Rc<str>,
}

impl Sort {
    fn new(number: usize) -> Self {
        let name = number.to_string().into();
        Sort { number, name }
    }
}

type Updated = Result<bool, Error>;

/// Stands first and changes nothing: it is updated once a pass.
#[derive(Clone)]
pub(crate) struct PassCounter(pub(crate) Rc<Cell<usize>>);

impl<Var, Value> Constraint<Var, Value> for PassCounter {
    fn update(
        &mut self,
        _: &mut Assignment<Var, Value>,
        _: fn(&Value) -> &str,
    ) -> Result<bool, ConstraintError<Var, Value>> {
        self.0.set(self.0.get() + 1);
        Ok(false)
    }

    fn pretty(&self) -> String {
        "passes".to_owned()
    }
}

/// An Xor that adds its mark at the end of its own error.
#[derive(Clone)]
struct MarkedXor {
    mark: Term,
    xor: Constraining,
}

impl Constraint<Term, Sort> for MarkedXor {
    fn update(&mut self, sorts: &mut Assignment<Term, Sort>, key: fn(&Sort) -> &str) -> Updated {
        let mut updated = self.xor.update(sorts, key);
        if let Err(Error::NoConstraintSatisfied(errors)) = &mut updated {
            // No other error of an update has this form.
            errors.push(Error::UnconstrainedVar(self.mark.clone()));
        }
        updated
    }

    fn pretty(&self) -> String {
        self.xor.pretty()
    }
}

pub(crate) const MISMATCH: usize = 30;
pub(crate) const NONE: usize = 32;
pub(crate) const ARITY: usize = 33;

fn entries_of(error: Error, xors: Xors) -> Vec<Entry> {
    let mut entries = vec![];
    enter(&mut entries, error, xors);
    entries
}

fn enter(entries: &mut Vec<Entry>, error: Error, xors: Xors) {
    match error {
        Error::InconsistentConstraint(term, expected, actual) => entries.push(Entry {
            number: MISMATCH,
            record: term.record,
            place: term.place,
            values: [term.number, expected.number, actual.number],
        }),
        Error::NoConstraintSatisfied(mut errors) => {
            let (record, place) = match xors {
                Xors::Marked => take_mark(&mut errors),
                Xors::Plain => (0, 0),
            };
            entries.push(Entry {
                number: NONE,
                record,
                place,
                values: [errors.len(), 0, 0],
            });
            for error in errors {
                enter(entries, error, xors);
            }
        }
        Error::ImpossibleCaseIdentified(impossible) => entries.push(arity_entry(&impossible)),
        Error::UnconstrainedVar(_) => unreachable!("an update never names an unsorted term"),
    }
}

fn take_mark(errors: &mut Vec<Error>) -> (usize, usize) {
    match errors.pop() {
        Some(Error::UnconstrainedVar(mark)) => (mark.record, mark.place),
        other => unreachable!("a mark stands last, not {other:?}"),
    }
}

fn without_mark(entry: &Entry) -> Entry {
    let mut entry = *entry;
    if entry.number == NONE {
        (entry.record, entry.place) = (0, 0);
    }
    entry
}

/// Reads back what `arity_mismatch` put there.
fn arity_entry(impossible: &ImpossibleConstraint) -> Entry {
    let ImpossibleConstraint::ArityMismatch { atom, expected } = impossible else {
        unreachable!("no function mismatch is ever built");
    };
    let (Span::At(place), [AtomTerm::Var(_, record)]) = (&atom.span, &atom.args[..]) else {
        unreachable!("an atom of another form");
    };
    let number = |text: &String| text.parse().expect("a number");
    Entry {
        number: ARITY,
        record: number(record),
        place: *place,
        values: [number(&atom.head), *expected, 0],
    }
}
