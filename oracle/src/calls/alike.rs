//! A problem that calls have built is solved twice by the crate: as the crate's generators built it, and as it is laid
//! out. Both must end alike.
use super::adding::{Added, numbers_by_name};
use super::names::*;
use super::running::{CrateProblem, World, copy_of};
use crate::constraint::{Assignment, Constraint, ConstraintError, ImpossibleConstraint};
use crate::core::AtomTerm;
use crate::refusals::refusal;
use crate::solving::*;
use crate::sort::ArcSort;
use crate::util::HashSet;
use std::cell::Cell;
use std::collections::HashMap;
use std::rc::Rc;

type Error = ConstraintError<AtomTerm, ArcSort>;

/// What solving the problem gives; a refusal would be a fault, since generators only add what solving takes.
pub fn solve_both(added: &Added, sorts: usize, line: &str) -> Outcome {
    let lent = added.layout.problem(sorts, line);
    assert_eq!(refusal(&lent), None, "what was added is refused: {line}");
    let laid_out = solve(&lent);
    let (passes, built) = solve_built(copy_of(&added.world.problem));
    assert_eq!(passes, laid_out.passes, "passes: {line}");
    match (built, &laid_out.ending) {
        (Ok(assignment), Ending::Answered(cells)) => {
            assert_eq!(&sort_cells(&added.world, &assignment), cells, "{line}");
        }
        (Err(Error::UnconstrainedVar(term)), Ending::Open { .. }) => {
            check_open(added, &term, line);
        }
        (Err(error), Ending::Conflict(entries)) => {
            let skeleton: Vec<Entry> = entries.iter().map(without_record).collect();
            assert_eq!(entries_of(&added.world, &error), skeleton, "{line}");
        }
        (built, _) => panic!("{:?} as built: {line}", built.err()),
    }
    laid_out
}

fn solve_built(mut problem: CrateProblem) -> (usize, Result<Assignment<AtomTerm, ArcSort>, Error>) {
    let passes = Rc::new(Cell::new(0));
    let counter: Box<dyn Constraint<AtomTerm, ArcSort>> = Box::new(PassCounter(passes.clone()));
    problem.constraints.insert(0, counter);
    let result = problem.solve(|sort| sort.name());
    (passes.get(), result)
}

/// For each term 0, or its sort + 1. Terms are compared by name here, as the crate's own users do.
fn sort_cells(world: &World, assignment: &Assignment<AtomTerm, ArcSort>) -> Vec<usize> {
    let mut cells = vec![0; world.names.len()];
    let numbers = numbers_by_name(world);
    for (term, sort) in &assignment.0 {
        cells[numbers[name_of(term)]] = sort_number(sort) + 1;
    }
    cells
}

/// The crate may name any range variable without a sort.
fn check_open(added: &Added, named: &AtomTerm, line: &str) {
    let mut problem = copy_of(&added.world.problem);
    assert!(problem.range.contains(named), "not in the range: {line}");
    problem.range = HashSet::default();
    let (_, result) = solve_built(problem);
    let assignment = result.unwrap_or_else(|e| panic!("{e:?} without a range: {line}"));
    assert!(assignment.get(named).is_none(), "has a sort: {line}");
}

/// The crate's error knows no records, and an Xor's no place.
fn without_record(entry: &Entry) -> Entry {
    Entry {
        record: 0,
        place: if entry.number == NONE { 0 } else { entry.place },
        ..*entry
    }
}

fn entries_of(world: &World, error: &Error) -> Vec<Entry> {
    let mut entries = vec![];
    enter(&mut entries, &numbers_by_name(world), error);
    entries
}

fn enter(entries: &mut Vec<Entry>, numbers: &HashMap<&str, usize>, error: &Error) {
    let entry = |number, place, values| Entry {
        number,
        record: 0,
        place,
        values,
    };
    match error {
        Error::InconsistentConstraint(term, expected, actual) => {
            let values = [
                numbers[name_of(term)],
                sort_number(expected),
                sort_number(actual),
            ];
            entries.push(entry(MISMATCH, place_of(term.span()), values));
        }
        Error::NoConstraintSatisfied(errors) => {
            entries.push(entry(NONE, 0, [errors.len(), 0, 0]));
            for error in errors {
                enter(entries, numbers, error);
            }
        }
        Error::ImpossibleCaseIdentified(ImpossibleConstraint::ArityMismatch { atom, expected }) => {
            let values = [head_number(&atom.head), *expected, 0];
            entries.push(entry(ARITY, place_of(&atom.span), values));
        }
        other => unreachable!("{other:?} is no conflict of a call"),
    }
}
