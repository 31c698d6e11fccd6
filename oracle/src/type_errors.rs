//! What the crate's `to_type_error` makes of the error that solving leaves: the error list is put together again as the
//! crate's error, and its type error is listed in the same order.
use crate::ast::Expr;
use crate::calls::names::*;
use crate::constraint::{ConstraintError, ImpossibleConstraint};
use crate::core::{Atom, AtomTerm};
use crate::lent::Lent;
use crate::refusals::refusal;
use crate::solving::{ARITY, Ending, Entry, MISMATCH, NONE, solve};
use crate::sort::ArcSort;
use crate::typechecking::TypeError;
use egglog_ast::span::Span;
use std::fmt;

const OPEN: usize = 31;

type Error = ConstraintError<AtomTerm, ArcSort>;

/// A type error without those inside it. What has no meaning is 0; a failure of all alternatives has no place.
#[derive(Clone, Copy, Debug, PartialEq, Eq)]
pub struct Listed {
    pub number: usize,
    pub place: usize,
    pub values: [usize; 3],
}

#[derive(Clone, Debug, PartialEq, Eq)]
pub struct TypeErrors {
    /// Solving's own number.
    pub number: usize,
    pub errors: Vec<Listed>,
}

pub fn type_errors(lent: &Lent) -> TypeErrors {
    let of = |number, errors| TypeErrors { number, errors };
    if let Some(number) = refusal(lent) {
        return of(number, vec![]);
    }
    let error = match solve(lent).ending {
        Ending::Answered(_) => return of(0, vec![]),
        Ending::Open { term, place } => Error::UnconstrainedVar(variable(term, place)),
        Ending::Conflict(entries) => {
            let mut left = entries.into_iter();
            let error = crate_error(&mut left);
            assert_eq!(left.next(), None, "one error: {}", lent.line);
            error
        }
    };
    let mut errors = vec![];
    list(&mut errors, &error.to_type_error());
    of(errors[0].number, errors)
}

fn variable(term: usize, place: usize) -> AtomTerm {
    AtomTerm::Var(Span::At(place), term_name(term))
}

/// Takes one whole error off the front of a list in preorder.
fn crate_error(entries: &mut impl Iterator<Item = Entry>) -> Error {
    let entry = entries.next().expect("an entry for every error");
    let [v1, v2, v3] = entry.values;
    match entry.number {
        MISMATCH => {
            let term = variable(v1, entry.place);
            Error::InconsistentConstraint(term, sort(v2), sort(v3))
        }
        NONE => Error::NoConstraintSatisfied((0..v1).map(|_| crate_error(entries)).collect()),
        ARITY => Error::ImpossibleCaseIdentified(arity_mismatch(v1, v2, entry.place)),
        number => unreachable!("no entry has the number {number}"),
    }
}

/// The crate takes the output off the atom's arguments, so that there has to be one.
fn arity_mismatch(head: usize, expected: usize, place: usize) -> ImpossibleConstraint {
    ImpossibleConstraint::ArityMismatch {
        atom: Atom {
            span: Span::At(place),
            head: head_name(head),
            args: vec![variable(0, place)],
        },
        expected,
    }
}

fn list(errors: &mut Vec<Listed>, error: &TypeError) {
    let mut add = |number, span: Option<&Span>, values| {
        let place = span.map_or(0, place_of);
        errors.push(Listed {
            number,
            place,
            values,
        });
    };
    match error {
        TypeError::Mismatch {
            expr: Expr::Var(span, name),
            expected,
            actual,
        } => {
            let values = [
                term_number(name),
                sort_number(expected),
                sort_number(actual),
            ];
            add(MISMATCH, Some(span), values);
        }
        TypeError::InferenceFailure(Expr::Var(span, name)) => {
            add(OPEN, Some(span), [term_number(name), 0, 0]);
        }
        TypeError::AllAlternativeFailed(inside) => {
            add(NONE, None, [inside.len(), 0, 0]);
            inside.iter().for_each(|error| list(errors, error));
        }
        TypeError::Arity {
            expr: Expr::Call(span, head, _),
            expected,
        } => add(ARITY, Some(span), [head_number(head), *expected, 0]),
        other => unreachable!("{other:?} is no type error of solving"),
    }
}

impl fmt::Display for TypeErrors {
    fn fmt(&self, f: &mut fmt::Formatter<'_>) -> fmt::Result {
        write!(f, "{}", self.number)?;
        for error in &self.errors {
            let [v1, v2, v3] = error.values;
            write!(f, " | {} {} {v1} {v2} {v3}", error.number, error.place)?;
        }
        Ok(())
    }
}
