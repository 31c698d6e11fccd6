//! A problem as the crate's own users have it: terms are names with places, sorts are shared by name. For measuring the
//! crate's `solve` alone; `solving` has the terms that answers are read from, which are cheaper to compare.
use crate::calls::names::{head_name, sort, term_name};
use crate::constraint::*;
use crate::core::{Atom, AtomTerm, ResolvedAtomTerm};
use crate::lent::*;
use crate::sort::ArcSort;
use egglog_ast::generic_ast::Literal;
use egglog_ast::span::Span;
use std::rc::Rc;

/// Built, and not yet solved.
pub struct Named(Problem<AtomTerm, ArcSort>);

pub fn prepare(lent: &Lent) -> Named {
    let sorts: Vec<ArcSort> = (0..lent.counts.sorts).map(sort).collect();
    let mut problem = Problem::default();
    for &top in lent.tops() {
        problem.constraints.push(constraint(lent, &sorts, top));
    }
    let entry = |entry: RangeEntry| variable(entry.term, entry.place);
    problem.range = lent.range().map(entry).collect();
    Named(problem)
}

impl Named {
    /// Whether it was answered.
    pub fn solve(self) -> bool {
        self.0.solve(|sort| sort.name()).is_ok()
    }
}

fn variable(term: usize, place: usize) -> AtomTerm {
    AtomTerm::Var(Span::At(place), term_name(term))
}

/// The constraint that a record stands for, with all below it.
fn constraint(
    lent: &Lent,
    sorts: &[ArcSort],
    number: usize,
) -> Box<dyn Constraint<AtomTerm, ArcSort>> {
    let record = lent.record(number);
    let term = |term| variable(term, record.place);
    let child = |child| constraint(lent, sorts, child);
    let children = || lent.children(record).into_iter().map(child).collect();
    match record.kind {
        EQ => eq(term(record.v1), term(record.v2)),
        ASSIGN => assign(term(record.v1), sorts[record.v2].clone()),
        AND => and(children()),
        XOR => xor(children()),
        IMPOSSIBLE => impossible(ImpossibleConstraint::ArityMismatch {
            atom: Atom {
                span: Span::At(record.place),
                head: head_name(record.v1),
                args: vec![term(0)],
            },
            expected: record.v2,
        }),
        _ => {
            let watched = lent.part(record).iter().map(|&t| term(t)).collect();
            let child = child(record.v3);
            // `out` is only ever printed.
            let out = ResolvedAtomTerm::Literal(Span::Panic, Literal::Unit);
            implies(out, watched, Rc::new(move |_| child.clone()))
        }
    }
}
