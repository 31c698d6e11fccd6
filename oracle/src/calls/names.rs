//! The names that numbers have in the crate. Every term has its own, so that two terms of one global or of one literal
//! stay two; a head's name ends in a dot, so that the names which the crate makes from heads never meet.
use super::lent::{Call, GLOBAL, LITERAL};
use crate::core::AtomTerm;
use crate::sort::{ArcSort, named_sort};
use egglog_ast::generic_ast::Literal;
use egglog_ast::span::Span;

pub fn sort_name(sort: usize) -> String {
    format!("s{sort}")
}

pub fn sort(number: usize) -> ArcSort {
    named_sort(&sort_name(number))
}

pub fn sort_number(sort: &ArcSort) -> usize {
    number_in(sort.name(), "s", "")
}

pub fn head_name(head: usize) -> String {
    format!("h{head}.")
}

pub fn head_number(name: &str) -> usize {
    number_in(name, "h", ".")
}

pub fn term_name(term: usize) -> String {
    format!("t{term}")
}

/// Of a term that has kept the name that its number gave it.
pub fn term_number(name: &str) -> usize {
    number_in(name, "t", "")
}

pub fn number_in(text: &str, before: &str, after: &str) -> usize {
    let number = text
        .strip_prefix(before)
        .and_then(|t| t.strip_suffix(after));
    let number = number.and_then(|number| number.parse().ok());
    number.unwrap_or_else(|| panic!("no number in {text:?}"))
}

pub fn place_of(span: &Span) -> usize {
    match span {
        Span::At(place) => *place,
        Span::Panic => unreachable!("every term and atom has a place"),
    }
}

/// A term of the call as the crate has it, at a place.
pub fn atom_term(call: &Call, names: &[String], number: usize, place: usize) -> AtomTerm {
    let span = Span::At(place);
    let name = names[number].clone();
    let term = call.term(number);
    match term.kind {
        GLOBAL => AtomTerm::Global(span, name),
        LITERAL => {
            let sort = sort_name(term.value);
            AtomTerm::Literal(span, Literal::Named { sort, name })
        }
        _ => AtomTerm::Var(span, name),
    }
}

pub fn name_of(term: &AtomTerm) -> &str {
    match term {
        AtomTerm::Var(_, name) | AtomTerm::Global(_, name) => name,
        AtomTerm::Literal(_, Literal::Named { name, .. }) => name,
        AtomTerm::Literal(_, Literal::Unit) => unreachable!("no call has a unit"),
    }
}
