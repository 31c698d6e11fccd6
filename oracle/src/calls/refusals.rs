//! The generators' refusals 1, 2, 7, 8 and 9, written from document 01 and its readings of it; the
//! crate has none of these tests. 10 is tested once an atom's constraints are laid out. For 20 and 21 this file only says
//! where in the order they belong: whether they are given is asked of the crate.
use super::lent::*;
use crate::refusals::*;

pub const MOST_SIGNATURES: usize = 256;
pub const MOST_SIGNATURE_SORTS: usize = 2048;
pub const MOST_GLOBALS: usize = 256;
pub const MOST_ARGUMENTS: usize = 2048;
const MOST_LENGTH: usize = 9999;
const CONTEXTS: usize = 8;

/// 1 or 2, over all that the call is lent. A typed local is lent no tables, no atoms and no arguments.
pub fn refusal(call: &Call) -> Option<usize> {
    if a_count_is_too_large(&call.problem) || terms_pass_their_list(call) {
        return Some(1);
    }
    let whole = call.which != Which::Local;
    if whole && a_table_is_too_large(call) {
        return Some(1);
    }
    if a_value_is_out_of_range(&call.problem) || a_term_is_bad(call) {
        return Some(2);
    }
    let bad = if whole {
        a_table_is_bad(call) || an_item_is_bad(call)
    } else {
        the_local_is_bad(call)
    };
    bad.then_some(2)
}

fn terms_pass_their_list(call: &Call) -> bool {
    call.problem.counts.terms > call.term_list.len() / TERM_CELLS
}

fn a_table_is_too_large(call: &Call) -> bool {
    call.signatures > MOST_SIGNATURES
        || call.signatures > call.signature_list.len() / SIGNATURE_CELLS
        || call.signature_sorts > MOST_SIGNATURE_SORTS
        || call.signature_sorts > call.signature_sort_list.len()
        || call.globals > MOST_GLOBALS
        || call.globals > call.global_list.len()
        || call.arguments > MOST_ARGUMENTS
        || call.arguments > call.argument_list.len()
        || call.items > call.item_list.len() / ITEM_CELLS
}

fn a_term_is_bad(call: &Call) -> bool {
    let sorts = call.problem.counts.sorts;
    (0..call.problem.counts.terms).any(|number| {
        let term = call.term(number);
        term.kind > LITERAL || (term.kind == LITERAL && term.value >= sorts)
    })
}

fn a_table_is_bad(call: &Call) -> bool {
    let sorts = call.problem.counts.sorts;
    let terms = call.problem.counts.terms;
    let arguments = &call.argument_list[..call.arguments];
    call.context >= CONTEXTS
        || call
            .all_signatures()
            .any(|signature| bad_signature(call, signature))
        || call.signature_sort_list[..call.signature_sorts]
            .iter()
            .any(|&sort| sort >= sorts)
        || call.global_list[..call.globals]
            .iter()
            .any(|&cell| bad_optional_sort(cell, sorts))
        || arguments.iter().any(|&term| term >= terms)
}

/// 0 for absent, else a sort + 1.
fn bad_optional_sort(cell: usize, sorts: usize) -> bool {
    cell > sorts
}

fn bad_signature(call: &Call, signature: Signature) -> bool {
    let sorts = call.problem.counts.sorts;
    match signature.kind {
        FUNCTION | CONSTRUCTOR | SIMPLE => {
            reaches_past(signature.start, signature.count, call.signature_sorts)
        }
        ALL_EQUAL => {
            bad_optional_sort(signature.common, sorts)
                || bad_optional_sort(signature.output, sorts)
                || signature.length > MOST_LENGTH + 1
        }
        _ => true,
    }
}

fn an_item_is_bad(call: &Call) -> bool {
    (0..call.items).any(|number| bad_item(call, call.item_cells(number)))
}

/// Fields that the kind doesn't read are not looked at.
fn bad_item(call: &Call, item: ItemCells) -> bool {
    let Some(kind) = kind_of(call.which, item.kind) else {
        return true;
    };
    let no_term = |term| term >= call.problem.counts.terms;
    let bad_part = kind.has_part() && reaches_past(item.start, item.count, call.arguments);
    let bad_terms = match kind {
        Kind::Let => !is_variable(call, item.x),
        Kind::Set => no_term(item.x),
        Kind::Union => no_term(item.x) || no_term(item.y),
        Kind::LetAtomTerm => !is_variable(call, item.x) || no_term(item.y),
        _ => false,
    };
    bad_part || bad_terms
}

fn is_variable(call: &Call, term: usize) -> bool {
    term < call.problem.counts.terms && call.term(term).kind == VARIABLE
}

fn the_local_is_bad(call: &Call) -> bool {
    let (term, sort, _) = call.local();
    !is_variable(call, term) || sort >= call.problem.counts.sorts
}

/// What the tests before 10 say of one atom or action, those before it having passed.
#[derive(Clone, Copy, Debug, PartialEq, Eq)]
pub enum Verdict {
    Refused(usize),
    /// 20 or 21: the crate must give it.
    CrateError(usize),
    Passed,
}

/// In order: 21, 7, 20, 8, 9. `arguments` are those of the atom, with the appended one unless it is fresh.
pub fn verdict(call: &Call, item: Item, arguments: &[usize]) -> Verdict {
    let alternatives = match item.kind.has_head() {
        true => alternatives(call, item.cells.head),
        false => vec![],
    };
    let is_constructor = |signature: &Signature| signature.kind == CONSTRUCTOR;
    if item.kind == Kind::Set && alternatives.first().is_some_and(is_constructor) {
        return Verdict::CrateError(21);
    }
    let too_few = match item.kind {
        Kind::Head => arguments.is_empty(),
        Kind::Equality => arguments.len() != 2,
        _ => false,
    };
    if too_few {
        return Verdict::Refused(7);
    }
    if item.kind.has_head() && alternatives.is_empty() {
        return Verdict::CrateError(20);
    }
    if alternatives
        .iter()
        .any(|&signature| has_no_arity(signature))
    {
        return Verdict::Refused(8);
    }
    if arguments.iter().any(|&term| is_unsorted_global(call, term)) {
        return Verdict::Refused(9);
    }
    Verdict::Passed
}

/// The head's first function, if any, then its primitives that the context permits, in table order.
fn alternatives(call: &Call, head: usize) -> Vec<Signature> {
    let is_function = |signature: &Signature| signature.kind <= CONSTRUCTOR;
    let of_head = |signature: &Signature| signature.head == head;
    let function = call
        .all_signatures()
        .find(|signature| of_head(signature) && is_function(signature));
    let permitted = |signature: &Signature| signature.mask >> call.context & 1 == 1;
    let primitives = call
        .all_signatures()
        .filter(|signature| of_head(signature) && !is_function(signature) && permitted(signature));
    function.into_iter().chain(primitives).collect()
}

/// A function or simple primitive without sorts, or an exact length of 0.
fn has_no_arity(signature: Signature) -> bool {
    match signature.kind {
        ALL_EQUAL => signature.length == 1,
        _ => signature.count == 0,
    }
}

fn is_unsorted_global(call: &Call, term: usize) -> bool {
    let term = call.term(term);
    term.kind == GLOBAL && call.global_sort(term.value).is_none()
}
