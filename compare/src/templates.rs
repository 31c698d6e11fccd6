//! Big problems of four kinds, each close to a number of records, as rule templates make them.
use crate::build::{Builder, Tree};
use oracle::lent::Lent;

pub const NAMES: [&str; 4] = [
    "overloaded heads",
    "chains, worst order",
    "groundedness",
    "nesting to depth 8",
];

/// The template of that number with at most so many records.
pub fn template(number: usize, records: usize) -> Lent {
    match number {
        0 => overloaded_heads(records),
        1 => chains(records),
        2 => groundedness(records),
        _ => nesting(records),
    }
}

/// Heads of two forms, (S, S) or (T, T), from each term to the next; only the last statement decides, and the heads stand
/// in the order in which that reaches one more of them a pass.
fn overloaded_heads(records: usize) -> Lent {
    let heads = (records - 1) / 7;
    let mut builder = Builder::default();
    for head in (0..heads).rev() {
        let form = |sort| Tree::And(vec![Tree::Assign(head, sort), Tree::Assign(head + 1, sort)]);
        builder.top(&Tree::Xor(vec![form(0), form(1)]));
    }
    builder.top(&Tree::Assign(0, 1));
    ask_all(&mut builder, heads + 1);
    builder.lent(heads + 1, 2)
}

/// Equal terms one after another, and back again, in the order in which a sort moves on by one term a pass.
fn chains(records: usize) -> Lent {
    let terms = ((records - 1) / 2 + 1).min(256);
    let mut builder = Builder::default();
    for term in (1..terms).rev() {
        builder.top(&Tree::Eq(term, term - 1));
    }
    builder.top(&Tree::Assign(0, 0));
    for term in (1..terms).rev() {
        builder.top(&Tree::Eq(term - 1, term));
    }
    ask_all(&mut builder, terms);
    builder.lent(terms, 1)
}

/// A primitive from each variable to the next, the last one first.
fn groundedness(records: usize) -> Lent {
    let terms = ((records - 1) / 2 + 1).min(256);
    let mut builder = Builder::default();
    for term in (1..terms).rev() {
        builder.top(&Tree::Implies(
            vec![term - 1],
            Box::new(Tree::Assign(term, 0)),
        ));
    }
    builder.top(&Tree::Assign(0, 0));
    ask_all(&mut builder, terms);
    builder.lent(terms, 1)
}

/// Xors of Ands of Xors, eight deep, each with two children; every leaf may hold until the last statement.
fn nesting(records: usize) -> Lent {
    const DEPTH: usize = 8;
    const WHOLE: usize = (1 << DEPTH) - 1;
    const TERMS: usize = 16;
    let mut builder = Builder::default();
    let mut term = 0;
    while builder.records() + WHOLE + TERMS <= records {
        builder.top(&nested(DEPTH, &mut term, TERMS));
    }
    while builder.records() + DEPTH + TERMS <= records {
        builder.top(&thin(DEPTH, &mut term, TERMS));
    }
    for term in 0..TERMS {
        builder.top(&Tree::Assign(term, term % 2));
    }
    ask_all(&mut builder, TERMS);
    builder.lent(TERMS, 2)
}

fn nested(depth: usize, term: &mut usize, terms: usize) -> Tree {
    if depth == 1 {
        *term += 1;
        return Tree::Assign(*term % terms, *term % 2);
    }
    let children = vec![
        nested(depth - 1, term, terms),
        nested(depth - 1, term, terms),
    ];
    if depth % 2 == 0 {
        Tree::Xor(children)
    } else {
        Tree::And(children)
    }
}

fn thin(depth: usize, term: &mut usize, terms: usize) -> Tree {
    if depth == 1 {
        *term += 1;
        return Tree::Assign(*term % terms, *term % 2);
    }
    let child = vec![thin(depth - 1, term, terms)];
    if depth % 2 == 0 {
        Tree::Xor(child)
    } else {
        Tree::And(child)
    }
}

fn ask_all(builder: &mut Builder, terms: usize) {
    for term in 0..terms.min(256) {
        builder.ask(term, term);
    }
}
