//! The groundedness check: the crate's own, and the same problem laid out and solved, which tells the passes.
mod lent;
mod running;

pub use lent::Body;

use crate::answer::Answer;
use crate::calls::layout::{Layout, Tree};
use crate::calls::lent::VARIABLE;
use crate::lent::ENTRY_CELLS;
use crate::refusals::MOST_RECORDS;
use crate::solving::{Ending, Outcome, solve};
use lent::*;
use running::{Ungrounded, grounded};

const UNGROUNDED: usize = 40;

/// The only sort.
const SORT: usize = 0;
const SORTS: usize = 1;

pub fn answer(body: &Body) -> Answer {
    let mut answer = Answer::untouched(body.work, body.sort_list, body.errors);
    match refusal(body) {
        Some(number) => answer.number = number,
        None => match layout(body) {
            Err(number) => answer.number = number,
            Ok(layout) => fill(body, &layout, &mut answer),
        },
    }
    answer
}

/// The problem that the body gives. Each atom is tested for 7, then for 10, before the next.
fn layout(body: &Body) -> Result<Layout, usize> {
    let mut layout = Layout {
        terms: vec![[VARIABLE, 0]; body.terms],
        ..Layout::default()
    };
    for atom in body.all_atoms() {
        let arguments = body.arguments_of(atom);
        let fits = match atom.kind {
            EQUALITY => arguments.len() == 2,
            _ => !arguments.is_empty(),
        };
        if !fits {
            return Err(7);
        }
        for tree in constraints(body, atom.kind, arguments) {
            layout.add_top(&tree, body.place);
        }
        for &term in arguments {
            if body.kind_of(term) == VARIABLE {
                layout.enter(term, body.place);
            }
        }
        if layout.passes_a_size() {
            return Err(10);
        }
    }
    Ok(layout)
}

/// What one atom gives. Literals and globals are assigned after the atom's Implies or Eq, once for each time they stand
/// there.
fn constraints(body: &Body, kind: usize, arguments: &[usize]) -> Vec<Tree> {
    let assign = |&term: &usize| Tree::Assign(term, SORT);
    if kind == FUNCTION_ATOM {
        return arguments.iter().map(assign).collect();
    }
    let first = match arguments {
        [left, right] if kind == EQUALITY => Tree::Eq(*left, *right),
        [inputs @ .., output] => Tree::Implies(inputs.to_vec(), Box::new(assign(output))),
        [] => unreachable!("an atom without arguments is refused"),
    };
    let others = arguments
        .iter()
        .filter(|&&term| body.kind_of(term) != VARIABLE);
    std::iter::once(first).chain(others.map(assign)).collect()
}

/// Past the refusals: the whole work room is zeroed, and the first 512 entries of the error list.
fn fill(body: &Body, layout: &Layout, answer: &mut Answer) {
    let outcome = solved(body, layout);
    answer.passes = outcome.passes;
    answer.work.fill(0);
    answer.errors[..MOST_RECORDS * ENTRY_CELLS].fill(0);
    match outcome.ending {
        Ending::Answered(cells) => answer.sort_list[..cells.len()].copy_from_slice(&cells),
        Ending::Open { term, place } => {
            (answer.number, answer.term, answer.place) = (UNGROUNDED, term, place);
        }
        Ending::Conflict(_) => panic!("one sort and a conflict: {}", body.line),
    }
}

/// The laid-out problem's outcome, which must be what the crate's own check says. The crate may name any variable that is
/// not grounded.
fn solved(body: &Body, layout: &Layout) -> Outcome {
    let lent = layout.problem(SORTS, &body.line);
    assert_eq!(crate::refusals::refusal(&lent), None, "{}", body.line);
    let outcome = solve(&lent);
    match (grounded(body), &outcome.ending) {
        (Ok(()), Ending::Answered(_)) => {}
        (Err(Ungrounded { term, place }), Ending::Open { .. }) => {
            assert_eq!(place, body.place, "{}", body.line);
            assert_eq!(cells_without_range(layout, body)[term], 0, "{}", body.line);
        }
        (crates, _) => panic!("{crates:?} from the crate: {}", body.line),
    }
    outcome
}

fn cells_without_range(layout: &Layout, body: &Body) -> Vec<usize> {
    let mut open = layout.clone();
    open.range.clear();
    match solve(&open.problem(SORTS, &body.line)).ending {
        Ending::Answered(cells) => cells,
        _ => panic!("nothing asked for, and not answered: {}", body.line),
    }
}
