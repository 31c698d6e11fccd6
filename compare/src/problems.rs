//! Problems: the library's `solve` against the crate's, every cell of the three buffers included.
use crate::build::{Builder, Tree};
use crate::spread::spread;
use crate::tally::Tally;
use oracle::answer::{Answer, answer};
use oracle::lent::Lent;
use sortlib::raw;

/// Every number that solving can answer.
pub const NUMBERS: [usize; 11] = [0, 1, 2, 3, 4, 5, 6, 30, 31, 32, 33];

/// What the oracle fills the buffers with before a call.
const WORK_FILL: usize = 9;
const SORT_LIST_FILL: usize = 8;
const ERRORS_FILL: usize = 7;

pub fn compare(lent: &Lent, tally: &mut Tally) {
    let ours = through_the_library(lent);
    let theirs = answer(lent);
    if ours == theirs {
        tally.same(ours.number);
    } else {
        let size = lent.record_list.len() + lent.side_list.len() + lent.range_list.len();
        tally.differs(size, line_of(lent), ours.to_string(), theirs.to_string());
    }
}

pub fn through_the_library(lent: &Lent) -> Answer {
    let counts = counts_of(lent);
    let mut work = vec![WORK_FILL; lent.work];
    let mut sort_list = vec![SORT_LIST_FILL; lent.sort_list];
    let mut errors = vec![ERRORS_FILL; lent.errors];
    let outcome = raw::solve(
        counts,
        &lent.record_list,
        &lent.side_list,
        &lent.top_list,
        &lent.range_list,
        &mut work,
        &mut sort_list,
        &mut errors,
    );
    Answer {
        number: outcome.number,
        passes: outcome.passes,
        term: outcome.term,
        place: outcome.place,
        work,
        sort_list,
        errors,
    }
}

pub fn counts_of(lent: &Lent) -> raw::Counts {
    let c = lent.counts;
    raw::Counts {
        records: c.records,
        side: c.side,
        tops: c.tops,
        range: c.range,
        terms: c.terms,
        sorts: c.sorts,
    }
}

/// The problem as the oracle's program `solve` reads it.
pub fn line_of(lent: &Lent) -> String {
    let c = lent.counts;
    let mut numbers = vec![c.records, c.side, c.tops, c.range, c.terms, c.sorts];
    numbers.extend([lent.work, lent.sort_list, lent.errors]);
    let lists = [
        &lent.record_list,
        &lent.side_list,
        &lent.top_list,
        &lent.range_list,
    ];
    for list in lists {
        numbers.push(list.len());
        numbers.extend(list);
    }
    line(&numbers)
}

/// Numbers parted by one space.
pub fn line(numbers: &[usize]) -> String {
    let words: Vec<String> = numbers.iter().map(usize::to_string).collect();
    words.join(" ")
}

/// Every constraint over 2 terms and 2 sorts: leaves, And and Xor of up to two leaves, Implies from each set of watched terms
/// to a leaf.
fn small_constraints() -> Vec<Tree> {
    let mut leaves = vec![Tree::Impossible(3, 1)];
    for x in 0..2 {
        for v in 0..2 {
            leaves.push(Tree::Eq(x, v));
            leaves.push(Tree::Assign(x, v));
        }
    }
    let mut all = leaves.clone();
    for make in [Tree::And as fn(Vec<Tree>) -> Tree, Tree::Xor] {
        all.push(make(vec![]));
        for a in &leaves {
            all.push(make(vec![a.clone()]));
            for b in &leaves {
                all.push(make(vec![a.clone(), b.clone()]));
            }
        }
    }
    for watched in [vec![], vec![0], vec![1], vec![0, 1]] {
        for leaf in &leaves {
            all.push(Tree::Implies(watched.clone(), Box::new(leaf.clone())));
        }
    }
    all
}

/// Every problem of up to three such constraints, with both terms in the range; up to two also with none.
pub fn exhaustive() -> Tally {
    let all = &small_constraints();
    let first = |number| match number {
        0 => None,
        n => Some(&all[n as usize - 1]),
    };
    spread(
        "problems of up to three constraints, all",
        all.len() as u64 + 1,
        |number, tally| match first(number) {
            None => [0, 2].iter().for_each(|&asked| small(&[], asked, tally)),
            Some(a) => starting_with(a, all, tally),
        },
    )
}

fn starting_with(a: &Tree, all: &[Tree], tally: &mut Tally) {
    for asked in [0, 2] {
        small(&[a], asked, tally);
        for b in all {
            small(&[a, b], asked, tally);
        }
    }
    for b in all {
        for c in all {
            small(&[a, b, c], 2, tally);
        }
    }
}

fn small(tops: &[&Tree], asked: usize, tally: &mut Tally) {
    let mut builder = Builder::default();
    for tree in tops {
        builder.top(tree);
    }
    for term in 0..asked {
        builder.ask(term, 50 + term);
    }
    compare(&builder.lent(2, 2), tally);
}
