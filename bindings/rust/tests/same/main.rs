//! The wrapper against the library's own functions: the same problems, rules and bodies, by the types and as flat lists
//! that are laid out here as docs/LAYOUTS.md has them. They are random, and the same in every run. A cell that the page
//! calls unused, or that an entry's kind does not read, has junk in it.
mod body;
mod errors;
mod flat;
mod problem;
mod random;
mod tables;

use body::check_body;
use problem::Both;
use random::Random;
use sortlib::{Head, Place, Refusal};
use std::collections::BTreeSet;

const CASES: u64 = 2000;
const JUNK: usize = 0xBAD;
const HEADS: usize = 3;

/// Every answer number but those that the wrapper leaves no way to: 5, 6, and those of a text.
const ANSWERS: [usize; 16] = [0, 1, 2, 3, 4, 7, 8, 9, 10, 20, 21, 30, 31, 32, 33, 40];

/// A refusal by its number, as the page has them.
fn refusal(number: usize, head: usize, place: usize) -> Refusal {
    let (head, place) = (Head(head), Place(place));
    match number {
        1 => Refusal::TooMany,
        2 => Refusal::OutOfRange,
        3 => Refusal::NoTrees,
        4 => Refusal::TooDeep,
        7 => Refusal::NoArguments,
        8 => Refusal::NoSorts,
        9 => Refusal::UnsortedGlobal,
        10 => Refusal::Full,
        20 => Refusal::UnboundFunction { head, place },
        21 => Refusal::SetConstructor { head, place },
        _ => panic!("{number} is no refusal of these calls"),
    }
}

#[test]
fn the_wrapper_answers_as_the_library_does() {
    let mut given = BTreeSet::new();
    for case in 1..=CASES {
        let mut random = Random::new(case);
        let mut both = Both::random(&mut random);
        let steps = if random.one_in(50) { 900 } else { 40 };
        for _ in 0..random.below(steps) {
            both.step(&mut random);
        }
        while random.below(1000) > 0 && !both.free.is_empty() {
            both.require(&mut random);
        }
        both.solve();
        given.append(&mut both.given);
        given.insert(check_body(&mut random));
    }
    assert_eq!(given.into_iter().collect::<Vec<_>>(), ANSWERS);
}
