//! Compares the static library with the crate's own functions and prints what was run. Fails on any difference, and where
//! an answer number was never seen. `compare [COUNT [GROUP..]]`: so many random inputs of each kind; only these groups.
use compare::tally::Tally;
use compare::{bodies, calls, problems, random_calls, random_problems, texts, type_errors};
use std::process::ExitCode;

/// Random inputs of each kind where the command names no number.
const RANDOM: u64 = 1_000_000;

/// A group's name, what it runs, and the answer numbers that it must see.
type Group = (&'static str, fn(u64) -> Tally, &'static [usize]);

const GROUPS: [Group; 7] = [
    ("problems", random_problems::random, &problems::NUMBERS),
    ("type-errors", type_errors::random, &type_errors::NUMBERS),
    ("calls", random_calls::random, &calls::NUMBERS),
    ("bodies", bodies::random, &bodies::NUMBERS),
    ("texts", texts::random, &texts::NUMBERS),
    ("short-bodies", |_| bodies::exhaustive(), &[0, 40]),
    (
        "short-problems",
        |_| problems::exhaustive(),
        &[0, 30, 31, 32, 33],
    ),
];

fn main() -> ExitCode {
    let words: Vec<String> = std::env::args().skip(1).collect();
    let count = match words.first() {
        Some(word) => word.parse().expect("how many random inputs of each kind"),
        None => RANDOM,
    };
    let named = |name: &str| words.len() < 2 || words[1..].iter().any(|word| word == name);
    let known = |word: &String| GROUPS.iter().any(|(name, ..)| name == word);
    assert!(words.iter().skip(1).all(known), "no such group");
    let mut alike = true;
    for (name, run, numbers) in GROUPS {
        if named(name) {
            alike &= run(count).report(numbers);
        }
    }
    if alike {
        println!("all alike");
        ExitCode::SUCCESS
    } else {
        ExitCode::FAILURE
    }
}
