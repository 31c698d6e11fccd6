//! Runs the table of answers: each input through the library and through the crate, both against what the table says. Fails
//! on any difference, and where an entry point's number is missing.
use compare::answers::{Case, GIVEN, NUMBERS, cases};
use compare::shown::{Shown, through_the_crate, through_the_library};
use std::collections::BTreeSet;
use std::process::ExitCode;

/// Numbers that the crate gives itself; of the others the oracle has a second reading of document 01.
fn is_the_crates(number: usize) -> bool {
    matches!(number, 0 | 20..=49)
}

fn main() -> ExitCode {
    let mut seen = vec![BTreeSet::new(); GIVEN.len()];
    let mut wrong = 0;
    let table = cases();
    for case in &table {
        let ours = through_the_library(&case.input);
        let theirs = through_the_crate(&case.input);
        print(case, &ours, theirs.as_ref());
        if is_right(case, &ours, theirs.as_ref()) {
            seen[case.input.entry_point()].insert(ours.number);
        } else {
            println!("    WRONG: {} is what the table says", case.told);
            wrong += 1;
        }
    }
    let missing = report_missing(&seen);
    let all: BTreeSet<usize> = seen.into_iter().flatten().collect();
    let found = NUMBERS.iter().filter(|number| all.contains(number)).count();
    if wrong > 0 || missing || found < NUMBERS.len() {
        println!(
            "{wrong} of {} inputs wrong, {found} of {} numbers seen",
            table.len(),
            NUMBERS.len()
        );
        return ExitCode::FAILURE;
    }
    println!("{} inputs; all {found} numbers seen", table.len());
    ExitCode::SUCCESS
}

/// As the table says, and alike in every cell.
fn is_right(case: &Case, ours: &Shown, theirs: Option<&Shown>) -> bool {
    ours.told == case.told && theirs.is_none_or(|theirs| ours == theirs)
}

fn print(case: &Case, ours: &Shown, theirs: Option<&Shown>) {
    let (name, _) = GIVEN[case.input.entry_point()];
    println!("{:>2} {name}: {}", ours.number, case.says);
    println!("    library  {}", ours.told);
    match theirs {
        Some(theirs) if is_the_crates(ours.number) => println!("    crate    {}", theirs.told),
        Some(theirs) => println!("    oracle   {}", theirs.told),
        None => println!("    the crate has no such input"),
    }
}

/// Whether an entry point did not give one of its numbers.
fn report_missing(seen: &[BTreeSet<usize>]) -> bool {
    let mut missing = false;
    for ((name, numbers), seen) in GIVEN.iter().zip(seen) {
        let expected: BTreeSet<usize> = numbers.iter().copied().collect();
        if *seen != expected {
            println!("{name}: numbers {seen:?}, and {expected:?} are its own");
            missing = true;
        }
    }
    missing
}
