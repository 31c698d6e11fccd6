//! Prints how much stack the library's functions take at most: the least stack of a thread, to 4 kB, in which every input of
//! the table of answers is answered, the harness's own part included. Each size is tried in a process of its own.
use compare::answers::{GIVEN, Input, cases};
use compare::shown::through_the_library;
use std::process::{Command, Stdio};
use std::thread::Builder;

/// A thread has at least so much, in kB, and is tried with at most so much.
const LEAST: usize = 16;
const MOST: usize = 4096;
const STEP: usize = 4;

fn main() {
    let words: Vec<String> = std::env::args().skip(1).collect();
    match &words[..] {
        [name, size] => answer_all(name, size.parse().expect("a size in kB")),
        _ => GIVEN
            .iter()
            .for_each(|(name, _)| println!("{name}: {} kB", least(name))),
    }
}

/// Answers every input of an entry point in a thread with so much stack.
fn answer_all(name: &str, size: usize) {
    let inputs: Vec<Input> = cases()
        .into_iter()
        .map(|case| case.input)
        .filter(|input| GIVEN[input.entry_point()].0 == name)
        .collect();
    let thread = Builder::new().stack_size(size * 1024).spawn(move || {
        for input in &inputs {
            through_the_library(input);
        }
    });
    let ended = thread.expect("a thread starts").join();
    ended.expect("every input is answered");
}

fn least(name: &str) -> usize {
    let (mut enough, mut less) = (MOST, LEAST - STEP);
    while enough - less > STEP {
        let size = less + (enough - less) / STEP / 2 * STEP;
        if suffices(name, size) {
            enough = size;
        } else {
            less = size;
        }
    }
    enough
}

fn suffices(name: &str, size: usize) -> bool {
    let program = std::env::current_exe().expect("this program has a path");
    let run = Command::new(program)
        .args([name, &size.to_string()])
        .stderr(Stdio::null())
        .status();
    run.expect("this program runs").success()
}
