//! Times the crate's `solve`, a plain solver and the static library on the same problems in one process, and prints a table
//! of medians and ratios. The crate runs with its own terms, which are names, and again with numbers as terms, as the
//! comparison runs it. `bench count SOLVER TEMPLATE RECORDS` only runs one of them once, for counting instructions.
//! `bench texts` times whole texts, through the oracle and through the static library; `bench texts count READER TEMPLATE
//! LINES` only runs one of them once.
use compare::plain;
use compare::problems::{compare, counts_of, through_the_library};
use compare::tally::Tally;
use compare::templates::{NAMES, template};
use compare::text_templates::{NAMES as TEXT_NAMES, text_template};
use compare::texts;
use oracle::answer::answer;
use oracle::lent::Lent;
use oracle::text::sorts;
use oracle::{measuring, solving};
use sortlib::raw;
use std::hint::black_box;

const SIZES: [usize; 4] = [64, 128, 256, 512];
const LINES: [usize; 3] = [60, 120, 240];
const RUNS: usize = 101;

const SOLVERS: [&str; 4] = ["crate", "numbered", "plain", "port"];
const READERS: [&str; 2] = ["oracle", "port"];

fn main() {
    let words: Vec<String> = std::env::args().skip(1).collect();
    match &words[..] {
        [] => table(),
        [count, solver, number, records] if count == "count" => {
            let [number, records] = [number, records].map(|word| word.parse().expect("a number"));
            let lent = template(number, records);
            solver_of(solver, &lent)();
        }
        [texts] if texts == "texts" => table_of_texts(),
        [texts, count, reader, number, lines] if texts == "texts" && count == "count" => {
            let [number, lines] = [number, lines].map(|word| word.parse().expect("a number"));
            reader_of(reader, &text_template(number, lines))();
        }
        _ => panic!("bench, bench texts, or bench count SOLVER TEMPLATE RECORDS"),
    }
}

fn table() {
    println!(
        "| template | records | passes | crate µs | crate, numbered µs | plain µs | port µs | crate / port | port / plain |"
    );
    println!("|---|---|---|---|---|---|---|---|---|");
    for number in 0..NAMES.len() {
        for records in SIZES {
            print_line(number, &template(number, records));
        }
    }
}

fn print_line(number: usize, lent: &Lent) {
    alike(lent);
    let [theirs, numbered, plainly, ours] = medians(SOLVERS, |name| solver_of(name, lent));
    println!(
        "| {} | {} | {} | {theirs:.1} | {numbered:.1} | {plainly:.1} | {ours:.1} | {:.1} | {:.2} |",
        NAMES[number],
        lent.counts.records,
        answer(lent).passes,
        theirs / ours,
        ours / plainly
    );
}

fn table_of_texts() {
    println!("| text | lines | bytes | oracle µs | port µs | oracle / port |");
    println!("|---|---|---|---|---|---|");
    for (number, name) in TEXT_NAMES.iter().enumerate() {
        for lines in LINES {
            let text = text_template(number, lines);
            let mut tally = Tally::new("");
            texts::compare(text.as_bytes(), texts::EXACT, &mut tally);
            assert_eq!(tally.numbers.get(&0), Some(&1), "all sorted, and alike");
            let [theirs, ours] = medians(READERS, |name| reader_of(name, &text));
            println!(
                "| {name} | {lines} | {} | {theirs:.1} | {ours:.1} | {:.2} |",
                text.len(),
                theirs / ours
            );
        }
    }
}

/// All three give the same answer, or nothing is measured.
fn alike(lent: &Lent) {
    let mut tally = Tally::new("");
    compare(lent, &mut tally);
    assert_eq!(
        tally.numbers.values().sum::<u64>(),
        1,
        "the library differs"
    );
    let ours = through_the_library(lent);
    let plain = plain::solve(lent);
    assert_eq!(ours.number, plain.number);
    assert_eq!(ours.passes, plain.passes);
    assert_eq!((ours.term, ours.place), (plain.term, plain.place));
    assert_eq!(ours.errors, plain.errors);
    if plain.number == 0 {
        assert_eq!(ours.sort_list, plain.sort_list);
    }
}

#[repr(C)]
struct Timespec {
    seconds: i64,
    nanoseconds: i64,
}

unsafe extern "C" {
    fn clock_gettime(clock: i32, time: *mut Timespec) -> i32;
}

/// Linux's number of the clock that goes while this thread runs, so that other programs cost nothing.
const CLOCK_THREAD_CPUTIME_ID: i32 = 3;

/// Microseconds that this thread has run.
fn processor_time() -> f64 {
    let mut time = Timespec {
        seconds: 0,
        nanoseconds: 0,
    };
    // Safe: the time is ours to write.
    let failed = unsafe { clock_gettime(CLOCK_THREAD_CPUTIME_ID, &mut time) };
    assert_eq!(failed, 0, "the clock is there");
    time.seconds as f64 * 1e6 + time.nanoseconds as f64 / 1e3
}

/// Microseconds. They take turns, so that what else the machine does falls on all of them.
fn medians<'a, const N: usize>(
    names: [&str; N],
    prepared: impl Fn(&str) -> Box<dyn FnMut() + 'a>,
) -> [f64; N] {
    let mut times = [const { vec![] }; N];
    for _ in 0..RUNS {
        for (name, times) in names.iter().zip(&mut times) {
            let mut run = prepared(name);
            let start = processor_time();
            run();
            times.push(processor_time() - start);
        }
    }
    times.map(|mut times| {
        times.sort_by(f64::total_cmp);
        times[RUNS / 2]
    })
}

/// One run of a solver. Building the crate's constraints and the library's buffers is not part of it.
fn solver_of<'a>(name: &str, lent: &'a Lent) -> Box<dyn FnMut() + 'a> {
    match name {
        "crate" => {
            let mut built = Some(measuring::prepare(lent));
            Box::new(move || {
                black_box(built.take().expect("run once").solve());
            })
        }
        "numbered" => {
            let mut built = Some(solving::prepare(lent));
            Box::new(move || {
                black_box(built.take().expect("run once").solve());
            })
        }
        "plain" => Box::new(move || {
            black_box(plain::solve(lent));
        }),
        "port" => {
            let mut work = vec![0; lent.work];
            let mut sort_list = vec![0; lent.sort_list];
            let mut errors = vec![0; lent.errors];
            Box::new(move || {
                black_box(raw::solve(
                    counts_of(lent),
                    &lent.record_list,
                    &lent.side_list,
                    &lent.top_list,
                    &lent.range_list,
                    &mut work,
                    &mut sort_list,
                    &mut errors,
                ));
            })
        }
        other => panic!("{other} is no solver"),
    }
}

/// One reading of a text. The room for the output is made before.
fn reader_of<'a>(name: &str, text: &'a str) -> Box<dyn FnMut() + 'a> {
    let text = text.as_bytes();
    match name {
        "oracle" => Box::new(move || {
            black_box(sorts(text));
        }),
        "port" => {
            let mut output = vec![0; sorts(text).len()];
            Box::new(move || {
                black_box(raw::text(text, &mut output));
            })
        }
        other => panic!("{other} is no reader"),
    }
}
