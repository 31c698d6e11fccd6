//! Each call in a thread with as much stack as the package's page says. A text is answered where the caller's stack is
//! small; where no thread can be started, that is an error.
use sortlib::{
    Actions, AllEqual, Answer, Body, Context, Contexts, Grounded, Head, Place, Problem, Query,
    Record, Refusal, Sort, Tables, Term,
};
use std::env;
use std::process::Command;
use std::thread::Builder;

const KILOBYTE: usize = 1024;
const HERE: Place = Place(1);
const HEAD: Head = Head(0);
const FIRST: Context = Context(0);

/// The last column of the page's table, in kB, and inputs that take the most.
const CALLS: [(&str, usize, fn()); 8] = [
    ("add_local", 16, add_local),
    ("solve, nested eight deep", 32, solve_eight_deep),
    ("solve, any records", 80, solve_512_deep),
    ("add_query", 64, add_query),
    ("add_actions", 64, add_actions),
    ("check", 96, check),
    ("raw::text", 1024, raw_text),
    ("text", 16, text),
];

fn add_local() {
    let added = Problem::new(1, 1).add_local(Term(0), Sort(0), HERE);
    assert_eq!(added, Ok(()));
}

/// Records that are each the only child of the next.
fn nested(problem: &mut Problem, deep: usize) -> Record {
    let leaf = problem.assign(Term(0), Sort(0), HERE);
    (1..deep).fold(leaf, |child, _| problem.xor(&[child], HERE).unwrap())
}

/// A conflict, with an error that is nested as deep, and its sentences.
fn solve_eight_deep() {
    let mut problem = Problem::new(1, 2);
    let other = problem.assign(Term(0), Sort(1), HERE);
    problem.require(other).unwrap();
    let record = nested(&mut problem, 8);
    problem.require(record).unwrap();
    let solved = problem.solve().unwrap();
    assert_eq!(solved.type_errors.to_string().lines().count(), 8);
    let Answer::Conflict(error) = solved.answer else {
        panic!("two sorts for one term");
    };
    assert!(!error.to_string().is_empty());
}

fn solve_512_deep() {
    let mut problem = Problem::new(1, 1);
    let record = nested(&mut problem, 512);
    problem.require(record).unwrap();
    assert_eq!(problem.solve(), Err(Refusal::TooDeep));
}

/// A function, and a primitive that has every condition.
fn tables() -> Tables {
    let form = AllEqual::new().with_all_arguments_sort(Sort(0));
    let form = form.with_exact_length(1).with_output_sort(Sort(0));
    let mut tables = Tables::new();
    tables.function(HEAD, &[Sort(0)]);
    tables.all_equal(HEAD, Contexts::EVERY, form);
    tables
}

fn add_query() {
    let mut query = Query::new();
    query.atom(HEAD, &[Term(0)], HERE);
    let added = Problem::new(1, 1).add_query(&tables(), FIRST, &query);
    assert_eq!(added, Ok(()));
}

fn add_actions() {
    let mut change = Actions::new();
    change.change(HEAD, &[Term(0)], HERE);
    let added = Problem::new(1, 1).add_actions(&tables(), FIRST, &change);
    assert_eq!(added, Ok(vec![Term(1)]));
}

fn check() {
    let mut body = Body::new();
    let x = body.variable();
    body.primitive(&[x, x]);
    assert!(matches!(body.check(), Ok(Grounded::Not { .. })));
}

const TEXT: &[u8] = b"sort A\nsort B\nprim s 1 simple A\nprim s 1 simple B\natom s d\n";
const ANSWER: &[u8] = b"open 1\nunsorted 5 d\n";

fn raw_text() {
    let mut out = [0; ANSWER.len()];
    assert_eq!(sortlib::raw::text(TEXT, &mut out), ANSWER.len());
    assert_eq!(out, ANSWER);
}

fn text() {
    assert_eq!(sortlib::text(TEXT).unwrap(), ANSWER);
}

/// Names the call that is to be tried in this process.
const CALL: &str = "SORTLIB_TEST_CALL";

/// Runs once more for each call, since a process without enough stack dies.
#[test]
fn each_call_has_enough_stack() {
    if let Ok(tried) = env::var(CALL) {
        let (_, kilobytes, call) = CALLS.iter().find(|(name, ..)| *name == tried).unwrap();
        let thread = Builder::new().stack_size(kilobytes * KILOBYTE).spawn(call);
        return thread.unwrap().join().unwrap();
    }
    for (name, kilobytes, _) in CALLS {
        let run = Command::new(env::current_exe().expect("this test has a path"))
            .args(["--exact", "each_call_has_enough_stack"])
            .env(CALL, name)
            .output()
            .expect("this test runs");
        let said = String::from_utf8_lossy(&run.stdout);
        let passed = run.status.success() && said.contains("1 passed");
        assert!(passed, "{name} in {kilobytes} kB: {} {said}", run.status);
    }
}

/// Is set in the process whose address space is bounded.
const BOUNDED: &str = "SORTLIB_TEST_BOUNDED";
/// Its address space, in kB; in blocks of a megabyte that is less than so many.
const SPACE: &str = "400000";
const BLOCKS: usize = 400;
const BLOCK: usize = 1024 * 1024;

/// Runs once more in a process of its own, whose address space is bounded.
#[test]
fn a_thread_that_cannot_be_started_is_an_error() {
    if env::var_os(BOUNDED).is_some() {
        return answered_without_room();
    }
    let again = "ulimit -v $1 && exec \"$2\" --test-threads 1 --exact a_thread_that_cannot_be_started_is_an_error";
    let run = Command::new("sh")
        .args(["-c", again, "sh", SPACE])
        .arg(env::current_exe().expect("this test has a path"))
        .env(BOUNDED, "1")
        .output()
        .expect("a shell runs");
    let said = String::from_utf8_lossy(&run.stdout);
    assert!(run.status.success() && said.contains("1 passed"), "{said}");
}

/// Takes all the address space, so that no thread has room for its stack.
fn answered_without_room() {
    let mut taken: Vec<Vec<u8>> = Vec::with_capacity(BLOCKS);
    let mut block = Vec::new();
    while taken.len() < BLOCKS && block.try_reserve_exact(BLOCK).is_ok() {
        taken.push(block);
        block = Vec::new();
    }
    let answered = sortlib::text(b"");
    drop(taken);
    assert!(answered.is_err());
    assert_eq!(sortlib::text(b"").unwrap(), b"ok 0 passes 1\n");
}
