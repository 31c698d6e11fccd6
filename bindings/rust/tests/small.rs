//! Document 01's small problems through the wrapper. Terms a, b, c are 0, 1, 2; sorts S, T are 0, 1.
use sortlib::{Answer, Error, Head, Place, Problem, Record, Refusal, Sort, Term};

const A: Term = Term(0);
const B: Term = Term(1);
const C: Term = Term(2);
const S: Sort = Sort(0);
const T: Sort = Sort(1);
const HERE: Place = Place(1);
const THERE: Place = Place(2);

/// Three terms, two sorts, and these constraints.
fn problem(constraints: impl Fn(&mut Problem) -> Vec<Record>) -> Problem {
    let mut problem = Problem::new(3, 2);
    for record in constraints(&mut problem) {
        problem.require(record).expect("its own record");
    }
    problem
}

fn sorted(problem: &Problem, passes: usize, sorts: [Option<Sort>; 3]) {
    let solved = problem.solve().expect("not refused");
    assert_eq!(solved.passes, passes);
    assert!(solved.type_errors.as_slice().is_empty());
    let found = solved
        .into_sorts()
        .expect("every term asked for has a sort");
    assert_eq!([A, B, C].map(|term| found.of(term)), sorts);
}

fn open(problem: &Problem, passes: usize, term: Term, place: Place) {
    let solved = problem.solve().expect("not refused");
    assert_eq!(solved.passes, passes);
    let errors = solved.clone().into_sorts().expect_err("open, not sorted");
    assert_eq!(errors.to_string(), format!("{place}: {term} has no sort"));
    let Answer::Open {
        term: found,
        place: asked,
        ..
    } = solved.answer
    else {
        panic!("not open: {solved:?}");
    };
    assert_eq!((found, asked), (term, place));
}

fn conflict(problem: &Problem, passes: usize) -> Error {
    let solved = problem.solve().expect("not refused");
    assert_eq!(solved.passes, passes);
    assert_eq!(
        solved.clone().into_sorts(),
        Err(solved.type_errors.clone()),
        "a conflict is not sorted"
    );
    assert!(!solved.type_errors.as_slice().is_empty());
    let Answer::Conflict(error) = solved.answer else {
        panic!("no conflict: {solved:?}");
    };
    error
}

fn mismatch(error: &Error) -> (usize, Place, Term, Sort, Sort) {
    let Error::Mismatch {
        record,
        place,
        term,
        expected,
        actual,
        ..
    } = error
    else {
        panic!("no mismatch: {error}");
    };
    (*record, *place, *term, *expected, *actual)
}

#[test]
fn c1_nothing_is_answered_in_one_pass() {
    sorted(&problem(|_| vec![]), 1, [None; 3]);
}

#[test]
fn c2_a_term_that_is_asked_for_stays_open() {
    let mut p = problem(|_| vec![]);
    p.ask(A, Place(7));
    open(&p, 1, A, Place(7));
}

#[test]
fn c3_a_sort_is_given() {
    let p = problem(|p| vec![p.assign(A, S, HERE)]);
    sorted(&p, 2, [Some(S), None, None]);
}

#[test]
fn c4_two_sorts_for_one_term_clash() {
    let p = problem(|p| vec![p.assign(A, S, HERE), p.assign(A, T, THERE)]);
    assert_eq!(mismatch(&conflict(&p, 1)), (1, THERE, A, T, S));
}

#[test]
fn c5_equal_terms_of_two_sorts_clash() {
    let p = problem(|p| {
        vec![
            p.assign(A, S, HERE),
            p.assign(B, T, HERE),
            p.equal(A, B, THERE),
        ]
    });
    assert_eq!(mismatch(&conflict(&p, 1)), (2, THERE, A, S, T));
}

#[test]
fn c6_equal_terms_get_one_sort() {
    let p = problem(|p| vec![p.equal(A, B, HERE), p.assign(A, S, HERE)]);
    sorted(&p, 3, [Some(S), Some(S), None]);
}

#[test]
fn c7_and_c8_an_alternative_waits_until_a_statement_decides() {
    let mut p = problem(|p| {
        let either = [p.assign(A, S, HERE), p.assign(A, T, HERE)];
        vec![p.xor(&either, HERE).unwrap()]
    });
    p.ask(A, HERE);
    open(&p, 1, A, HERE);
    let decided = p.assign(A, T, THERE);
    p.require(decided).unwrap();
    sorted(&p, 2, [Some(T), None, None]);
}

#[test]
fn c9_an_error_lists_why_each_alternative_fails() {
    let p = problem(|p| {
        let known = p.assign(C, S, HERE);
        let either = [p.assign(C, T, THERE), p.impossible(Head(5), 3, THERE)];
        vec![known, p.xor(&either, THERE).unwrap()]
    });
    let error = conflict(&p, 1);
    let Error::NoneFits {
        record,
        place,
        alternatives,
        ..
    } = &error
    else {
        panic!("an alternative fits: {error}");
    };
    assert_eq!((*record, *place, alternatives.len()), (3, THERE, 2));
    assert_eq!(mismatch(&alternatives[0]), (1, THERE, C, T, S));
    let Error::Arity {
        record,
        place,
        head,
        expected_with_output,
        ..
    } = alternatives[1]
    else {
        panic!("the number of terms is right: {error}");
    };
    assert_eq!(
        (record, place, head, expected_with_output),
        (2, THERE, Head(5), 3)
    );
}

#[test]
fn c10_and_runs_one_pass_over_its_children() {
    let mut p = problem(|p| {
        let children = [
            p.equal(A, B, HERE),
            p.assign(A, S, HERE),
            p.assign(B, T, HERE),
        ];
        let all = p.and(&children, HERE).unwrap();
        let other = p.assign(A, S, HERE);
        vec![p.xor(&[all, other], HERE).unwrap()]
    });
    p.ask(A, HERE);
    open(&p, 1, A, HERE);
}

#[test]
fn c11_of_no_alternatives_none_fits() {
    let p = problem(|p| vec![p.xor(&[], HERE).unwrap()]);
    assert_eq!(
        conflict(&p, 1).to_string(),
        "place 1, record 0: no alternative fits, of 0"
    );
}

#[test]
fn c12_with_nothing_watched_an_implication_fires_at_once() {
    let p = problem(|p| {
        let nothing = p.and(&[], HERE).unwrap();
        vec![p.implies(&[], nothing, HERE).unwrap()]
    });
    sorted(&p, 2, [None; 3]);
}

#[test]
fn c13_an_implication_fires_once_its_terms_are_sorted() {
    let p = problem(|p| {
        let then = p.assign(B, S, HERE);
        vec![p.implies(&[A], then, HERE).unwrap(), p.assign(A, T, THERE)]
    });
    sorted(&p, 3, [Some(T), Some(S), None]);
}

#[test]
fn bad_problems_are_refused() {
    let p = problem(|p| vec![p.assign(Term(3), S, HERE)]);
    assert_eq!(p.solve(), Err(Refusal::OutOfRange));

    let mut p = Problem::new(3, 2);
    let unused = p.assign(A, S, HERE);
    assert_eq!(p.solve(), Err(Refusal::NoTrees));
    p.require(unused).unwrap();
    assert!(p.solve().unwrap().into_sorts().is_ok());
    p.require(unused).unwrap();
    assert_eq!(p.solve(), Err(Refusal::NoTrees));
}

#[test]
fn records_are_nested_eight_deep_and_no_deeper() {
    let nested = |deep: usize| {
        problem(|p| {
            let leaf = p.assign(A, S, HERE);
            vec![(1..deep).fold(leaf, |child, _| p.and(&[child], HERE).unwrap())]
        })
    };
    sorted(&nested(8), 2, [Some(S), None, None]);
    assert_eq!(nested(9).solve(), Err(Refusal::TooDeep));
}
