//! Small rule bodies and what document 01 says of their groundedness; and type errors.
use oracle::answer::Answer;
use oracle::grounded::{Body, answer};
use oracle::lent::Lent;
use oracle::type_errors::{Listed, type_errors};

const A: usize = 0;
const B: usize = 1;
const C: usize = 2;
const GLOBAL: usize = 3;
const LITERAL: usize = 4;
const TERMS: usize = 5;

const PLACE: usize = 77;
const WORK: usize = 18 * (TERMS + 512);
const ERRORS: usize = 8 * 512;

const FUNCTION: usize = 0;
const PRIMITIVE: usize = 1;
const EQUALITY: usize = 2;

/// Atoms of a kind and arguments over three variables, a global and a literal.
fn body(atoms: &[(usize, &[usize])]) -> Body {
    let (mut atom_list, mut argument_list) = (vec![], vec![]);
    for (kind, arguments) in atoms {
        atom_list.extend([*kind, 9, argument_list.len(), arguments.len(), 9, 9, 9, 9]);
        argument_list.extend(*arguments);
    }
    Body {
        line: format!("{atoms:?}"),
        atoms: atoms.len(),
        arguments: argument_list.len(),
        terms: TERMS,
        place: PLACE,
        work: WORK,
        sort_list: TERMS + 1,
        errors: ERRORS + 3,
        atom_list,
        argument_list,
        term_list: vec![0, 9, 0, 9, 0, 9, 1, 9, 2, 0],
    }
}

fn numbers(answer: &Answer) -> [usize; 4] {
    [answer.number, answer.passes, answer.term, answer.place]
}

/// Grounded: every term's cell is written, the rest of the sort list and of the error list stays.
fn assert_grounded(atoms: &[(usize, &[usize])], passes: usize, sorts: [usize; TERMS]) {
    let answer = answer(&body(atoms));
    assert_eq!(numbers(&answer), [0, passes, 0, 0]);
    assert_eq!(answer.sort_list, [&sorts[..], &[8]].concat());
    assert_buffers_zeroed(&answer);
}

fn assert_ungrounded(atoms: &[(usize, &[usize])], passes: usize, term: usize) {
    let answer = answer(&body(atoms));
    assert_eq!(numbers(&answer), [40, passes, term, PLACE]);
    assert_eq!(answer.sort_list, [8; TERMS + 1]);
    assert_buffers_zeroed(&answer);
}

fn assert_buffers_zeroed(answer: &Answer) {
    assert_eq!(answer.work, vec![0; WORK]);
    assert_eq!(answer.errors, [vec![0; ERRORS], vec![7; 3]].concat());
}

fn assert_refused(body: Body, number: usize) {
    let answer = answer(&body);
    assert_eq!(numbers(&answer), [number, 0, 0, 0], "{}", body.line);
    assert_eq!(answer.work, vec![9; body.work]);
    assert_eq!(answer.sort_list, vec![8; body.sort_list]);
    assert_eq!(answer.errors, vec![7; body.errors]);
}

#[test]
fn a_function_grounds_every_argument() {
    assert_grounded(&[], 1, [0; 5]);
    assert_grounded(&[(FUNCTION, &[A, LITERAL, B])], 2, [1, 1, 0, 0, 1]);
}

#[test]
fn a_primitive_grounds_its_output_once_its_inputs_are() {
    assert_ungrounded(&[(PRIMITIVE, &[A, B])], 1, A);
    let worst = [
        (PRIMITIVE, &[B, C][..]),
        (PRIMITIVE, &[A, B]),
        (FUNCTION, &[A]),
    ];
    assert_grounded(&worst, 4, [1, 1, 1, 0, 0]);
    assert_ungrounded(&[(FUNCTION, &[A]), (PRIMITIVE, &[A, C, B])], 2, C);
    assert_grounded(&[(PRIMITIVE, &[A])], 2, [1, 0, 0, 0, 0]);
}

#[test]
fn an_equality_grounds_either_side() {
    assert_ungrounded(&[(EQUALITY, &[B, A])], 1, B);
    assert_grounded(&[(EQUALITY, &[A, B]), (FUNCTION, &[B])], 3, [1, 1, 0, 0, 0]);
}

/// The global is assigned after the Implies, so this takes a third pass.
#[test]
fn literals_and_globals_are_grounded_afterwards() {
    assert_grounded(&[(PRIMITIVE, &[GLOBAL, A])], 3, [1, 0, 0, 1, 0]);
    assert_grounded(&[(EQUALITY, &[A, LITERAL])], 3, [1, 0, 0, 0, 1]);
    assert_ungrounded(&[(PRIMITIVE, &[A, GLOBAL])], 2, A);
}

#[test]
fn refusals_in_their_order() {
    assert_refused(body(&[(FUNCTION, &[])]), 7);
    assert_refused(body(&[(EQUALITY, &[A])]), 7);
    assert_refused(body(&[(FUNCTION, &[A; 513]), (FUNCTION, &[])]), 10);
    assert_refused(body(&[(FUNCTION, &[]), (FUNCTION, &[A; 513])]), 7);
    let mut all = body(&[(3, &[])]);
    (all.work, all.sort_list, all.errors) = (WORK - 1, TERMS - 1, ERRORS - 1);
    assert_refused(all.clone(), 2);
    all.atom_list[0] = FUNCTION;
    assert_refused(all.clone(), 5);
    all.work = WORK;
    assert_refused(all.clone(), 6);
    all.sort_list = TERMS;
    assert_refused(all.clone(), 6);
    all.errors = ERRORS;
    assert_refused(all.clone(), 7);
    all.terms += 1;
    assert_refused(all, 1);
}

/// C9: 32 with two children, a 30 then a 33, whose count is shown less one.
#[test]
fn type_errors_in_preorder() {
    let records = "32 1 2 0 0 0 0 5 0 1 2 1 0 0 0 6 0 4 70 4 0 0 0 7 0 3 0 2 0 0 0 8 0";
    let line = format!("4 2 2 0 3 2 126 3 32 {records} 2 1 2 2 0 3 0");
    let made = type_errors(&Lent::parse(&line).expect("a well-formed line"));
    let listed = |number, place, values| Listed {
        number,
        place,
        values,
    };
    let errors = vec![
        listed(32, 0, [2, 0, 0]),
        listed(30, 6, [2, 1, 0]),
        listed(33, 7, [70, 3, 0]),
    ];
    assert_eq!((made.number, made.errors), (32, errors));
}

/// C2.
#[test]
fn an_open_term_is_an_inference_failure() {
    let made = type_errors(&Lent::parse("0 0 0 1 3 2 54 3 0 0 0 0 2 0 5").expect("a line"));
    let open = Listed {
        number: 31,
        place: 5,
        values: [0, 0, 0],
    };
    assert_eq!((made.number, made.errors), (31, vec![open]));
}
