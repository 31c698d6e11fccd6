//! Small generator calls, with what document 01 says that they give.
use oracle::calls::{Call, Caller};

const A: usize = 0;
const B: usize = 1;
const GLOBAL_S: usize = 2;
const LITERAL_T: usize = 3;
const S: usize = 0;
const T: usize = 1;

/// Terms a and b, a global of sort S, a literal of sort T; nothing in the problem yet, and room for twelve records.
fn call(
    which: usize,
    signatures: &[[usize; 10]],
    signature_sorts: &[usize],
    items: &[[usize; 8]],
) -> Call {
    let arguments: Vec<usize> = vec![A, B, GLOBAL_S, LITERAL_T, LITERAL_T];
    let room = 12;
    let lists: [Vec<usize>; 10] = [
        signatures.concat(),
        signature_sorts.to_vec(),
        vec![S + 1, 0],
        vec![0, 9, 0, 9, 1, 0, 2, T, 7, 7],
        vec![7; 8 * room],
        vec![7; room],
        vec![7; room],
        vec![7; 8],
        items.concat(),
        arguments,
    ];
    let counts = [signatures.len(), signature_sorts.len(), 2, items.len(), 5];
    let mut numbers: Vec<usize> = vec![which, 0];
    numbers.extend(counts);
    numbers.extend([0, 0, 0, 0, 4, 2]);
    for list in lists {
        numbers.push(list.len());
        numbers.extend(list);
    }
    let words: Vec<String> = numbers.iter().map(usize::to_string).collect();
    Call::parse(&words.join(" ")).expect("a well-formed line")
}

const QUERY: usize = 0;
const ACTIONS: usize = 1;
const HEAD: usize = 50;
const PLACE: usize = 8;
const NO: usize = usize::MAX;

/// Inputs, then the output, from the start of the signature sorts.
fn function(count: usize) -> [usize; 10] {
    [0, HEAD, NO, 0, count, NO, NO, NO, NO, NO]
}

fn constructor(count: usize) -> [usize; 10] {
    [1, HEAD, NO, 0, count, NO, NO, NO, NO, NO]
}

fn simple(mask: usize, start: usize, count: usize) -> [usize; 10] {
    [2, HEAD, mask, start, count, NO, NO, NO, NO, NO]
}

fn all_equal(common: usize, length: usize, output: usize) -> [usize; 10] {
    [3, HEAD, 1, NO, NO, common, length, output, NO, NO]
}

fn atom(start: usize, count: usize) -> [usize; 8] {
    [0, HEAD, start, count, NO, NO, PLACE, NO]
}

fn assert_refused(call: Call, number: usize, head: usize, place: usize) {
    let answer = Caller::default().answer(&call);
    assert_eq!(
        [answer.number, answer.head, answer.place],
        [number, head, place]
    );
    assert_eq!(answer.after.problem.counts, call.problem.counts);
    assert_eq!(answer.after.problem.record_list, call.problem.record_list);
    assert_eq!(answer.after.term_list, call.term_list);
}

/// Records are given by kind and values; the rest of each list must be as it was.
fn assert_added(
    call: Call,
    records: &[[usize; 4]],
    side: &[usize],
    tops: &[usize],
    range: &[usize],
) {
    let answer = Caller::default().answer(&call);
    assert_eq!([answer.number, answer.head, answer.place], [0; 3]);
    let problem = &answer.after.problem;
    let counts = problem.counts;
    let expected = [records.len(), side.len(), tops.len(), range.len()];
    assert_eq!(
        [counts.records, counts.side, counts.tops, counts.range],
        expected
    );
    let record = |[kind, v1, v2, v3]: &[usize; 4]| [*kind, *v1, *v2, *v3, 0, 0, PLACE, 0];
    let cells: Vec<usize> = records.iter().flat_map(record).collect();
    assert_list(&problem.record_list, &cells);
    assert_list(&problem.side_list, side);
    assert_list(&problem.top_list, tops);
    let entries: Vec<usize> = range.iter().flat_map(|&term| [term, PLACE]).collect();
    assert_list(&problem.range_list, &entries);
}

fn assert_list(list: &[usize], front: &[usize]) {
    assert_eq!(&list[..front.len()], front);
    assert!(list[front.len()..].iter().all(|&cell| cell == 7));
}

#[test]
fn a_function_assigns_every_argument() {
    let call = call(QUERY, &[function(2)], &[S, T], &[atom(0, 2)]);
    let records = [[1, A, S, 0], [1, B, T, 0]];
    assert_added(call, &records, &[], &[0, 1], &[A, B]);
}

#[test]
fn a_wrong_argument_count_is_impossible_with_the_output_counted() {
    let call = call(QUERY, &[function(2)], &[S, T], &[atom(0, 1)]);
    assert_added(call, &[[4, HEAD, 2, 0]], &[], &[0], &[A]);
}

#[test]
fn literals_and_globals_come_first_and_repeated() {
    let call = call(QUERY, &[all_equal(0, 0, 0)], &[], &[atom(2, 3)]);
    let records = [
        [1, GLOBAL_S, S, 0],
        [1, LITERAL_T, T, 0],
        [1, LITERAL_T, T, 0],
        [0, LITERAL_T, GLOBAL_S, 0],
        [0, LITERAL_T, GLOBAL_S, 0],
    ];
    let range = [GLOBAL_S, LITERAL_T];
    assert_added(call, &records, &[], &[0, 1, 2, 3, 4], &range);
}

#[test]
fn an_output_sort_drops_out_and_a_common_sort_covers_the_rest() {
    let with_both = call(QUERY, &[all_equal(S + 1, 0, T + 1)], &[], &[atom(0, 2)]);
    assert_added(
        with_both,
        &[[1, B, T, 0], [1, A, S, 0]],
        &[],
        &[0, 1],
        &[A, B],
    );
    let common_alone = call(QUERY, &[all_equal(S + 1, 3, 0)], &[], &[atom(0, 2)]);
    assert_added(
        common_alone,
        &[[1, A, S, 0], [1, B, S, 0]],
        &[],
        &[0, 1],
        &[A, B],
    );
    let wrong_length = call(QUERY, &[all_equal(S + 1, 5, 0)], &[], &[atom(0, 2)]);
    assert_added(wrong_length, &[[4, HEAD, 4, 0]], &[], &[0], &[A, B]);
}

#[test]
fn several_alternatives_are_an_xor_of_ands_with_the_function_first() {
    let signatures = [
        simple(1, 1, 1),
        all_equal(0, 0, 0),
        simple(2, 0, 2),
        function(2),
    ];
    let call = call(QUERY, &signatures, &[S, T], &[atom(0, 2)]);
    let records = [
        [1, A, S, 0],
        [1, B, T, 0],
        [2, 0, 2, 0],
        [4, HEAD, 1, 0],
        [2, 2, 1, 0],
        [0, B, A, 0],
        [2, 3, 1, 0],
        [3, 4, 3, 0],
    ];
    assert_added(call, &records, &[0, 1, 3, 5, 2, 4, 6], &[7], &[A, B]);
}

#[test]
fn an_alternative_may_ask_for_nothing() {
    let call = call(
        QUERY,
        &[all_equal(0, 0, 0), simple(1, 0, 1)],
        &[T],
        &[atom(0, 1)],
    );
    let records = [[2, 0, 0, 0], [1, A, T, 0], [2, 0, 1, 0], [3, 1, 2, 0]];
    assert_added(call, &records, &[1, 0, 2], &[3], &[A]);
}

#[test]
fn actions() {
    let let_ = [0, HEAD, 0, 1, B, NO, PLACE, NO];
    let made = call(ACTIONS, &[function(2)], &[S, T], &[let_]);
    assert_added(made, &[[1, A, S, 0], [1, B, T, 0]], &[], &[0, 1], &[B]);

    let union = [3, NO, NO, NO, LITERAL_T, GLOBAL_S, PLACE, NO];
    let made = call(ACTIONS, &[], &[], &[union]);
    let records = [
        [1, LITERAL_T, T, 0],
        [1, GLOBAL_S, S, 0],
        [0, LITERAL_T, GLOBAL_S, 0],
    ];
    assert_added(made, &records, &[], &[0, 1, 2], &[]);

    let bind = [4, NO, NO, NO, A, GLOBAL_S, PLACE, NO];
    let made = call(ACTIONS, &[], &[], &[bind]);
    let records = [[1, GLOBAL_S, S, 0], [0, A, GLOBAL_S, 0]];
    assert_added(made, &records, &[], &[0, 1], &[A]);

    let panic = [5, NO, NO, NO, NO, NO, PLACE, NO];
    assert_added(call(ACTIONS, &[], &[], &[panic]), &[], &[], &[], &[]);
}

#[test]
fn a_fresh_term_takes_the_count_and_stays_out_of_the_range() {
    let change = [2, HEAD, 0, 1, NO, NO, PLACE, NO];
    let made = call(ACTIONS, &[function(2)], &[S, T], &[change]);
    assert_added(
        made.clone(),
        &[[1, A, S, 0], [1, 4, T, 0]],
        &[],
        &[0, 1],
        &[],
    );
    let after = Caller::default().answer(&made).after;
    assert_eq!(after.problem.counts.terms, 5);
    assert_eq!(after.term_list[8..], [0, 0]);
}

#[test]
fn refusals_in_their_order() {
    let set = [1, HEAD, 0, 1, B, NO, PLACE, NO];
    assert_refused(
        call(ACTIONS, &[constructor(0)], &[S], &[set]),
        21,
        HEAD,
        PLACE,
    );
    assert_refused(call(QUERY, &[], &[], &[atom(0, 0)]), 7, 0, 0);
    assert_refused(call(QUERY, &[], &[], &[atom(0, 1)]), 20, HEAD, PLACE);
    let masked = [simple(2, 0, 1)];
    assert_refused(call(QUERY, &masked, &[S], &[atom(0, 1)]), 20, HEAD, PLACE);
    assert_refused(
        call(QUERY, &[all_equal(0, 1, 0)], &[], &[atom(0, 1)]),
        8,
        0,
        0,
    );
    let mut unsorted = call(QUERY, &[function(1)], &[S], &[atom(2, 1)]);
    unsorted.term_list[5] = 1;
    assert_refused(unsorted, 9, 0, 0);
    let mut full = call(QUERY, &[function(2)], &[S, T], &[atom(0, 2), [9; 8]]);
    full.problem.record_list.truncate(15);
    full.items = 1;
    assert_refused(full, 10, 0, 0);
}

#[test]
fn all_of_one_atom_comes_before_the_next() {
    let mut made = call(
        QUERY,
        &[function(2)],
        &[S, T],
        &[atom(0, 2), [0, 51, 0, 1, 0, 0, 9, 0]],
    );
    assert_refused(made.clone(), 20, 51, 9);
    made.problem.range_list.truncate(3);
    assert_refused(made, 10, 0, 0);
}
