//! C1 to C13 of document 01, with the values that it states; a pass count that it leaves out is 1.
use oracle::answer::{Answer, answer};
use oracle::lent::*;

const A: usize = 0;
const B: usize = 1;
const C: usize = 2;
const S: usize = 0;
const T: usize = 1;
const HEAD: usize = 70;

/// Record r has place 100 + r, range entry i place 200 + i.
fn solve(records: &[[usize; 4]], side: &[usize], tops: &[usize], range: &[usize]) -> Answer {
    let record = |(r, [kind, v1, v2, v3]): (usize, &[usize; 4])| {
        [
            *kind,
            *v1,
            *v2,
            *v3,
            usize::MAX,
            usize::MAX,
            100 + r,
            usize::MAX,
        ]
    };
    let counts = Counts {
        records: records.len(),
        side: side.len(),
        tops: tops.len(),
        range: range.len(),
        terms: 3,
        sorts: 2,
    };
    answer(&Lent {
        line: format!("{records:?}"),
        work: 18 * (counts.terms + counts.records),
        sort_list: counts.terms,
        errors: ENTRY_CELLS * counts.records,
        counts,
        record_list: records.iter().enumerate().flat_map(record).collect(),
        side_list: side.to_vec(),
        top_list: tops.to_vec(),
        range_list: (200..).zip(range).flat_map(|(p, t)| [*t, p]).collect(),
    })
}

const NO: usize = usize::MAX;

fn assert_answered(answer: Answer, passes: usize, sorts: [Option<usize>; 3]) {
    let numbers = [answer.number, answer.passes, answer.term, answer.place];
    assert_eq!(numbers, [0, passes, 0, 0]);
    assert_eq!(
        answer.sort_list,
        sorts.map(|sort| sort.map_or(0, |s| s + 1))
    );
    assert!(answer.errors.iter().all(|&cell| cell == 0));
    assert!(answer.work.iter().all(|&cell| cell == 0));
}

fn assert_open(answer: Answer, term: usize, place: usize) {
    let numbers = [answer.number, answer.passes, answer.term, answer.place];
    assert_eq!(numbers, [31, 1, term, place]);
    assert_eq!(answer.sort_list, [8; 3]);
    assert!(answer.errors.iter().all(|&cell| cell == 0));
    assert!(answer.work.iter().all(|&cell| cell == 0));
}

fn assert_conflict(answer: Answer, entries: &[[usize; 6]]) {
    let numbers = [answer.number, answer.passes, answer.term, answer.place];
    assert_eq!(numbers, [entries[0][0], 1, 0, 0]);
    assert_eq!(answer.sort_list, [8; 3]);
    let with_zeroes = |e: &[usize; 6]| [e[0], e[1], e[2], e[3], e[4], e[5], 0, 0];
    let mut cells: Vec<usize> = entries.iter().flat_map(with_zeroes).collect();
    cells.resize(answer.errors.len(), 0);
    assert_eq!(answer.errors, cells);
    assert!(answer.work.iter().all(|&cell| cell == 0));
}

#[test]
fn c1_nothing() {
    assert_answered(solve(&[], &[], &[], &[]), 1, [None; 3]);
}

#[test]
fn c2_nothing_with_a_range() {
    assert_open(solve(&[], &[], &[], &[A]), A, 200);
}

#[test]
fn c3_an_assign() {
    let records = [[ASSIGN, A, S, NO]];
    let sorts = [Some(S), None, None];
    assert_answered(solve(&records, &[], &[0], &[]), 2, sorts);
}

#[test]
fn c4_two_assigns() {
    let records = [[ASSIGN, A, S, NO], [ASSIGN, A, T, NO]];
    let entries = [[30, 1, 101, A, T, S]];
    assert_conflict(solve(&records, &[], &[0, 1], &[]), &entries);
}

#[test]
fn c5_two_assigns_and_an_eq() {
    let records = [[ASSIGN, A, S, NO], [ASSIGN, B, T, NO], [EQ, A, B, NO]];
    let entries = [[30, 2, 102, A, S, T]];
    assert_conflict(solve(&records, &[], &[0, 1, 2], &[]), &entries);
}

#[test]
fn c6_an_eq_before_its_assign() {
    let records = [[EQ, A, B, NO], [ASSIGN, A, S, NO]];
    let sorts = [Some(S), Some(S), None];
    assert_answered(solve(&records, &[], &[0, 1], &[]), 3, sorts);
}

#[test]
fn c7_an_open_xor() {
    let records = [[ASSIGN, A, S, NO], [ASSIGN, A, T, NO], [XOR, 0, 2, NO]];
    assert_open(solve(&records, &[0, 1], &[2], &[A]), A, 200);
}

#[test]
fn c8_an_xor_settled_later() {
    let xor = [[ASSIGN, A, S, NO], [ASSIGN, A, T, NO], [XOR, 0, 2, NO]];
    let records = [xor[0], xor[1], xor[2], [ASSIGN, A, T, NO]];
    let sorts = [Some(T), None, None];
    assert_answered(solve(&records, &[0, 1], &[2, 3], &[A]), 2, sorts);
}

#[test]
fn c9_an_xor_that_none_satisfies() {
    let fitting = [ASSIGN, C, S, NO];
    let failing = [[ASSIGN, C, T, NO], [IMPOSSIBLE, HEAD, 4, NO]];
    let records = [fitting, failing[0], failing[1], [XOR, 0, 2, NO]];
    let entries = [
        [32, 3, 103, 2, 0, 0],
        [30, 1, 101, C, T, S],
        [33, 2, 102, HEAD, 4, 0],
    ];
    assert_conflict(solve(&records, &[1, 2], &[0, 3], &[]), &entries);
}

#[test]
fn c10_an_and_is_one_pass() {
    let records = [
        [EQ, A, B, NO],
        [ASSIGN, A, S, NO],
        [ASSIGN, B, T, NO],
        [AND, 0, 3, NO],
        [ASSIGN, A, S, NO],
        [XOR, 3, 2, NO],
    ];
    let side = [0, 1, 2, 3, 4];
    assert_open(solve(&records, &side, &[5], &[A]), A, 200);
}

#[test]
fn c11_an_xor_of_nothing() {
    let entries = [[32, 0, 100, 0, 0, 0]];
    assert_conflict(solve(&[[XOR, 0, 0, NO]], &[], &[0], &[]), &entries);
}

#[test]
fn c12_firing_alone() {
    let records = [[AND, 0, 0, NO], [IMPLIES, 0, 0, 0]];
    assert_answered(solve(&records, &[], &[1], &[]), 2, [None; 3]);
}

#[test]
fn c13_an_implies_before_its_watched_term() {
    let records = [[ASSIGN, B, S, NO], [IMPLIES, 0, 1, 0], [ASSIGN, A, T, NO]];
    let sorts = [Some(T), Some(S), None];
    assert_answered(solve(&records, &[A], &[1, 2], &[]), 3, sorts);
}
