//! One small input or more for every answer number of document 01, written from the document by hand, and what is told of
//! each: `cases` is the whole table. Lists are those of docs/LAYOUTS.md.
use crate::build::{Builder, Tree, Tree::*};
use oracle::calls::Call;
use oracle::calls::lent::Which;
use oracle::grounded::Body;
use oracle::lent::{Counts, Lent};

/// The numbers of document 01's table.
pub const NUMBERS: [usize; 20] = [
    1, 2, 3, 4, 5, 6, 7, 8, 9, 10, 20, 21, 30, 31, 32, 33, 40, 50, 51, 52,
];

/// A line of the table: an input in words, the input, and what it is answered with.
pub struct Case {
    pub says: &'static str,
    pub input: Input,
    pub told: &'static str,
}

/// What is called, and with what.
pub enum Input {
    /// `solve`
    Problem(Lent),
    /// `type_error` of the numbered entry that solving left
    Entry(Lent, usize),
    /// `type_error` over these entries, counted as so many, of the numbered one
    Entries(Vec<usize>, usize, usize),
    /// `outcome_type_error` of what solving left
    Outcome(Lent),
    /// `add_query`, `add_actions` or `assign_local`
    Call(Call),
    /// `grounded_check`
    Body(Body),
    /// the program `sorts`
    Text(String),
}

/// The entry points, and every number that each of them gives.
pub const GIVEN: [(&str, &[usize]); 7] = [
    ("solve", &[0, 1, 2, 3, 4, 5, 6, 30, 31, 32, 33]),
    ("type_error", &[0, 1, 2, 30, 31, 32, 33]),
    ("add_query", &[0, 1, 2, 7, 8, 9, 10, 20]),
    ("add_actions", &[0, 1, 2, 8, 9, 10, 20, 21]),
    ("assign_local", &[0, 1, 2, 10]),
    ("grounded_check", &[0, 1, 2, 5, 6, 7, 10, 40]),
    ("sorts", &[0, 7, 8, 10, 20, 21, 30, 31, 32, 33, 50, 51, 52]),
];

impl Input {
    /// Its place in `GIVEN`.
    pub fn entry_point(&self) -> usize {
        match self {
            Input::Problem(_) => 0,
            Input::Entry(..) | Input::Entries(..) | Input::Outcome(_) => 1,
            Input::Call(call) => match call.which {
                Which::Query => 2,
                Which::Actions => 3,
                Which::Local => 4,
            },
            Input::Body(_) => 5,
            Input::Text(_) => 6,
        }
    }
}

pub fn cases() -> Vec<Case> {
    let groups = [
        small_problems(),
        sizes(),
        out_of_range(),
        shapes_and_rooms(),
        type_errors(),
        queries(),
        limits(),
        actions(),
        orders(),
        locals(),
        bodies(),
        texts(),
        refused_texts(),
    ];
    groups.into_iter().flatten().collect()
}

// Terms and sorts of the small problems.
const A: usize = 0;
const B: usize = 1;
const C: usize = 2;
const S: usize = 0;
const T: usize = 1;

fn case(says: &'static str, input: Input, told: &'static str) -> Case {
    Case { says, input, told }
}

/// A problem over the terms a, b, c and the sorts S, T, with these top-level constraints and range terms. The records have the
/// places 1, 2, 3 and so on in their order, the range entries 51, 52 and so on; every list and buffer is as long as it must be.
fn lent(tops: &[Tree], range: &[usize]) -> Lent {
    let mut builder = Builder::default();
    tops.iter().for_each(|tree| builder.top(tree));
    for (number, &term) in range.iter().enumerate() {
        builder.ask(term, 51 + number);
    }
    builder.lent(3, 2)
}

fn problem(tops: &[Tree], range: &[usize]) -> Input {
    Input::Problem(lent(tops, range))
}

/// The same with something else about it.
fn but(tops: &[Tree], range: &[usize], change: impl Fn(&mut Lent)) -> Input {
    let mut lent = lent(tops, range);
    change(&mut lent);
    Input::Problem(lent)
}

fn implies(watched: &[usize], child: Tree) -> Tree {
    Implies(watched.to_vec(), Box::new(child))
}

#[rustfmt::skip]
fn small_problems() -> Vec<Case> {
    let either = || Xor(vec![Assign(A, S), Assign(A, T)]);
    let both = || And(vec![Eq(A, B), Assign(A, S), Assign(B, T)]);
    vec![
        case("C1: nothing", problem(&[], &[]), "0, passes 1, sorts 0 0 0"),
        case("C2: nothing, range a", problem(&[], &[A]), "31, passes 1, term 0 place 51"),
        case("C3: Assign(a,S)", problem(&[Assign(A, S)], &[]), "0, passes 2, sorts 1 0 0"),
        case("C4: Assign(a,S), Assign(a,T)", problem(&[Assign(A, S), Assign(A, T)], &[]), "30, passes 1, entries (30 1 2 0 1 0)"),
        case("C5: Assign(a,S), Assign(b,T), Eq(a,b)", problem(&[Assign(A, S), Assign(B, T), Eq(A, B)], &[]), "30, passes 1, entries (30 2 3 0 0 1)"),
        case("C6: Eq(a,b), Assign(a,S)", problem(&[Eq(A, B), Assign(A, S)], &[]), "0, passes 3, sorts 1 1 0"),
        case("C7: Xor of Assign(a,S), Assign(a,T), range a", problem(&[either()], &[A]), "31, passes 1, term 0 place 51"),
        case("C8: the same, then Assign(a,T)", problem(&[either(), Assign(A, T)], &[A]), "0, passes 2, sorts 2 0 0"),
        case("C9: Assign(c,S), Xor of Assign(c,T), Impossible of head 6, expected 3", problem(&[Assign(C, S), Xor(vec![Assign(C, T), Impossible(6, 3)])], &[]), "32, passes 1, entries (32 3 4 2 0 0) (30 1 2 2 1 0) (33 2 3 6 3 0)"),
        case("C10: Xor of And(Eq(a,b), Assign(a,S), Assign(b,T)) and Assign(a,S), range a", problem(&[Xor(vec![both(), Assign(A, S)])], &[A]), "31, passes 1, term 0 place 51"),
        case("C11: Xor of nothing", problem(&[Xor(vec![])], &[]), "32, passes 1, entries (32 0 1 0 0 0)"),
        case("C12: Implies, nothing watched, child an empty And", problem(&[implies(&[], And(vec![]))], &[]), "0, passes 2, sorts 0 0 0"),
        case("C13: Implies(a; Assign(b,S)), Assign(a,T)", problem(&[implies(&[A], Assign(B, S)), Assign(A, T)], &[]), "0, passes 3, sorts 2 1 0"),
        case("Impossible alone, of head 6, expected 1", problem(&[Impossible(6, 1)], &[]), "33, passes 1, entries (33 0 1 6 1 0)"),
        case("an Xor that one child was left of, which fails in the second pass", problem(&[Assign(A, S), Xor(vec![And(vec![Eq(B, C), Assign(A, S)]), Assign(A, T)]), Assign(B, S), Assign(C, T)], &[]), "32, passes 2, entries (32 5 6 1 0 0) (30 1 2 1 0 1)"),
    ]
}

/// So many times a constraint that changes nothing.
fn same(count: usize) -> Vec<Tree> {
    vec![Eq(A, A); count]
}

/// A list has as many as its count, whatever stands there.
#[rustfmt::skip]
fn sizes() -> Vec<Case> {
    let terms = |count| {
        but(&[], &[], move |lent| {
            lent.counts.terms = count;
            lent.work = 18 * count;
            lent.sort_list = count;
        })
    };
    let sorts = |count| but(&[], &[], move |lent| lent.counts.sorts = count);
    let side = |count| {
        but(&[], &[], move |lent| {
            lent.counts.side = count;
            lent.side_list = vec![0; count];
        })
    };
    let tops = |count| {
        but(&same(512), &[], move |lent| {
            lent.counts.tops = count;
            lent.top_list.resize(count, 0);
        })
    };
    let lacking = |change: fn(&mut Lent)| but(&[implies(&[A], Eq(A, A))], &[A], change);
    vec![
        case("513 records", problem(&same(513), &[]), "1"),
        case("512 records", problem(&same(512), &[]), "0, passes 1, sorts 0 0 0"),
        case("512 records, 513 top-level entries", tops(513), "1"),
        case("2,049 side-list cells", side(2049), "1"),
        case("2,048 side-list cells", side(2048), "0, passes 1, sorts 0 0 0"),
        case("257 range entries", problem(&[Assign(A, S)], &[A; 257]), "1"),
        case("256 range entries", problem(&[Assign(A, S)], &[A; 256]), "0, passes 2, sorts 1 0 0"),
        case("257 terms", terms(257), "1"),
        case("256 terms, none sorted", terms(256), "0, passes 1, sorts 0 x 256"),
        case("257 sorts", sorts(257), "1"),
        case("256 sorts", sorts(256), "0, passes 1, sorts 0 0 0"),
        case("a record more than lent", lacking(|lent| { lent.record_list.pop(); }), "1"),
        case("a side-list cell more than lent", lacking(|lent| { lent.side_list.pop(); }), "1"),
        case("a top-level entry more than lent", lacking(|lent| { lent.top_list.pop(); }), "1"),
        case("a range entry more than lent", lacking(|lent| { lent.range_list.pop(); }), "1"),
    ]
}

#[rustfmt::skip]
fn out_of_range() -> Vec<Case> {
    let kind = |kind| but(&[Eq(A, A)], &[], move |lent| lent.record_list[0] = kind);
    let last_sort = Assign(A, 1);
    let part = |start, count| {
        but(&[And(vec![Eq(A, A)])], &[], move |lent| {
            lent.record_list[9] = start;
            lent.record_list[10] = count;
        })
    };
    vec![
        case("a kind of 6", kind(6), "2"),
        case("Eq of term 3 where there are three", problem(&[Eq(3, A)], &[]), "2"),
        case("Eq with term 3", problem(&[Eq(A, 3)], &[]), "2"),
        case("Assign of term 3", problem(&[Assign(3, S)], &[]), "2"),
        case("Assign of sort 2 where there are two", problem(&[Assign(A, 2)], &[]), "2"),
        case("Assign of sort 1", problem(&[last_sort], &[]), "0, passes 2, sorts 2 0 0"),
        case("an expected count of 0", problem(&[Impossible(6, 0)], &[]), "2"),
        case("an expected count of 10,000", problem(&[Impossible(6, 10_000)], &[]), "2"),
        case("an expected count of 9,999", problem(&[Impossible(6, 9999)], &[]), "33, passes 1, entries (33 0 1 6 9999 0)"),
        case("a part of one cell from the side list's end on", part(1, 1), "2"),
        case("a part whose end does not fit into a cell", part(usize::MAX, 2), "2"),
        case("watched term 3", problem(&[implies(&[3], Eq(A, A))], &[]), "2"),
        case("range term 3", problem(&[], &[3]), "2"),
        case("a kind of 6 and too small a work room", but(&[Eq(A, A)], &[], |lent| { lent.record_list[0] = 6; lent.work = 0; }), "2"),
    ]
}

/// So many records, one in another, the innermost an Eq.
fn nested(depth: usize) -> Tree {
    (1..depth).fold(Eq(A, A), |child, _| And(vec![child]))
}

#[rustfmt::skip]
fn shapes_and_rooms() -> Vec<Case> {
    let child = |number| {
        but(&[And(vec![Eq(A, A)])], &[], move |lent| {
            lent.side_list[0] = number
        })
    };
    let top = |number| but(&same(2), &[], move |lent| lent.top_list[1] = number);
    let room = |work, sort_list, errors| {
        but(&[Assign(A, S)], &[], move |lent| {
            lent.work = work;
            lent.sort_list = sort_list;
            lent.errors = errors;
        })
    };
    vec![
        case("an And that is its own child", child(1), "3"),
        case("a child past the records", child(2), "3"),
        case("an Implies that is its own child", but(&[implies(&[], Eq(A, A))], &[], |lent| { lent.record_list[11] = 1 }), "3"),
        case("a top-level entry past the records", top(2), "3"),
        case("two records, the first named twice", top(0), "3"),
        case("a record that nothing names", but(&[Eq(A, A)], &[], |lent| lent.counts.tops = 0), "3"),
        case("depth 9", problem(&[nested(9)], &[]), "4"),
        case("depth 512, which takes the most stack", problem(&[nested(512)], &[]), "4"),
        case("depth 8", problem(&[nested(8)], &[]), "0, passes 1, sorts 0 0 0"),
        case("depth 9 and a record that nothing names", but(&[nested(9), Eq(A, A)], &[], |lent| lent.counts.tops = 1), "3"),
        case("three terms, one record: 71 cells of work room", room(71, 3, 8), "5"),
        case("72 cells", room(72, 3, 8), "0, passes 2, sorts 1 0 0"),
        case("73 cells: the last is zeroed too", room(73, 3, 8), "0, passes 2, sorts 1 0 0"),
        case("three terms, a sort list of two", room(72, 2, 8), "6"),
        case("a sort list of four: the last cell stays", room(72, 4, 8), "0, passes 2, sorts 1 0 0 8"),
        case("one record, an error list of seven cells", room(72, 3, 7), "6"),
        case("no work room and no error list", room(0, 3, 0), "5"),
    ]
}

#[rustfmt::skip]
fn type_errors() -> Vec<Case> {
    let failing = || {
        lent(
            &[Assign(C, S), Xor(vec![Assign(C, T), Impossible(6, 3)])],
            &[],
        )
    };
    let entry = |number| Input::Entry(failing(), number);
    let arity = |expected| Input::Entries(vec![33, 0, 1, 6, expected, 0, 0, 0], 1, 0);
    vec![
        case("of C9's first entry", entry(0), "32: 2 0 0"),
        case("of its second", entry(1), "30: 2 1 0"),
        case("of its third: expected 3, one less is shown", entry(2), "33: 6 2 0"),
        case("of its fourth, past the error's end", entry(3), "0: 0 0 0"),
        case("of a fifth, where there are four records", entry(4), "1: 0 0 0"),
        case("of C2's outcome", Input::Outcome(lent(&[], &[A])), "31: 0 0 0"),
        case("of C1's outcome, which is no error", Input::Outcome(lent(&[], &[])), "2: 0 0 0"),
        case("of C9's outcome, whose error is in the list", Input::Outcome(failing()), "2: 0 0 0"),
        case("of an entry with the number 31", Input::Entries(vec![31, 0, 0, 0, 0, 0, 0, 0], 1, 0), "2: 0 0 0"),
        case("of an arity that expects 0", arity(0), "2: 0 0 0"),
        case("of an arity that expects 1", arity(1), "33: 6 0 0"),
        case("of an arity that expects 10,000", arity(10_000), "2: 0 0 0"),
        case("one record, a list of seven cells", Input::Entries(vec![0; 7], 1, 0), "1: 0 0 0"),
        case("513 records", Input::Entries(vec![0; 513 * 8], 513, 0), "1: 0 0 0"),
    ]
}

// Heads of the calls' signatures: a function, a constructor, a primitive of context 0 alone, a head with two alternatives, three
// heads that are bad where they are used, and one without a signature.
const F: usize = 0;
const CTOR: usize = 1;
const PRIM: usize = 2;
const MANY: usize = 3;
const NO_SORTS: usize = 4;
const NO_SIMPLE_SORTS: usize = 5;
const NO_LENGTH: usize = 6;
const UNKNOWN: usize = 7;

const SIGNATURES: [[usize; 10]; 8] = [
    // kind, head, mask, start, count, common, length, output (0 for none, else the value + 1)
    [0, F, 0, 0, 2, 0, 0, 0, 0, 0],
    [1, CTOR, 0, 0, 2, 0, 0, 0, 0, 0],
    [2, PRIM, 1, 0, 2, 0, 0, 0, 0, 0],
    [0, MANY, 0, 0, 2, 0, 0, 0, 0, 0],
    [3, MANY, 1, 0, 0, 0, 3, 0, 0, 0],
    [0, NO_SORTS, 0, 0, 0, 0, 0, 0, 0, 0],
    [2, NO_SIMPLE_SORTS, 1, 0, 0, 0, 0, 0, 0, 0],
    [3, NO_LENGTH, 1, 0, 0, 0, 1, 0, 0, 0],
];

// Terms of the calls: two variables, a literal of sort S, and three globals: of sort T, of none, past the table.
const X: usize = 0;
const Y: usize = 1;
const LIT: usize = 2;
const GLOB: usize = 3;
const UNSORTED: usize = 4;
const PAST: usize = 5;

const TERMS: [usize; 12] = [0, 0, 0, 0, 2, S, 1, 0, 1, 1, 1, 9];

/// A call of one atom, action or typed local on an empty problem, with room for 8 of everything: cells that it leaves hold 5.
fn call(which: Which, item: [usize; 8], arguments: &[usize]) -> Call {
    let item_list = match which {
        Which::Local => item[..3].to_vec(),
        _ => item.to_vec(),
    };
    let mut term_list = TERMS.to_vec();
    term_list.resize(16, 5);
    Call {
        which,
        context: 0,
        signatures: SIGNATURES.len(),
        signature_sorts: 2,
        globals: 2,
        items: 1,
        arguments: arguments.len(),
        signature_list: SIGNATURES.concat(),
        signature_sort_list: vec![S, T],
        global_list: vec![T + 1, 0],
        term_list,
        item_list,
        argument_list: arguments.to_vec(),
        problem: Lent {
            line: String::new(),
            counts: Counts {
                records: 0,
                side: 0,
                tops: 0,
                range: 0,
                terms: 6,
                sorts: 2,
            },
            work: 0,
            sort_list: 0,
            errors: 0,
            record_list: vec![5; 64],
            side_list: vec![5; 8],
            top_list: vec![5; 8],
            range_list: vec![5; 16],
        },
    }
}

/// An atom of this head at place 41.
fn atom(head: usize, arguments: &[usize]) -> Input {
    Input::Call(call(
        Which::Query,
        [0, head, 0, arguments.len(), 0, 0, 41, 0],
        arguments,
    ))
}

fn equality(arguments: &[usize]) -> Input {
    Input::Call(call(
        Which::Query,
        [1, 0, 0, arguments.len(), 0, 0, 41, 0],
        arguments,
    ))
}

/// An action at place 42, of a kind by its number; x and y are its two terms.
fn action(kind: usize, head: usize, arguments: &[usize], x: usize, y: usize) -> Input {
    Input::Call(call(
        Which::Actions,
        [kind, head, 0, arguments.len(), x, y, 42, 0],
        arguments,
    ))
}

const LET: usize = 0;
const SET: usize = 1;
const CHANGE: usize = 2;
const UNION: usize = 3;
const LET_ATOM: usize = 4;
const PANIC: usize = 5;

fn local(term: usize, sort: usize) -> Input {
    Input::Call(call(Which::Local, [term, sort, 43, 0, 0, 0, 0, 0], &[]))
}

/// The same call with something else about it.
fn with(input: Input, change: impl Fn(&mut Call)) -> Input {
    match input {
        Input::Call(mut call) => {
            change(&mut call);
            Input::Call(call)
        }
        other => other,
    }
}

#[rustfmt::skip]
fn queries() -> Vec<Case> {
    let full =
        |change: fn(&mut Lent)| with(atom(MANY, &[X, LIT]), move |call| change(&mut call.problem));
    vec![
        case("f(x, y)", atom(F, &[X, Y]), "0, records 2 side 0 tops 2 range 2 terms 6"),
        case("f(x): an arity mismatch is added", atom(F, &[X]), "0, records 1 side 0 tops 1 range 1 terms 6"),
        case("two alternatives and a literal: its Assign, two Ands, an Xor", atom(MANY, &[X, LIT]), "0, records 7 side 5 tops 2 range 2 terms 6"),
        case("x = y", equality(&[X, Y]), "0, records 1 side 0 tops 1 range 2 terms 6"),
        case("257 signatures", with(atom(F, &[X, Y]), |call| { call.signatures = 257; call.signature_list = [SIGNATURES[0]; 257].concat(); }), "1"),
        case("256 signatures, a function 256 times: only the first counts", with(atom(F, &[X, Y]), |call| { call.signatures = 256; call.signature_list = [SIGNATURES[0]; 256].concat(); }), "0, records 2 side 0 tops 2 range 2 terms 6"),
        case("an argument more than lent", with(atom(F, &[X, Y]), |call| call.arguments = 3), "1"),
        case("argument 6 where there are six terms", atom(F, &[X, 6]), "2"),
        case("f of nothing", atom(F, &[]), "7"),
        case("an unknown head of nothing", atom(UNKNOWN, &[]), "7"),
        case("an equality of one", equality(&[X]), "7"),
        case("an equality of three", equality(&[X, Y, X]), "7"),
        case("an unknown head", atom(UNKNOWN, &[X]), "20, head 7 place 41"),
        case("an unknown head of a global without a sort", atom(UNKNOWN, &[UNSORTED]), "20, head 7 place 41"),
        case("a primitive of context 0 in context 0", atom(PRIM, &[X, Y]), "0, records 2 side 0 tops 2 range 2 terms 6"),
        case("a primitive of context 0 in context 1", with(atom(PRIM, &[X, Y]), |call| call.context = 1), "20, head 2 place 41"),
        case("a function without sorts", atom(NO_SORTS, &[X]), "8"),
        case("a simple primitive without sorts, of a global without a sort", atom(NO_SIMPLE_SORTS, &[UNSORTED]), "8"),
        case("exact length 0", atom(NO_LENGTH, &[X]), "8"),
        case("a global without a sort", atom(F, &[X, UNSORTED]), "9"),
        case("a global past the table", equality(&[X, PAST]), "9"),
        case("records for six of seven", full(|lent| lent.record_list.truncate(48)), "10"),
        case("side-list cells for four of five", full(|lent| lent.side_list.truncate(4)), "10"),
        case("top-level entries for one of two", full(|lent| lent.top_list.truncate(1)), "10"),
        case("range entries for one of two", full(|lent| lent.range_list.truncate(2)), "10"),
        case("room for just seven, five, two and two", full(|lent| { lent.record_list.truncate(56); lent.side_list.truncate(5); lent.top_list.truncate(2); lent.range_list.truncate(4); }), "0, records 7 side 5 tops 2 range 2 terms 6"),
    ]
}

// A cell of a signature: 0 its kind, 1 its head, 2 its mask, 6 an all-equal primitive's length.
const fn signature(number: usize, cell: usize) -> usize {
    number * 10 + cell
}

/// What a call is lent at its largest, and one past it.
#[rustfmt::skip]
fn limits() -> Vec<Case> {
    const ADDED: &str = "0, records 2 side 0 tops 2 range 2 terms 6";
    let lent = |change: fn(&mut Call, usize), count: usize| with(atom(F, &[X, Y]), move |call| change(call, count));
    let globals: fn(&mut Call, usize) = |call, count| { call.globals = count; call.global_list = vec![0; count]; };
    let signature_sorts: fn(&mut Call, usize) = |call, count| { call.signature_sorts = count; call.signature_sort_list = vec![S; count]; };
    let arguments: fn(&mut Call, usize) = |call, count| { call.arguments = count; call.argument_list.resize(count, X); };
    let terms: fn(&mut Call, usize) = |call, count| { call.problem.counts.terms = count; call.term_list = vec![0; 2 * count]; };
    let context: fn(&mut Call, usize) = |call, context| call.context = context;
    let length: fn(&mut Call, usize) = |call, length| call.signature_list[signature(7, 6)] = length + 1;
    vec![
        case("257 globals", lent(globals, 257), "1"),
        case("256 globals", lent(globals, 256), ADDED),
        case("2,049 sorts of signatures", lent(signature_sorts, 2049), "1"),
        case("2,048 sorts of signatures", lent(signature_sorts, 2048), ADDED),
        case("2,049 arguments", lent(arguments, 2049), "1"),
        case("2,048 arguments, of which the atom has two", lent(arguments, 2048), ADDED),
        case("257 terms", lent(terms, 257), "1"),
        case("256 terms", lent(terms, 256), "0, records 2 side 0 tops 2 range 2 terms 256"),
        case("context 8", lent(context, 8), "2"),
        case("context 7", lent(context, 7), ADDED),
        case("an exact length of 10,000", lent(length, 10_000), "2"),
        case("an exact length of 9,999", lent(length, 9999), ADDED),
    ]
}

/// Which of several signatures, atoms and numbers counts.
#[rustfmt::skip]
fn orders() -> Vec<Case> {
    let both = |arguments| with(atom(F, arguments), |call| { call.items = 2; call.item_list.extend([0, UNKNOWN, 0, 1, 0, 0, 44, 0]); });
    let set = |kind| with(action(SET, F, &[X], Y, 0), move |call| { call.signature_list[signature(0, 0)] = kind; call.signature_list[signature(1, 1)] = F; });
    let masked = |mask| with(atom(PRIM, &[X, Y]), move |call| call.signature_list[signature(2, 2)] = mask);
    let empty_beside = |context| with(atom(MANY, &[X, LIT]), move |call| { call.signature_list[signature(4, 6)] = 1; call.context = context; });
    let ranged = |call: &mut Call| { call.problem.counts.range = 256; call.problem.range_list = [X, 51].repeat(257); };
    vec![
        case("f(x, y), then an unknown head", both(&[X, Y]), "20, head 7 place 44"),
        case("the same with room for one record", with(both(&[X, Y]), |call| call.problem.record_list.truncate(8)), "10"),
        case("the same with a global without a sort", both(&[X, UNSORTED]), "9"),
        case("a bad alternative beside a good one", empty_beside(0), "8"),
        case("the bad one is not of the context", empty_beside(1), "0, records 3 side 0 tops 3 range 2 terms 6"),
        case("mask 256 in context 0", masked(256), "20, head 2 place 41"),
        case("mask 257 in context 0", masked(257), "0, records 2 side 0 tops 2 range 2 terms 6"),
        case("an all-equal primitive of one argument that asks nothing", with(atom(NO_LENGTH, &[X]), |call| call.signature_list[signature(7, 6)] = 0), "0, records 0 side 0 tops 0 range 1 terms 6"),
        case("512 top-level entries before", with(atom(F, &[X, Y]), |call| { call.problem.counts.tops = 512; call.problem.top_list = vec![0; 520]; }), "10"),
        case("256 range entries before, all of x", with(atom(F, &[X, Y]), ranged), "10"),
        case("set of a function whose head a constructor has too, behind it", set(0), "0, records 2 side 0 tops 2 range 0 terms 6"),
        case("set of two constructors of one head", set(1), "21, head 0 place 42"),
        case("a change, then one of its fresh term, which is no term before the call", with(action(CHANGE, F, &[X], 0, 0), |call| { call.items = 2; call.item_list.extend([2, F, 1, 1, 0, 0, 42, 0]); call.arguments = 2; call.argument_list.push(6); }), "2"),
        case("x of sort T, 256 range entries before, all of x", with(local(X, T), ranged), "0, records 1 side 0 tops 1 range 256 terms 6"),
        case("y of sort T, 256 range entries before, all of x", with(local(Y, T), ranged), "10"),
    ]
}

#[rustfmt::skip]
fn actions() -> Vec<Case> {
    let many_terms = |terms: usize| {
        with(action(CHANGE, F, &[X], 0, 0), move |call| {
            call.problem.counts.terms = terms;
            call.term_list = vec![0; 2 * 257];
        })
    };
    vec![
        case("let y be f(x)", action(LET, F, &[X], Y, 0), "0, records 2 side 0 tops 2 range 1 terms 6"),
        case("set f(x) to the literal", action(SET, F, &[X], LIT, 0), "0, records 3 side 0 tops 3 range 0 terms 6"),
        case("change f(x): a fresh term", action(CHANGE, F, &[X], 0, 0), "0, records 2 side 0 tops 2 range 0 terms 7"),
        case("union of the literal and the global: both Assigns, then Eq", action(UNION, 0, &[], LIT, GLOB), "0, records 3 side 0 tops 3 range 0 terms 6"),
        case("let y be the literal", action(LET_ATOM, 0, &[], Y, LIT), "0, records 2 side 0 tops 2 range 1 terms 6"),
        case("panic", action(PANIC, 0, &[], 0, 0), "0, records 0 side 0 tops 0 range 0 terms 6"),
        case("two actions counted, one lent", with(action(PANIC, 0, &[], 0, 0), |call| call.items = 2), "1"),
        case("let the literal be f(x)", action(LET, F, &[X], LIT, 0), "2"),
        case("let the global be x", action(LET_ATOM, 0, &[], GLOB, X), "2"),
        case("an action's kind of 6", action(6, 0, &[], 0, 0), "2"),
        case("set of a constructor", action(SET, CTOR, &[X], Y, 0), "21, head 1 place 42"),
        case("set of a constructor to a global without a sort", action(SET, CTOR, &[X], UNSORTED, 0), "21, head 1 place 42"),
        case("let y be the constructor of x", action(LET, CTOR, &[X], Y, 0), "0, records 2 side 0 tops 2 range 1 terms 6"),
        case("let y be an unknown head of nothing: the variable counts for 7", action(LET, UNKNOWN, &[], Y, 0), "20, head 7 place 42"),
        case("change of a function without sorts", action(CHANGE, NO_SORTS, &[], 0, 0), "8"),
        case("set f(x) to a global without a sort", action(SET, F, &[X], UNSORTED, 0), "9"),
        case("a fresh term where there are 256", many_terms(256), "10"),
        case("a fresh term where there are 255", many_terms(255), "0, records 2 side 0 tops 2 range 0 terms 256"),
        case("a fresh term that the term list has no cells for", with(action(CHANGE, F, &[X], 0, 0), |call| { call.term_list.truncate(13) }), "10"),
    ]
}

#[rustfmt::skip]
fn locals() -> Vec<Case> {
    vec![
        case("x of sort T", local(X, T), "0, records 1 side 0 tops 1 range 1 terms 6"),
        case("257 terms", with(local(X, T), |call| { call.problem.counts.terms = 257; call.term_list = vec![0; 514]; }), "1"),
        case("the literal of sort T", local(LIT, T), "2"),
        case("x of sort 2 where there are two", local(X, 2), "2"),
        case("no top-level entry to spare", with(local(X, T), |call| call.problem.top_list.clear()), "10"),
    ]
}

/// A rule's body at place 77 over the variables a, b and a literal, just as much as it must be lent. An atom: its kind (0 a
/// function's, 1 a primitive's, 2 an equality) and its arguments.
fn lent_body(atoms: &[(usize, &[usize])]) -> Body {
    let mut atom_list = vec![];
    let mut argument_list = vec![];
    for (kind, terms) in atoms {
        atom_list.extend([*kind, 0, argument_list.len(), terms.len(), 0, 0, 0, 0]);
        argument_list.extend(*terms);
    }
    Body {
        line: String::new(),
        atoms: atoms.len(),
        arguments: argument_list.len(),
        terms: 3,
        place: 77,
        work: 18 * (3 + 512),
        sort_list: 3,
        errors: 512 * 8,
        atom_list,
        argument_list,
        term_list: vec![0, 0, 0, 0, 2, 0],
    }
}

fn body(atoms: &[(usize, &[usize])]) -> Input {
    Input::Body(lent_body(atoms))
}

fn body_but(atoms: &[(usize, &[usize])], change: impl Fn(&mut Body)) -> Input {
    let mut body = lent_body(atoms);
    change(&mut body);
    Input::Body(body)
}

#[rustfmt::skip]
fn bodies() -> Vec<Case> {
    const LITERAL: usize = 2;
    let grounded: &[(usize, &[usize])] = &[(1, &[A, B]), (0, &[A])];
    vec![
        case("a primitive from a to b, then a function of a", body(grounded), "0, passes 3, sorts 1 1 0"),
        case("the primitive alone", body(&grounded[..1]), "40, passes 1, term 0 place 77"),
        case("a function of a, b = b", body(&[(0, &[A]), (2, &[B, B])]), "40, passes 2, term 1 place 77"),
        case("a = the literal", body(&[(2, &[A, LITERAL])]), "0, passes 3, sorts 1 0 1"),
        case("257 terms", body_but(grounded, |body| { body.terms = 257; body.term_list = vec![0; 514]; }), "1"),
        case("256 terms, no atoms", body_but(&[], |body| { body.terms = 256; body.term_list = vec![0; 512]; body.work = 18 * 768; body.sort_list = 256; }), "0, passes 1, sorts 0 x 256"),
        case("2,049 arguments", body_but(grounded, |body| { body.arguments = 2049; body.argument_list.resize(2049, A); }), "1"),
        case("2,048 arguments, of which the atoms have three", body_but(grounded, |body| { body.arguments = 2048; body.argument_list.resize(2048, A); }), "0, passes 3, sorts 1 1 0"),
        case("an atom's kind of 3", body(&[(3, &[A])]), "2"),
        case("a term's kind of 3", body_but(grounded, |body| body.term_list[0] = 3), "2"),
        case("a cell less of work room than 18 times 515", body_but(grounded, |body| body.work -= 1), "5"),
        case("an error list of 512 entries less a cell", body_but(grounded, |body| body.errors -= 1), "6"),
        case("a function's atom without arguments", body(&[(0, &[])]), "7"),
        case("an equality of one", body(&[(2, &[A])]), "7"),
        case("an equality of one and too small a work room", body_but(&[(2, &[A])], |body| body.work = 0), "5"),
        case("513 times a function of a", body(&[(0, &[A; 513])]), "10"),
        case("512 times a function of a", body(&[(0, &[A; 512])]), "0, passes 2, sorts 1 0 0"),
        case("a primitive of 513 inputs four times: 2,052 watched terms", body_but(&[(1, &[A; 514])], |body| { body.atoms = 4; body.atom_list = [1, 0, 0, 514, 0, 0, 0, 0].repeat(4); }), "10"),
    ]
}

/// Sorts S and T, a function f from S to T, a constructor c likewise.
fn text(lines: &str) -> Input {
    Input::Text(format!("sort S\nsort T\nfun f S T\nctor c S T\n{lines}"))
}

#[rustfmt::skip]
fn texts() -> Vec<Case> {
    vec![
        case("nothing", Input::Text(String::new()), "ok 0 passes 1"),
        case("document 01's example", Input::Text("sort Reading\nsort Metre\nfun dist Reading Metre\natom dist t d\n".to_owned()), "ok 2 passes 2; t Reading; d Metre"),
        case("a is S and T", text("local a S\nlocal a T"), "conflict 1; mismatch 6 a T S"),
        case("two unknown variables are equal", text("eq a b"), "open 1; unsorted 5 a"),
        case("f with one argument", text("atom f a"), "conflict 1; arity 5 f 1"),
        case("neither of two alternatives", text("prim f 1 equal S 3 -\nlocal a T\natom f a b"), "conflict 1; none 2; mismatch 7 a S T; arity 7 f 2"),
        case("a fresh term", text("change f a"), "ok 2 passes 2; a S; #1 T"),
    ]
}

/// So many lines, of numbers from 0.
fn lines(count: usize, line: fn(usize) -> String) -> String {
    (0..count).map(line).collect()
}

#[rustfmt::skip]
fn refused_texts() -> Vec<Case> {
    let sorts = |count| Input::Text(lines(count, |number| format!("sort s{number}\n")));
    let globals = |count| Input::Text(format!("sort S\n{}", lines(count, |number| format!("global g{number} S\n"))));
    let primitives = |count| Input::Text(lines(count, |_| "prim p 0 simple\n".to_owned()));
    let signature_sorts = |count| text(&format!("prim p 0 simple{}", " S".repeat(count)));
    let terms = |count| Input::Text(lines(count, |number| format!("eq a{number} a{number}\n")));
    let equal = |count| Input::Text(lines(count, |_| "eq a a\n".to_owned()));
    let letters = |count: usize| Input::Text(format!("{}\n", "x".repeat(count - 1)));
    let empty = |count| Input::Text("\n".repeat(count));
    let arguments = |count| text(&format!("atom f{}", " a".repeat(count)));
    vec![
        case("an atom without arguments", text("atom f"), "refused 7 line 5"),
        case("a primitive without sorts", text("prim p 1 simple\natom p a"), "refused 8 line 6"),
        case("exact length 0", text("prim p 1 equal - 0 -\natom p a"), "refused 8 line 6"),
        case("257 sorts", sorts(257), "refused 10 line 257"),
        case("256 sorts", sorts(256), "ok 0 passes 1"),
        case("257 globals", globals(257), "refused 10 line 258"),
        case("256 globals", globals(256), "ok 0 passes 1"),
        case("257 signatures", primitives(257), "refused 10 line 257"),
        case("256 signatures", primitives(256), "ok 0 passes 1"),
        case("2,049 sorts of signatures with those of f and c", signature_sorts(2045), "refused 10 line 5"),
        case("2,048 of them", signature_sorts(2044), "ok 0 passes 1"),
        case("257 terms", terms(257), "refused 10 line 257"),
        case("256 terms", terms(256), "open 1; unsorted 1 a0"),
        case("513 records", equal(513), "refused 10 line 513"),
        case("512 records", equal(512), "open 1; unsorted 1 a"),
        case("2,049 arguments", arguments(2049), "refused 10 line 5"),
        case("2,048 arguments", arguments(2048), "conflict 1; arity 5 f 1"),
        case("a head that is declared below", text("atom g a\nfun g T"), "refused 20 line 5"),
        case("a set of a constructor", text("set c a b"), "refused 21 line 5"),
        case("two spaces", text("local  a S"), "refused 50 line 5"),
        case("context 8", text("ctx 8"), "refused 50 line 5"),
        case("context 7", text("ctx 7"), "ok 0 passes 1"),
        case("mask 256", text("prim p 256 simple"), "refused 50 line 5"),
        case("mask 255", text("prim p 255 simple"), "ok 0 passes 1"),
        case("a length of five digits", text("prim p 0 equal - 10000 -"), "refused 50 line 5"),
        case("a length of 9,999", text("prim p 0 equal - 9999 -"), "ok 0 passes 1"),
        case("an unknown sort and a lone hyphen", text("local - U"), "refused 50 line 5"),
        case("a sort declared twice", text("sort S"), "refused 51 line 5"),
        case("an unknown sort", text("local a U"), "refused 51 line 5"),
        case("an unknown global of an unknown head", text("atom g @h"), "refused 51 line 5"),
        case("32,769 bytes of one malformed line", letters(32_769), "refused 52 line 0"),
        case("32,768 bytes of it", letters(32_768), "refused 50 line 1"),
        case("32,769 empty lines", empty(32_769), "refused 52 line 0"),
        case("32,768 empty lines", empty(32_768), "ok 0 passes 1"),
    ]
}
