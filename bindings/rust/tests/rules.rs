//! Rules through the wrapper: queries, actions, typed locals, type errors, groundedness.
use sortlib::{
    Actions, AllEqual, Body, Context, Contexts, Grounded, Head, Place, Problem, Query, Refusal,
    Sort, Tables, Term,
};

const READING: Sort = Sort(0);
const SETPOINT: Sort = Sort(1);
const METRE: Sort = Sort(2);
const SORTS: usize = 3;

const DIST: Head = Head(0);
const SHOWS: Head = Head(1);
const SAME: Head = Head(2);
const MAKE: Head = Head(3);
const UNKNOWN: Head = Head(4);

const FIRST: Context = Context(0);

fn tables() -> Tables {
    let mut tables = Tables::new();
    tables.function(DIST, &[READING, METRE]);
    tables.simple(SHOWS, Contexts::EVERY, &[SETPOINT, METRE]);
    tables.simple(SHOWS, Contexts::EVERY, &[READING, METRE]);
    tables.all_equal(SAME, Contexts::EVERY, AllEqual::new());
    tables.constructor(MAKE, &[READING, METRE]);
    tables
}

fn problem() -> (Problem, Term, Term) {
    let mut problem = Problem::new(0, SORTS);
    let (x, d) = (problem.variable(), problem.variable());
    (problem, x, d)
}

fn query(atoms: impl Fn(&mut Query)) -> Query {
    let mut query = Query::new();
    atoms(&mut query);
    query
}

fn actions(all: impl Fn(&mut Actions)) -> Actions {
    let mut actions = Actions::new();
    all(&mut actions);
    actions
}

/// What solving says is wrong, a line for each type error.
fn wrong(problem: &Problem) -> String {
    let solved = problem.solve().expect("not refused");
    solved.into_sorts().expect_err("not sorted").to_string()
}

fn sorts<const TERMS: usize>(problem: &Problem, terms: [Term; TERMS]) -> [Option<Sort>; TERMS] {
    let solved = problem.solve().expect("not refused");
    let sorts = solved.into_sorts().expect("sorted");
    terms.map(|term| sorts.of(term))
}

#[test]
fn an_overloaded_head_stays_open_until_a_local_decides() {
    let (mut problem, x, d) = problem();
    let atoms = query(|q| q.atom(SHOWS, &[x, d], Place(1)));
    problem.add_query(&tables(), FIRST, &atoms).unwrap();
    assert_eq!(wrong(&problem), "place 1: term 0 has no sort");
    problem.add_local(x, READING, Place(2)).unwrap();
    assert_eq!(sorts(&problem, [x, d]), [Some(READING), Some(METRE)]);
    assert_eq!(problem.solve().unwrap().passes, 3);
}

#[test]
fn a_wrong_number_of_terms_is_told_without_the_output() {
    let (mut problem, x, d) = problem();
    let atoms = query(|q| q.atom(DIST, &[x, x, d], Place(7)));
    problem.add_query(&tables(), FIRST, &atoms).unwrap();
    assert_eq!(
        wrong(&problem),
        "place 7: head 0 has a wrong number of terms: expected 1, without the output"
    );
}

#[test]
fn why_no_alternative_fits_is_listed() {
    let (mut problem, x, d) = problem();
    let metre = problem.literal(METRE);
    let atoms = query(|q| {
        q.equal(x, metre, Place(1));
        q.atom(SHOWS, &[x, d], Place(2));
    });
    problem.add_query(&tables(), FIRST, &atoms).unwrap();
    let lines = [
        "place 2: no alternative fits, of 2",
        "place 2: term 0 would have two sorts: expected sort 1, actual sort 2",
        "place 2: term 0 would have two sorts: expected sort 0, actual sort 2",
    ];
    assert_eq!(wrong(&problem), lines.join("\n"));
}

#[test]
fn actions_bind_and_hand_back_fresh_terms_in_order() {
    let (mut problem, x, d) = problem();
    let reading = problem.literal(READING);
    let all = actions(|a| {
        a.bind_term(x, reading, Place(1));
        a.change(DIST, &[x], Place(2));
        a.bind(d, DIST, &[x], Place(3));
        a.change(SAME, &[x], Place(4));
        a.set(DIST, &[x], d, Place(5));
        a.union(x, reading, Place(6));
        a.panic(Place(7));
    });
    let fresh = problem.add_actions(&tables(), FIRST, &all).unwrap();
    assert_eq!(fresh, [Term(3), Term(4)]);
    let found = sorts(&problem, [x, d, reading, fresh[0], fresh[1]]);
    assert_eq!(found, [READING, METRE, READING, METRE, READING].map(Some));
    let none = actions(|a| a.panic(Place(8)));
    assert_eq!(problem.add_actions(&tables(), FIRST, &none), Ok(vec![]));
}

#[test]
fn a_refused_call_changes_nothing() {
    let (mut problem, x, d) = problem();
    let before = problem.clone();
    let here = Place(8);
    let refused = |problem: &mut Problem, atoms: &Query| problem.add_query(&tables(), FIRST, atoms);
    let unknown = query(|q| q.atom(UNKNOWN, &[x, d], here));
    let unbound = Refusal::UnboundFunction {
        head: UNKNOWN,
        place: here,
    };
    assert_eq!(refused(&mut problem, &unknown), Err(unbound));
    let empty = query(|q| q.atom(DIST, &[], here));
    assert_eq!(refused(&mut problem, &empty), Err(Refusal::NoArguments));
    let past = query(|q| q.atom(DIST, &[x, Term(99)], here));
    assert_eq!(refused(&mut problem, &past), Err(Refusal::OutOfRange));
    let many = query(|q| (0..257).for_each(|_| q.atom(DIST, &[x, d], here)));
    assert_eq!(refused(&mut problem, &many), Err(Refusal::Full));
    let set = actions(|a| {
        a.change(DIST, &[x], here);
        a.set(MAKE, &[x], d, here);
    });
    let constructor = Refusal::SetConstructor {
        head: MAKE,
        place: here,
    };
    assert_eq!(
        problem.add_actions(&tables(), FIRST, &set),
        Err(constructor)
    );
    assert_eq!(problem, before);
}

#[test]
fn globals_without_a_sort_and_bad_signatures_are_refused() {
    let (mut problem, x, _) = problem();
    let mut tables = tables();
    let open = tables.global(None);
    let global = problem.global(open);
    let atoms = query(|q| q.equal(x, global, Place(1)));
    let refused = problem.add_query(&tables, FIRST, &atoms);
    assert_eq!(refused, Err(Refusal::UnsortedGlobal));
    let none = AllEqual::new().with_exact_length(0);
    tables.all_equal(SAME, Contexts::EVERY, none);
    let atoms = query(|q| q.atom(SAME, &[x], Place(1)));
    let refused = problem.add_query(&tables, FIRST, &atoms);
    assert_eq!(refused, Err(Refusal::NoSorts));
}

#[test]
fn an_all_equal_form_is_narrowed() {
    let narrowed = |form: AllEqual, terms: usize| {
        let mut tables = Tables::new();
        tables.all_equal(SAME, Contexts::EVERY, form);
        let mut problem = Problem::new(3, SORTS);
        let all = [Term(0), Term(1), Term(2)];
        let atoms = query(|q| q.atom(SAME, &all[..terms], Place(1)));
        problem.add_query(&tables, FIRST, &atoms).unwrap();
        problem
    };
    let all = [Term(0), Term(1), Term(2)];
    let common = AllEqual::new().with_all_arguments_sort(READING);
    assert_eq!(sorts(&narrowed(common, 3), all), [Some(READING); 3]);
    let output = common.with_output_sort(METRE);
    let expected = [READING, READING, METRE].map(Some);
    assert_eq!(sorts(&narrowed(output, 3), all), expected);
    let three = output.with_exact_length(3);
    assert_eq!(sorts(&narrowed(three, 3), all), expected);
    assert_eq!(
        wrong(&narrowed(three, 2)),
        "place 1: head 2 has a wrong number of terms: expected 2, without the output"
    );
    assert_eq!(
        wrong(&narrowed(AllEqual::new(), 3)),
        "place 1: term 0 has no sort"
    );
}

#[test]
fn a_primitive_counts_in_its_contexts_alone() {
    let mut tables = Tables::new();
    tables.simple(SHOWS, Contexts::of(&[Context(0)]), &[READING]);
    tables.simple(SHOWS, Contexts::of(&[Context(1)]), &[SETPOINT]);
    let answered = |context: usize| {
        let (mut problem, x, _) = problem();
        let atoms = query(|q| q.atom(SHOWS, &[x], Place(1)));
        let added = problem.add_query(&tables, Context(context), &atoms);
        added.map(|()| sorts(&problem, [x]))
    };
    assert_eq!(answered(0), Ok([Some(READING)]));
    assert_eq!(answered(1), Ok([Some(SETPOINT)]));
    let unbound = Refusal::UnboundFunction {
        head: SHOWS,
        place: Place(1),
    };
    assert_eq!(answered(2), Err(unbound));
    assert_eq!(answered(8), Err(Refusal::OutOfRange));
}

#[test]
fn a_primitive_grounds_its_output() {
    let mut body = Body::new();
    let (a, b) = (body.variable(), body.variable());
    body.primitive(&[a, b]);
    let Ok(Grounded::Not { term, passes, .. }) = body.check() else {
        panic!("nothing grounds the input");
    };
    assert_eq!((term, passes), (a, 1));
    let one = body.literal();
    body.equal(a, one);
    let Ok(Grounded::All { passes, .. }) = body.check() else {
        panic!("the input is a literal's value");
    };
    assert_eq!(passes, 4);
    body.function(&[]);
    assert_eq!(body.check(), Err(Refusal::NoArguments));
}
