//! Any number is taken or refused: nothing overflows, panics or asks for memory by a caller's number.
use sortlib::{
    Actions, AllEqual, Body, Context, Contexts, Global, Grounded, Head, Place, Problem, Query,
    Refusal, Sort, Tables, Term,
};

const HERE: Place = Place(1);
const HEAD: Head = Head(0);
const FIRST: Context = Context(0);

/// Counts that a product, a sum or an allocation would not survive.
const HUGE: [usize; 8] = [
    257,
    1 << 40,
    1 << 58,
    1 << 61,
    1 << 62,
    1 << 63,
    (1 << 63) + 1,
    usize::MAX,
];

#[test]
fn too_many_terms_are_refused_by_every_call() {
    for variables in HUGE {
        let mut problem = Problem::new(variables, 1);
        problem.variable();
        let before = problem.clone();
        assert_eq!(problem.solve(), Err(Refusal::TooMany), "{variables}");
        let query = problem.add_query(&Tables::new(), FIRST, &Query::new());
        assert_eq!(query, Err(Refusal::TooMany), "{variables}");
        let mut change = Actions::new();
        change.change(HEAD, &[], HERE);
        let actions = problem.add_actions(&Tables::new(), FIRST, &change);
        assert_eq!(actions, Err(Refusal::TooMany), "{variables}");
        let local = problem.add_local(Term(0), Sort(0), HERE);
        assert_eq!(local, Err(Refusal::TooMany), "{variables}");
        assert_eq!(problem, before, "{variables}");
    }
}

#[test]
fn too_many_sorts_are_refused_by_every_call() {
    for sorts in HUGE {
        let mut problem = Problem::new(1, sorts);
        assert_eq!(problem.solve(), Err(Refusal::TooMany), "{sorts}");
        let local = problem.add_local(Term(0), Sort(0), HERE);
        assert_eq!(local, Err(Refusal::TooMany), "{sorts}");
    }
}

#[test]
fn one_more_term_is_counted_to_the_end_of_numbers() {
    let mut problem = Problem::new(usize::MAX - 1, 1);
    assert_eq!(problem.variable(), Term(usize::MAX - 1));
    assert_eq!(problem.literal(Sort(0)), Term(usize::MAX));
    assert_eq!(problem.global(Global(0)), Term(usize::MAX));
    assert_eq!(problem.solve(), Err(Refusal::TooMany));
}

#[test]
fn the_256th_term_is_taken_and_the_257th_refused() {
    let mut problem = Problem::new(255, 256);
    let last = problem.variable();
    assert_eq!(last, Term(255));
    problem.add_local(last, Sort(255), HERE).unwrap();
    let sorts = problem.solve().unwrap().into_sorts().unwrap();
    assert_eq!(sorts.iter().collect::<Vec<_>>(), [(last, Sort(255))]);
    assert_eq!(sorts.of(Term(256)), None);
    assert_eq!(problem.variable(), Term(256));
    assert_eq!(problem.solve(), Err(Refusal::TooMany));
    let local = problem.add_local(last, Sort(0), HERE);
    assert_eq!(local, Err(Refusal::TooMany));
}

#[test]
fn a_fresh_term_past_the_256th_is_refused() {
    let mut tables = Tables::new();
    tables.function(HEAD, &[Sort(0)]);
    let mut change = Actions::new();
    change.change(HEAD, &[], HERE);
    let mut problem = Problem::new(255, 1);
    let fresh = problem.add_actions(&tables, FIRST, &change);
    assert_eq!(fresh, Ok(vec![Term(255)]));
    let full = problem.add_actions(&tables, FIRST, &change);
    assert_eq!(full, Err(Refusal::Full));
}

#[test]
fn the_512th_record_is_taken_and_the_513th_refused() {
    let mut problem = Problem::new(1, 1);
    for _ in 0..512 {
        let record = problem.assign(Term(0), Sort(0), HERE);
        problem.require(record).unwrap();
    }
    assert!(problem.solve().unwrap().into_sorts().is_ok());
    let record = problem.assign(Term(0), Sort(0), HERE);
    problem.require(record).unwrap();
    assert_eq!(problem.solve(), Err(Refusal::TooMany));
    let local = problem.add_local(Term(0), Sort(0), HERE);
    assert_eq!(local, Err(Refusal::TooMany));
}

#[test]
fn a_rule_adds_up_to_the_largest_counts_and_no_more() {
    let mut problem = Problem::new(256, 1);
    for term in 0..256 {
        problem.add_local(Term(term), Sort(0), HERE).unwrap(); // a record, a top-level and a range entry
    }
    let mut unions = Actions::new();
    for _ in 0..256 {
        unions.union(Term(0), Term(1), HERE); // a record and a top-level entry
    }
    let added = problem.add_actions(&Tables::new(), FIRST, &unions);
    assert_eq!(added, Ok(vec![]));
    assert!(problem.solve().unwrap().into_sorts().is_ok());
    let full = problem.add_local(Term(0), Sort(0), HERE);
    assert_eq!(full, Err(Refusal::Full));
}

#[test]
fn a_rule_fills_the_side_list_and_no_more() {
    let mut tables = Tables::new();
    tables.simple(HEAD, Contexts::EVERY, &[Sort(0)]);
    tables.simple(HEAD, Contexts::EVERY, &[Sort(0)]);
    let mut query = Query::new();
    query.atom(HEAD, &[Term(0)], HERE);
    // For each form an And of one child, and a Xor of the two.
    const ADDED: usize = 4;
    let full = Err(Refusal::Full);
    for (watched, expected) in [(2048 - ADDED, Ok(())), (2048 - ADDED + 1, full)] {
        let mut problem = Problem::new(1, 1);
        let child = problem.assign(Term(0), Sort(0), HERE);
        let watching = problem.implies(&vec![Term(0); watched], child, HERE);
        problem.require(watching.unwrap()).unwrap();
        assert_eq!(problem.add_query(&tables, FIRST, &query), expected);
    }
}

#[test]
fn any_value_of_a_record_is_taken_or_refused() {
    for number in [1, 256, 1 << 63, usize::MAX] {
        let records: [fn(&mut Problem, usize) -> sortlib::Record; 4] = [
            |p, n| p.assign(Term(n), Sort(0), HERE),
            |p, n| p.assign(Term(0), Sort(n), HERE),
            |p, n| p.equal(Term(0), Term(n), HERE),
            |p, n| p.impossible(HEAD, n.max(10_000), HERE),
        ];
        for record in records {
            let mut problem = Problem::new(1, 1);
            let record = record(&mut problem, number);
            problem.require(record).unwrap();
            assert_eq!(problem.solve(), Err(Refusal::OutOfRange), "{number}");
        }
        let mut problem = Problem::new(1, 1);
        problem.ask(Term(number), HERE);
        assert_eq!(problem.solve(), Err(Refusal::OutOfRange), "{number}");
        let local = problem.add_local(Term(number), Sort(0), HERE);
        assert_eq!(local, Err(Refusal::OutOfRange), "{number}");
    }
}

#[test]
fn heads_and_places_are_handed_back_whatever_they_are() {
    let mut problem = Problem::new(0, 1);
    let record = problem.impossible(Head(usize::MAX), 9_999, Place(usize::MAX));
    problem.require(record).unwrap();
    let errors = problem.solve().unwrap().type_errors;
    let largest = usize::MAX;
    assert_eq!(
        errors.to_string(),
        format!(
            "place {largest}: head {largest} has a wrong number of terms: expected 9998, without the output"
        )
    );
}

#[test]
fn any_number_in_tables_is_taken_or_refused() {
    let refused = |fill: &dyn Fn(&mut Tables)| {
        let mut tables = Tables::new();
        fill(&mut tables);
        Problem::new(0, 1).add_query(&tables, FIRST, &Query::new())
    };
    let global = |tables: &mut Tables, sort: usize| {
        tables.global(Some(Sort(sort)));
    };
    let out = Err(Refusal::OutOfRange);
    const MOST: usize = usize::MAX;
    assert_eq!(refused(&|t| t.function(Head(MOST), &[Sort(0)])), Ok(()));
    assert_eq!(refused(&|t| t.function(HEAD, &[Sort(MOST)])), out);
    assert_eq!(
        refused(&|t| t.simple(HEAD, Contexts::from_mask(MOST), &[Sort(0)])),
        Ok(())
    );
    assert_eq!(refused(&|t| global(t, MOST)), out);
    assert_eq!(refused(&|t| global(t, 1)), out);
    let forms: [fn(AllEqual) -> AllEqual; 3] = [
        |form| form.with_exact_length(MOST),
        |form| form.with_all_arguments_sort(Sort(MOST)),
        |form| form.with_output_sort(Sort(MOST)),
    ];
    for form in forms {
        let mut tables = Tables::new();
        tables.all_equal(HEAD, Contexts::EVERY, form(AllEqual::new()));
        let added = Problem::new(0, 1).add_query(&tables, FIRST, &Query::new());
        assert_eq!(added, out);
    }
    let query = Problem::new(0, 1).add_query(&Tables::new(), Context(MOST), &Query::new());
    assert_eq!(query, out);
}

#[test]
fn too_many_terms_of_a_body_or_of_its_atoms_are_refused() {
    let mut body = Body::new();
    let terms: Vec<Term> = (0..256).map(|_| body.variable()).collect();
    body.function(&terms);
    assert!(matches!(body.check(), Ok(Grounded::All { .. })));
    body.function(&[Term(usize::MAX)]);
    assert_eq!(body.check(), Err(Refusal::OutOfRange));

    let mut body = Body::new();
    let one = body.literal();
    body.function(&[one; 2049]);
    assert_eq!(body.check(), Err(Refusal::TooMany));

    let mut body = Body::new();
    for _ in 0..257 {
        body.variable();
    }
    assert_eq!(body.check(), Err(Refusal::TooMany));
}
