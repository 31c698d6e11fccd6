//! A record belongs to the problem that made it.
use sortlib::{Context, Head, Place, Problem, Query, Record, Refusal, Sort, Tables, Term};

const HERE: Place = Place(1);

fn record(problem: &mut Problem) -> Record {
    problem.assign(Term(0), Sort(0), HERE)
}

/// Hands the record over in every way, and says what came of each.
fn handed_over(problem: &Problem, record: Record) -> [Result<(), Refusal>; 4] {
    let mut problem = problem.clone();
    [
        problem.require(record),
        problem.and(&[record], HERE).map(drop),
        problem.xor(&[record], HERE).map(drop),
        problem.implies(&[], record, HERE).map(drop),
    ]
}

#[test]
fn a_record_of_another_problem_is_refused() {
    let (mut ours, mut theirs) = (Problem::new(1, 1), Problem::new(1, 1));
    let own = record(&mut ours);
    let foreign = record(&mut theirs);
    assert_eq!(own.number(), foreign.number());
    assert_eq!(handed_over(&ours, own), [Ok(()); 4]);
    let refused = Refusal::ForeignRecord { record: 0 };
    assert_eq!(handed_over(&ours, foreign), [Err(refused); 4]);
    assert_eq!(
        refused.to_string(),
        "refused: record 0 was made by another problem"
    );
}

#[test]
fn a_refused_record_changes_nothing() {
    let (mut ours, mut theirs) = (Problem::new(1, 1), Problem::new(1, 1));
    let own = record(&mut ours);
    let foreign = record(&mut theirs);
    let before = ours.clone();
    assert!(ours.and(&[own, foreign], HERE).is_err());
    assert!(ours.xor(&[own, foreign], HERE).is_err());
    assert!(ours.implies(&[Term(0)], foreign, HERE).is_err());
    assert!(ours.require(foreign).is_err());
    assert_eq!(ours, before);
}

#[test]
fn a_clone_takes_the_records_made_before_it_and_no_others() {
    let mut first = Problem::new(1, 1);
    let before = record(&mut first);
    let mut second = first.clone();
    assert_eq!(handed_over(&first, before), [Ok(()); 4]);
    assert_eq!(handed_over(&second, before), [Ok(()); 4]);

    let refused = [Err(Refusal::ForeignRecord { record: 1 }); 4];
    let of_first = record(&mut first);
    assert_eq!(handed_over(&second, of_first), refused);
    let of_second = record(&mut second);
    assert_eq!(handed_over(&first, of_second), refused);
    assert_eq!(handed_over(&second, of_first), refused);
    assert_eq!(handed_over(&second, of_second), [Ok(()); 4]);
}

#[test]
fn records_stay_their_own_around_what_a_rule_adds() {
    let mut tables = Tables::new();
    tables.function(Head(0), &[Sort(0)]);
    let mut query = Query::new();
    query.atom(Head(0), &[Term(0)], HERE);

    let mut problem = Problem::new(1, 1);
    let before = record(&mut problem);
    problem.add_query(&tables, Context(0), &query).unwrap();
    let after = record(&mut problem);
    assert_eq!((before.number(), after.number()), (0, 2));
    assert_eq!(problem.require(before), Ok(()));
    assert_eq!(problem.require(after), Ok(()));
    assert!(problem.solve().unwrap().into_sorts().is_ok());
}

#[test]
fn problems_are_equal_by_what_they_say() {
    let build = |sort: Sort| {
        let mut problem = Problem::new(1, 2);
        let record = problem.assign(Term(0), sort, HERE);
        problem.require(record).unwrap();
        problem
    };
    assert_eq!(build(Sort(0)), build(Sort(0)));
    assert_ne!(build(Sort(0)), build(Sort(1)));
    assert_eq!(build(Sort(0)).solve(), build(Sort(0)).solve());
}
