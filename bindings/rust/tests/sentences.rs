//! What refusals and errors say.
use sortlib::{Answer, Error, Head, Place, Problem, Refusal, Sort, Term, TypeError, TypeErrors};

fn is_an_error<Any: std::error::Error + Send + Sync + 'static>() {}

#[test]
fn errors_can_be_handed_on() {
    is_an_error::<Error>();
    is_an_error::<TypeError>();
    is_an_error::<TypeErrors>();
    is_an_error::<Refusal>();
}

#[test]
fn a_conflict_tells_each_alternative() {
    let (here, there) = (Place(1), Place(2));
    let mut problem = Problem::new(1, 2);
    let known = problem.assign(Term(0), Sort(0), here);
    let other = problem.assign(Term(0), Sort(1), there);
    let arity = problem.impossible(Head(5), 3, there);
    let either = problem.xor(&[other, arity], there).unwrap();
    problem.require(known).unwrap();
    problem.require(either).unwrap();
    let solved = problem.solve().unwrap();
    let Answer::Conflict(error) = solved.answer else {
        panic!("no alternative fits");
    };
    assert_eq!(
        error.to_string(),
        "place 2, record 3: no alternative fits, of 2 \
         (place 2, record 1: term 0 would have two sorts: expected sort 1, actual sort 0; \
         place 2, record 2: head 5 has a wrong number of terms: expected 3, with the output)"
    );
    let lines = [
        "place 2: no alternative fits, of 2",
        "place 2: term 0 would have two sorts: expected sort 1, actual sort 0",
        "place 2: head 5 has a wrong number of terms: expected 2, without the output",
    ];
    assert_eq!(solved.type_errors.to_string(), lines.join("\n"));
    let each = solved.type_errors.as_slice().iter();
    assert_eq!(each.map(TypeError::to_string).collect::<Vec<_>>(), lines);
}

#[test]
fn a_refusal_tells_its_number() {
    let (head, place) = (Head(4), Place(8));
    let numbered = [
        (1, Refusal::TooMany),
        (2, Refusal::OutOfRange),
        (3, Refusal::NoTrees),
        (4, Refusal::TooDeep),
        (7, Refusal::NoArguments),
        (8, Refusal::NoSorts),
        (9, Refusal::UnsortedGlobal),
        (10, Refusal::Full),
        (20, Refusal::UnboundFunction { head, place }),
        (21, Refusal::SetConstructor { head, place }),
    ];
    for (number, refusal) in numbered {
        let said = refusal.to_string();
        assert!(said.starts_with(&format!("refused {number}: ")), "{said}");
    }
    assert_eq!(
        Refusal::UnboundFunction { head, place }.to_string(),
        "refused 20: at place 8, head 4 has no signature that the context permits"
    );
    assert_eq!(
        Refusal::SetConstructor { head, place }.to_string(),
        "refused 21: at place 8, head 4 is a constructor and cannot be set"
    );
}
