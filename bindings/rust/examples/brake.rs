//! A head that takes a Reading or a Setpoint: open, until a statement says which.
use sortlib::{Answer, Place, Problem, Refusal, Sort, Term};

const SORTS: [&str; 3] = ["Reading", "Setpoint", "Metre"];
const READING: Sort = Sort(0);
const SETPOINT: Sort = Sort(1);
const METRE: Sort = Sort(2);

const TERMS: [&str; 2] = ["x", "distance"];
const X: Term = Term(0);
const DISTANCE: Term = Term(1);

fn main() -> Result<(), Refusal> {
    let head = Place(1);
    let mut rule = Problem::new(TERMS.len(), SORTS.len());
    let mut forms = Vec::new();
    for sort in [SETPOINT, READING] {
        let argument = rule.assign(X, sort, head);
        let output = rule.assign(DISTANCE, METRE, head);
        forms.push(rule.and(&[argument, output], head)?);
    }
    let either = rule.xor(&forms, head)?;
    rule.require(either)?;
    rule.ask(X, head);
    rule.ask(DISTANCE, head);
    println!("{}", told(&rule)?);

    let statement = rule.assign(X, READING, Place(2));
    rule.require(statement)?;
    println!("{}", told(&rule)?);
    Ok(())
}

fn told(rule: &Problem) -> Result<String, Refusal> {
    Ok(match rule.solve()?.answer {
        Answer::Sorted(sorts) => {
            let rows = sorts.iter();
            let rows = rows.map(|(term, sort)| format!("{}: {}", TERMS[term.0], SORTS[sort.0]));
            rows.collect::<Vec<_>>().join("\n")
        }
        Answer::Open { term, place, .. } => {
            format!("{} is open, asked for on line {}", TERMS[term.0], place.0)
        }
        Answer::Conflict(error) => format!("conflict: {error}"),
        _ => "an answer that a later version has".to_string(),
    })
}
