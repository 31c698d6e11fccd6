//! Runs an input of the table of answers, and shows what came of it in one line.
use crate::answers::Input;
use crate::{bodies, calls, problems, texts, type_errors};
use oracle::answer::{Answer, answer};
use oracle::calls::{self as oracle_calls, Caller};
use oracle::lent::ENTRY_CELLS;
use oracle::{grounded, text, type_errors as oracle_type_errors};
use sortlib::raw;

/// The number, what the table shows of it, and the whole: every cell that may be written.
#[derive(PartialEq, Eq)]
pub struct Shown {
    pub number: usize,
    pub told: String,
    whole: String,
}

pub fn through_the_library(input: &Input) -> Shown {
    match input {
        Input::Problem(lent) => solved(&problems::through_the_library(lent)),
        Input::Entry(lent, entry) => {
            let left = problems::through_the_library(lent);
            type_error(raw::type_error(lent.counts.records, *entry, &left.errors))
        }
        Input::Entries(cells, records, entry) => {
            type_error(raw::type_error(*records, *entry, cells))
        }
        Input::Outcome(lent) => {
            let left = problems::through_the_library(lent);
            type_error(raw::outcome_type_error(type_errors::outcome_of(&left)))
        }
        Input::Call(call) => added(&calls::through_the_library(call)),
        Input::Body(body) => solved(&bodies::through_the_library(body)),
        Input::Text(text) => said(&output(text.as_bytes())),
    }
}

/// The whole output of a text, on this thread's own stack: what it takes is measured too.
fn output(text: &[u8]) -> Vec<u8> {
    let mut out = vec![0; raw::text(text, &mut [])];
    raw::text(text, &mut out);
    out
}

/// Nothing where the crate has no such input: an entry past an error's end, and what is refused of a type error.
pub fn through_the_crate(input: &Input) -> Option<Shown> {
    match input {
        Input::Problem(lent) => Some(solved(&answer(lent))),
        Input::Entry(lent, entry) => {
            let all = oracle_type_errors::type_errors(lent).errors;
            all.get(*entry).map(listed)
        }
        Input::Entries(..) => None,
        Input::Outcome(lent) => {
            let all = oracle_type_errors::type_errors(lent);
            (all.number == 31).then(|| listed(&all.errors[0]))
        }
        Input::Call(call) => Some(added(&Caller::default().answer(call))),
        Input::Body(body) => Some(solved(&grounded::answer(body))),
        Input::Text(text) => Some(said(text::sorts(text.as_bytes()).as_bytes())),
    }
}

fn cells(cells: &[usize]) -> String {
    match cells {
        [first, .., _] if cells.len() > 8 && cells.iter().all(|cell| cell == first) => {
            format!("{first} x {}", cells.len())
        }
        _ => problems::line(cells),
    }
}

fn solved(answer: &Answer) -> Shown {
    let (number, passes) = (answer.number, answer.passes);
    let told = match number {
        0 => format!("0, passes {passes}, sorts {}", cells(&answer.sort_list)),
        31 | 40 => format!(
            "{number}, passes {passes}, term {} place {}",
            answer.term, answer.place
        ),
        30 | 32 | 33 => format!(
            "{number}, passes {passes}, entries {}",
            entries(&answer.errors)
        ),
        _ => number.to_string(),
    };
    Shown {
        number,
        told,
        whole: answer.to_string(),
    }
}

/// The entries that are not zeroes, without their last two cells.
fn entries(errors: &[usize]) -> String {
    let all = errors.chunks_exact(ENTRY_CELLS);
    let shown: Vec<String> = all
        .take_while(|entry| entry[0] != 0)
        .map(|entry| format!("({})", problems::line(&entry[..6])))
        .collect();
    shown.join(" ")
}

fn added(answer: &oracle_calls::Answer) -> Shown {
    let c = answer.after.problem.counts;
    let told = match answer.number {
        0 => format!(
            "0, records {} side {} tops {} range {} terms {}",
            c.records, c.side, c.tops, c.range, c.terms
        ),
        number @ (20 | 21) => format!("{number}, head {} place {}", answer.head, answer.place),
        number => number.to_string(),
    };
    Shown {
        number: answer.number,
        told,
        whole: answer.to_string(),
    }
}

fn type_error(told: raw::Told) -> Shown {
    values(told.number, [told.first, told.second, told.third])
}

fn listed(error: &oracle_type_errors::Listed) -> Shown {
    values(error.number, error.values)
}

fn values(number: usize, values: [usize; 3]) -> Shown {
    let told = format!("{number}: {}", problems::line(&values));
    Shown {
        number,
        whole: told.clone(),
        told,
    }
}

/// An output's lines, and the number that it stands for.
fn said(output: &[u8]) -> Shown {
    let whole = String::from_utf8(output.to_owned()).expect("names are ASCII");
    let rows: Vec<&str> = whole.lines().collect();
    Shown {
        number: texts::number_of(output),
        told: rows.join("; "),
        whole,
    }
}
