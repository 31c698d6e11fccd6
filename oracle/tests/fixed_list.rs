//! The committed answers are what the oracle gives today.
use oracle::answer::answer;
use oracle::calls::{Call, Caller};
use oracle::grounded::{self, Body};
use oracle::lent::Lent;
use oracle::text::{read_framed, sorts};
use oracle::type_errors::type_errors;
use std::fs;
use std::path::Path;

fn fixed_bytes(file: &str) -> Vec<u8> {
    let folder = Path::new(env!("CARGO_MANIFEST_DIR")).join("fixed");
    fs::read(folder.join(file)).unwrap_or_else(|e| panic!("fixed/{file}: {e}"))
}

/// The lines that stand in a file behind a name, up to the next name.
fn fixed(file: &str, name: &str) -> Vec<String> {
    let text = String::from_utf8(fixed_bytes(file)).expect("lists of numbers");
    let is_name = |line: &&str| line.starts_with(|c: char| c.is_ascii_lowercase());
    let is_line = |line: &&str| !line.is_empty() && !line.starts_with('#');
    let lines = text.lines().filter(is_line).skip_while(|line| *line != name);
    lines.skip(1).take_while(|line| !is_name(line)).map(String::from).collect()
}

/// Each line of the list with its answer.
fn assert_answers(list: &str, answers: &str, mut answer_to: impl FnMut(&str) -> String) {
    let (problems, answers) = (fixed("replay.in", list), fixed("replay.out", answers));
    assert_eq!(problems.len(), answers.len());
    assert!(!problems.is_empty());
    for (line, expected) in problems.iter().zip(answers) {
        assert_eq!(answer_to(line), expected, "{line}");
    }
}

#[test]
fn problems_have_these_answers() {
    assert_answers("problems", "problems", |line| {
        let lent = Lent::parse(line).expect("a well-formed line");
        answer(&lent).to_string()
    });
}

#[test]
fn calls_have_these_answers() {
    let mut caller = Caller::default();
    assert_answers("calls", "calls", |line| {
        let call = Call::parse(line).expect("a well-formed line");
        caller.answer(&call).to_string()
    });
}

#[test]
fn bodies_have_these_answers() {
    assert_answers("bodies", "bodies", |line| {
        let body = Body::parse(line).expect("a well-formed line");
        grounded::answer(&body).to_string()
    });
}

#[test]
fn problems_have_these_type_errors() {
    assert_answers("problems", "outcomes", |line| {
        let lent = Lent::parse(line).expect("a well-formed line");
        type_errors(&lent).to_string()
    });
}

#[test]
fn texts_have_these_outputs() {
    let (texts, outputs) = (fixed_bytes("texts.in"), fixed_bytes("texts.out"));
    let texts = read_framed(&texts).expect("a list of texts");
    let outputs = read_framed(&outputs).expect("a list of outputs");
    assert_eq!(texts.len(), outputs.len());
    for (text, output) in texts.into_iter().zip(outputs) {
        assert_eq!(sorts(text).as_bytes(), output);
    }
}
