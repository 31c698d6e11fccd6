//! Errors as the numbers of the error list.
use sortlib::raw::Told;
use sortlib::{Error, TypeError};

/// An error as its entries in preorder.
pub fn flatten(error: &Error, list: &mut Vec<[usize; 8]>) {
    match error {
        Error::Mismatch {
            record,
            place,
            term,
            expected,
            actual,
            ..
        } => list.push([30, *record, place.0, term.0, expected.0, actual.0, 0, 0]),
        Error::NoneFits {
            record,
            place,
            alternatives,
            ..
        } => {
            list.push([32, *record, place.0, alternatives.len(), 0, 0, 0, 0]);
            alternatives.iter().for_each(|error| flatten(error, list));
        }
        Error::Arity {
            record,
            place,
            head,
            expected_with_output,
            ..
        } => list.push([33, *record, place.0, head.0, *expected_with_output, 0, 0, 0]),
        _ => panic!("a kind of error that the page has not"),
    }
}

/// A type error in numbers, and its place.
pub fn told(error: &TypeError) -> (Told, usize) {
    let ([number, first, second, third], place) = match error {
        TypeError::Mismatch {
            place,
            term,
            expected,
            actual,
            ..
        } => ([30, term.0, expected.0, actual.0], place),
        TypeError::Unsorted { place, term, .. } => ([31, term.0, 0, 0], place),
        TypeError::NoneFits {
            place,
            alternatives,
            ..
        } => ([32, *alternatives, 0, 0], place),
        TypeError::Arity {
            place,
            head,
            expected_inputs,
            ..
        } => ([33, head.0, *expected_inputs, 0], place),
        _ => panic!("a kind of type error that the page has not"),
    };
    let told = Told {
        number,
        first,
        second,
        third,
    };
    (told, place.0)
}
