//! Type errors: each entry of the error list that the library leaves, against what the crate makes of its own error.
use crate::problems::{line_of, through_the_library};
use crate::random::Random;
use crate::random_problems::problem;
use crate::spread::spread;
use crate::tally::Tally;
use oracle::answer::Answer;
use oracle::lent::{ENTRY_CELLS, Lent};
use oracle::type_errors::{Listed, TypeErrors, type_errors};
use sortlib::raw;

/// Every number that solving can answer undamaged problems with.
pub const NUMBERS: [usize; 11] = [0, 1, 2, 3, 4, 5, 6, 30, 31, 32, 33];

const MISMATCH: usize = 30;
const OPEN: usize = 31;
const NONE_FITS: usize = 32;
const PLACE_CELL: usize = 2;

pub fn random(count: u64) -> Tally {
    spread("type errors of problems at random", count, |seed, tally| {
        one(&mut Random::new(seed + 1), tally);
    })
}

pub fn one(random: &mut Random, tally: &mut Tally) {
    compare(&problem(random), tally);
}

fn compare(lent: &Lent, tally: &mut Tally) {
    let ours = listed(lent);
    let theirs = type_errors(lent);
    if ours == theirs {
        tally.same(ours.number);
    } else {
        let size = lent.record_list.len() + lent.side_list.len();
        tally.differs(size, line_of(lent), ours.to_string(), theirs.to_string());
    }
}

fn listed(lent: &Lent) -> TypeErrors {
    let left = through_the_library(lent);
    let errors = match left.number {
        OPEN => vec![of_outcome(&left)],
        MISMATCH.. => (0..lent.counts.records)
            .map(|entry| of_entry(&left.errors, lent.counts.records, entry))
            .take_while(|error| error.number != 0)
            .collect(),
        _ => vec![],
    };
    TypeErrors {
        number: left.number,
        errors,
    }
}

fn of_entry(errors: &[usize], records: usize, entry: usize) -> Listed {
    let told = raw::type_error(records, entry, errors);
    let place = match told.number {
        0 | NONE_FITS => 0,
        _ => errors[entry * ENTRY_CELLS + PLACE_CELL],
    };
    shown(told, place)
}

pub fn outcome_of(left: &Answer) -> raw::Outcome {
    raw::Outcome {
        number: left.number,
        passes: left.passes,
        term: left.term,
        place: left.place,
    }
}

fn of_outcome(left: &Answer) -> Listed {
    shown(raw::outcome_type_error(outcome_of(left)), left.place)
}

fn shown(told: raw::Told, place: usize) -> Listed {
    Listed {
        number: told.number,
        place,
        values: [told.first, told.second, told.third],
    }
}
