//! Bodies: the library's groundedness check against the crate's, every cell of the three buffers included.
use crate::damage;
use crate::problems::line;
use crate::random::Random;
use crate::spread::spread;
use crate::tally::Tally;
use oracle::answer::Answer;
use oracle::calls::lent::{GLOBAL, LITERAL, VARIABLE};
use oracle::grounded::{Body, answer};
use sortlib::raw;

/// Every number that the check can answer.
pub const NUMBERS: [usize; 8] = [0, 1, 2, 5, 6, 7, 10, 40];

const RECORDS: usize = 512;
const TERMS: usize = 256;
const ARGUMENTS: usize = 2048;
const ROOM_FRAMES: usize = 18;
const ENTRY_CELLS: usize = 8;

const FUNCTION: usize = 0;
const PRIMITIVE: usize = 1;
const EQUALITY: usize = 2;

/// What the oracle fills the buffers with before a call.
const WORK_FILL: usize = 9;
const SORT_LIST_FILL: usize = 8;
const ERRORS_FILL: usize = 7;

pub fn compare(body: &Body, tally: &mut Tally) {
    let ours = through_the_library(body);
    let theirs = answer(body);
    if ours == theirs {
        tally.same(ours.number);
    } else {
        let size = body.atom_list.len() + body.argument_list.len() + body.term_list.len();
        tally.differs(size, line_of(body), ours.to_string(), theirs.to_string());
    }
}

pub fn through_the_library(body: &Body) -> Answer {
    let counts = raw::BodyCounts {
        atoms: body.atoms,
        arguments: body.arguments,
        terms: body.terms,
    };
    let mut work = vec![WORK_FILL; body.work];
    let mut sort_list = vec![SORT_LIST_FILL; body.sort_list];
    let mut errors = vec![ERRORS_FILL; body.errors];
    let outcome = raw::grounded_check(
        counts,
        body.place,
        &body.atom_list,
        &body.argument_list,
        &body.term_list,
        &mut work,
        &mut sort_list,
        &mut errors,
    );
    Answer {
        number: outcome.number,
        passes: outcome.passes,
        term: outcome.term,
        place: outcome.place,
        work,
        sort_list,
        errors,
    }
}

/// The body as the oracle's program `grounded` reads it.
fn line_of(body: &Body) -> String {
    let mut numbers = vec![body.atoms, body.arguments, body.terms, body.place];
    numbers.extend([body.work, body.sort_list, body.errors]);
    for list in [&body.atom_list, &body.argument_list, &body.term_list] {
        numbers.push(list.len());
        numbers.extend(list);
    }
    line(&numbers)
}

/// An atom: its kind and its arguments.
type Atom = (usize, Vec<usize>);

fn body(atoms: &[Atom], kinds: &[usize], random: &mut Random) -> Body {
    let mut atom_list = vec![];
    let mut argument_list = vec![];
    for (kind, terms) in atoms {
        let start = argument_list.len();
        atom_list.extend([*kind, random.below(9), start, terms.len(), 9, 9, 9, 9]);
        argument_list.extend(terms);
    }
    let terms = kinds.len();
    Body {
        line: String::new(),
        atoms: atoms.len(),
        arguments: argument_list.len(),
        terms,
        place: random.below(100),
        work: ROOM_FRAMES * (terms + RECORDS),
        sort_list: terms,
        errors: RECORDS * ENTRY_CELLS,
        atom_list,
        argument_list,
        term_list: kinds.iter().flat_map(|&kind| [kind, 0]).collect(),
    }
}

/// Every body of up to three atoms over two variables and a literal: functions and primitives of one or two arguments,
/// equalities.
pub fn exhaustive() -> Tally {
    const KINDS: [usize; 3] = [VARIABLE, VARIABLE, LITERAL];
    let mut atoms: Vec<Atom> = vec![];
    for x in 0..KINDS.len() {
        atoms.push((FUNCTION, vec![x]));
        atoms.push((PRIMITIVE, vec![x]));
        for y in 0..KINDS.len() {
            for kind in [FUNCTION, PRIMITIVE, EQUALITY] {
                atoms.push((kind, vec![x, y]));
            }
        }
    }
    let group = "bodies of up to three atoms, all";
    spread(group, atoms.len() as u64, |number, tally| {
        let mut random = Random::new(1);
        let first = &atoms[number as usize];
        compare(&body(&[first.clone()], &KINDS, &mut random), tally);
        for b in &atoms {
            let two = [first.clone(), b.clone()];
            compare(&body(&two, &KINDS, &mut random), tally);
            for c in &atoms {
                let three = [first.clone(), b.clone(), c.clone()];
                compare(&body(&three, &KINDS, &mut random), tally);
            }
        }
    })
}

/// Random bodies of every size, some at a limit or one past it, some damaged.
pub fn random(count: u64) -> Tally {
    spread("bodies at random", count, |seed, tally| {
        one(&mut Random::new(seed + 1), tally);
    })
}

pub fn one(random: &mut Random, tally: &mut Tally) {
    let mut body = random_body(random);
    for room in [&mut body.work, &mut body.sort_list, &mut body.errors] {
        match random.below(40) {
            0 => *room = room.saturating_sub(1),
            1..6 => *room += random.below(20),
            _ => {}
        }
    }
    if random.one_in(4) {
        damage(&mut body, random);
    }
    compare(&body, tally);
}

fn random_body(random: &mut Random) -> Body {
    let terms = random.size(TERMS).max(1);
    let others = [GLOBAL, LITERAL];
    let kinds: Vec<usize> = (0..terms)
        .map(|_| {
            if random.one_in(6) {
                random.pick(&others)
            } else {
                VARIABLE
            }
        })
        .collect();
    let count = match random.below(40) {
        0 => random.between(150, 514),
        1 => 0,
        _ => random.between(1, 12),
    };
    let mut atoms: Vec<Atom> = (0..count).map(|_| atom(random, terms)).collect();
    if random.one_in(30) {
        let used: usize = atoms.iter().map(|(_, arguments)| arguments.len()).sum();
        let left = ARGUMENTS.saturating_sub(used);
        let arguments = random.between(left.saturating_sub(1), left + 1);
        atoms.push((
            PRIMITIVE,
            (0..arguments).map(|_| random.below(terms)).collect(),
        ));
    }
    body(&atoms, &kinds, random)
}

fn atom(random: &mut Random, terms: usize) -> Atom {
    let kind = random.pick(&[FUNCTION, PRIMITIVE, PRIMITIVE, PRIMITIVE, EQUALITY]);
    let count = match kind {
        _ if random.one_in(80) => random.below(4),
        EQUALITY => 2,
        FUNCTION => random.between(1, 2),
        _ => random.between(1, 4),
    };
    (kind, (0..count).map(|_| random.below(terms)).collect())
}

fn damage(body: &mut Body, random: &mut Random) {
    damage::damage(
        &mut [&mut body.atoms, &mut body.arguments, &mut body.terms],
        &mut [
            &mut body.atom_list,
            &mut body.argument_list,
            &mut body.term_list,
        ],
        random,
    );
}
