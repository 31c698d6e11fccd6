//! A rule's body as it is lent to the groundedness check, and its refusals 1, 2, 5 and 6, written from the project's scope
//! document. The crate has none of these tests.
use crate::calls::lent::{LITERAL, TERM_CELLS};
use crate::calls::refusals::MOST_ARGUMENTS;
use crate::lent::{ENTRY_CELLS, Numbers};
use crate::refusals::{MOST_RECORDS, MOST_TERMS, WORK_CELLS_EACH, reaches_past};

pub const ATOM_CELLS: usize = 8;

pub const FUNCTION_ATOM: usize = 0;
pub const PRIMITIVE_ATOM: usize = 1;
pub const EQUALITY: usize = 2;

#[derive(Clone, Debug)]
pub struct Body {
    /// The line that the body was read from, for messages.
    pub line: String,
    /// Counts as claimed.
    pub atoms: usize,
    pub arguments: usize,
    pub terms: usize,
    /// The rule's place.
    pub place: usize,
    /// How many cells the work room, the sort list and the error list have.
    pub work: usize,
    pub sort_list: usize,
    pub errors: usize,
    pub atom_list: Vec<usize>,
    pub argument_list: Vec<usize>,
    pub term_list: Vec<usize>,
}

/// The cells of an atom that are ever read.
#[derive(Clone, Copy, Debug)]
pub struct BodyAtom {
    pub kind: usize,
    pub start: usize,
    pub count: usize,
}

impl Body {
    pub fn parse(line: &str) -> Result<Body, String> {
        let mut numbers = Numbers::of(line);
        let body = Body {
            line: line.to_owned(),
            atoms: numbers.next()?,
            arguments: numbers.next()?,
            terms: numbers.next()?,
            place: numbers.next()?,
            work: numbers.next()?,
            sort_list: numbers.next()?,
            errors: numbers.next()?,
            atom_list: numbers.list()?,
            argument_list: numbers.list()?,
            term_list: numbers.list()?,
        };
        numbers.end()?;
        Ok(body)
    }

    /// The atoms in order; the list must reach that far.
    pub fn all_atoms(&self) -> impl Iterator<Item = BodyAtom> + '_ {
        let entries = self.atom_list.chunks_exact(ATOM_CELLS);
        entries.take(self.atoms).map(|cells| BodyAtom {
            kind: cells[0],
            start: cells[2],
            count: cells[3],
        })
    }

    pub fn arguments_of(&self, atom: BodyAtom) -> &[usize] {
        &self.argument_list[atom.start..][..atom.count]
    }

    pub fn kind_of(&self, term: usize) -> usize {
        self.term_list[term * TERM_CELLS]
    }
}

/// The first of 1, 2, 5 and 6 that applies.
pub fn refusal(body: &Body) -> Option<usize> {
    type Test = fn(&Body) -> bool;
    let tests: [(usize, Test); 4] = [
        (1, a_count_is_too_large),
        (2, a_value_is_out_of_range),
        (5, work_room_is_too_small),
        (6, an_answer_has_no_room),
    ];
    tests.into_iter().find(|(_, t)| t(body)).map(|(n, _)| n)
}

fn a_count_is_too_large(body: &Body) -> bool {
    body.atoms > body.atom_list.len() / ATOM_CELLS
        || body.arguments > MOST_ARGUMENTS
        || body.arguments > body.argument_list.len()
        || body.terms > MOST_TERMS
        || body.terms > body.term_list.len() / TERM_CELLS
}

/// No table of sorts is lent, so a literal's sort is not looked at.
fn a_value_is_out_of_range(body: &Body) -> bool {
    let arguments = &body.argument_list[..body.arguments];
    let bad_atom = |atom: BodyAtom| {
        atom.kind > EQUALITY || reaches_past(atom.start, atom.count, body.arguments)
    };
    body.all_atoms().any(bad_atom)
        || arguments.iter().any(|&term| term >= body.terms)
        || (0..body.terms).any(|term| body.kind_of(term) > LITERAL)
}

/// Records are taken as 512, whatever the body gives.
fn work_room_is_too_small(body: &Body) -> bool {
    body.work < WORK_CELLS_EACH * (body.terms + MOST_RECORDS)
}

fn an_answer_has_no_room(body: &Body) -> bool {
    body.sort_list < body.terms || body.errors / ENTRY_CELLS < MOST_RECORDS
}
