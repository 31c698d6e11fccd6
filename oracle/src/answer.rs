//! What a call of solve leaves: its result and every cell of the three buffers.
use crate::lent::{ENTRY_CELLS, Lent};
use crate::refusals::refusal;
use crate::solving::{Ending, Entry, solve};
use std::fmt;

const OPEN: usize = 31;

/// What the buffers hold before the call.
const WORK_FILL: usize = 9;
const SORT_LIST_FILL: usize = 8;
const ERRORS_FILL: usize = 7;

#[derive(Clone, Debug, PartialEq, Eq)]
pub struct Answer {
    pub number: usize,
    pub passes: usize,
    pub term: usize,
    pub place: usize,
    pub work: Vec<usize>,
    pub sort_list: Vec<usize>,
    pub errors: Vec<usize>,
}

pub fn answer(lent: &Lent) -> Answer {
    let mut answer = Answer::untouched(lent.work, lent.sort_list, lent.errors);
    match refusal(lent) {
        Some(number) => answer.number = number,
        None => fill(lent, &mut answer),
    }
    answer
}

impl Answer {
    /// Buffers of so many cells as they are before the call.
    pub(crate) fn untouched(work: usize, sort_list: usize, errors: usize) -> Answer {
        Answer {
            number: 0,
            passes: 0,
            term: 0,
            place: 0,
            work: vec![WORK_FILL; work],
            sort_list: vec![SORT_LIST_FILL; sort_list],
            errors: vec![ERRORS_FILL; errors],
        }
    }
}

/// Past the refusals: the whole work room is zeroed, and so are the error list's first entries, one for each record.
fn fill(lent: &Lent, answer: &mut Answer) {
    let outcome = solve(lent);
    answer.passes = outcome.passes;
    answer.work.fill(0);
    let errors = &mut answer.errors[..lent.counts.records * ENTRY_CELLS];
    errors.fill(0);
    match outcome.ending {
        Ending::Answered(cells) => answer.sort_list[..cells.len()].copy_from_slice(&cells),
        Ending::Open { term, place } => {
            (answer.number, answer.term, answer.place) = (OPEN, term, place);
        }
        Ending::Conflict(entries) => {
            answer.number = entries[0].number;
            let cells: Vec<usize> = entries.iter().flat_map(entry_cells).collect();
            // More entries than records would end the run here.
            errors[..cells.len()].copy_from_slice(&cells);
        }
    }
}

fn entry_cells(entry: &Entry) -> [usize; ENTRY_CELLS] {
    let [v1, v2, v3] = entry.values;
    [entry.number, entry.record, entry.place, v1, v2, v3, 0, 0]
}

impl fmt::Display for Answer {
    fn fmt(&self, f: &mut fmt::Formatter<'_>) -> fmt::Result {
        let (number, passes) = (self.number, self.passes);
        write!(f, "{number} {passes} {} {}", self.term, self.place)?;
        write_runs(f, "work", &self.work)?;
        write_runs(f, "sorts", &self.sort_list)?;
        write_runs(f, "errors", &self.errors)
    }
}

pub(crate) fn write_runs(f: &mut fmt::Formatter<'_>, buffer: &str, cells: &[usize]) -> fmt::Result {
    write!(f, " | {buffer}")?;
    for run in cells.chunk_by(|a, b| a == b) {
        write!(f, " {}x{}", run[0], run.len())?;
    }
    Ok(())
}
