//! The flat lists of a problem.
use crate::layout::{
    Room, DONE, MAX_RANGE, MAX_RECORDS, MAX_SIDE, MAX_TERMS, MAX_TOPS, RANGE_CELLS, RECORD_CELLS,
    TERM_CELLS, TERM_VARIABLE,
};
use crate::number::{Head, Place};
use crate::raw::{Added, Counts};
use crate::refusal::Refusal;

/// A problem's lists, with how many terms and sorts there are.
#[derive(Clone, Debug, Default, PartialEq, Eq)]
pub(crate) struct Lists {
    sorts: usize,
    /// How many terms there are. A caller may name any number.
    term_count: usize,
    /// Kind and value of each term, but of no more than there may be: with more of them every call is refused.
    pub(crate) terms: Vec<usize>,
    pub(crate) records: Vec<usize>,
    pub(crate) side: Vec<usize>,
    pub(crate) tops: Vec<usize>,
    pub(crate) range: Vec<usize>,
}

impl Lists {
    /// With so many variables as first terms.
    pub(crate) fn new(variables: usize, sorts: usize) -> Lists {
        Lists {
            sorts,
            term_count: variables,
            terms: vec![TERM_VARIABLE; term_cells(variables)],
            ..Lists::default()
        }
    }

    pub(crate) fn counts(&self) -> Counts {
        Counts {
            records: self.record_count(),
            side: self.side.len(),
            tops: self.tops.len(),
            range: self.range.len() / RANGE_CELLS,
            terms: self.term_count,
            sorts: self.sorts,
        }
    }

    pub(crate) fn record_count(&self) -> usize {
        self.records.len() / RECORD_CELLS
    }

    /// One more term; its number. The largest number stands for all that are not below it: it is refused in any case.
    pub(crate) fn add_term(&mut self, kind: usize, value: usize) -> usize {
        let number = self.term_count;
        if number < MAX_TERMS {
            self.terms.extend([kind, value]);
        }
        self.term_count = number.saturating_add(1);
        number
    }

    /// One more record; its number.
    pub(crate) fn add_record(&mut self, kind: usize, values: [usize; 3], place: Place) -> usize {
        let number = self.record_count();
        let [first, second, third] = values;
        self.records
            .extend([kind, first, second, third, 0, 0, place.0, 0]);
        number
    }

    /// Cells at the end of the side list; where they start.
    pub(crate) fn add_side(&mut self, cells: impl Iterator<Item = usize>) -> usize {
        let start = self.side.len();
        self.side.extend(cells);
        start
    }

    /// The room that solving needs.
    pub(crate) fn room(&self) -> Room {
        Room::new(self.term_count, self.record_count())
    }

    /// The counts, with lists made as long as a call may fill them.
    pub(crate) fn stretch(&mut self) -> Counts {
        let counts = self.counts();
        let largest = [
            (&mut self.records, MAX_RECORDS * RECORD_CELLS),
            (&mut self.side, MAX_SIDE),
            (&mut self.tops, MAX_TOPS),
            (&mut self.range, MAX_RANGE * RANGE_CELLS),
            (&mut self.terms, MAX_TERMS * TERM_CELLS),
        ];
        for (list, cells) in largest {
            list.resize(cells.max(list.len()), 0);
        }
        counts
    }

    /// Cuts the lists to the counts after a call, which are those before it where it was refused.
    pub(crate) fn keep(&mut self, added: Added) -> Result<(), Refusal> {
        let counts = added.counts;
        self.records.truncate(counts.records * RECORD_CELLS);
        self.side.truncate(counts.side);
        self.tops.truncate(counts.tops);
        self.range.truncate(counts.range * RANGE_CELLS);
        self.terms.truncate(term_cells(counts.terms));
        self.term_count = counts.terms;
        match added.number {
            DONE => Ok(()),
            number => Err(Refusal::at(number, Head(added.head), Place(added.place))),
        }
    }
}

/// The cells that are kept for so many terms.
fn term_cells(terms: usize) -> usize {
    terms.min(MAX_TERMS) * TERM_CELLS
}
