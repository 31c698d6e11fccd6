//! Numbers of the flat lists, as docs/LAYOUTS.md of the repository has them: cells of an entry, largest counts, kinds
//! that two modules share, answer numbers. And the lists that solving writes.

pub(crate) const RECORD_CELLS: usize = 8;
pub(crate) const RANGE_CELLS: usize = 2;
pub(crate) const TERM_CELLS: usize = 2;
pub(crate) const ERROR_CELLS: usize = 8;
pub(crate) const SIGNATURE_CELLS: usize = 10;
pub(crate) const CALL_CELLS: usize = 8;
pub(crate) const ATOM_CELLS: usize = 8;
/// The work room has so many cells for each term and each record.
const WORK_FRAMES: usize = 18;

pub(crate) const MAX_RECORDS: usize = 512;
pub(crate) const MAX_SIDE: usize = 2048;
pub(crate) const MAX_TOPS: usize = 512;
pub(crate) const MAX_RANGE: usize = 256;
pub(crate) const MAX_TERMS: usize = 256;
/// Contexts are numbered from 0, and there are so many.
pub(crate) const CONTEXTS: usize = 8;

pub(crate) const TERM_VARIABLE: usize = 0;
pub(crate) const TERM_GLOBAL: usize = 1;
pub(crate) const TERM_LITERAL: usize = 2;

pub(crate) const DONE: usize = 0;
pub(crate) const TOO_MANY: usize = 1;
pub(crate) const OUT_OF_RANGE: usize = 2;
pub(crate) const NO_TREES: usize = 3;
pub(crate) const TOO_DEEP: usize = 4;
pub(crate) const NO_ARGUMENTS: usize = 7;
pub(crate) const NO_SORTS: usize = 8;
pub(crate) const UNSORTED_GLOBAL: usize = 9;
pub(crate) const FULL: usize = 10;
pub(crate) const UNBOUND_FUNCTION: usize = 20;
pub(crate) const SET_CONSTRUCTOR: usize = 21;
pub(crate) const MISMATCH: usize = 30;
pub(crate) const OPEN: usize = 31;
pub(crate) const NONE_FITS: usize = 32;
pub(crate) const ARITY: usize = 33;
pub(crate) const UNGROUNDED: usize = 40;

/// The lists that solving writes.
pub(crate) struct Room {
    pub(crate) work: Vec<usize>,
    pub(crate) sort_list: Vec<usize>,
    pub(crate) errors: Vec<usize>,
}

impl Room {
    /// Enough for so many terms and records. Beyond the largest counts the library refuses before it looks at any room,
    /// so no more is made than those need.
    pub(crate) fn new(terms: usize, records: usize) -> Room {
        let terms = terms.min(MAX_TERMS);
        let records = records.min(MAX_RECORDS);
        Room {
            work: vec![0; WORK_FRAMES * (terms + records)],
            sort_list: vec![0; terms],
            errors: vec![0; ERROR_CELLS * records],
        }
    }
}
