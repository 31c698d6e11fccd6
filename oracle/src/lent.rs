//! A problem as it is lent: counts, flat lists and the buffers' sizes, read from one line.

pub const RECORD_CELLS: usize = 8;
pub const RANGE_CELLS: usize = 2;
pub const ENTRY_CELLS: usize = 8;

pub const EQ: usize = 0;
pub const ASSIGN: usize = 1;
pub const AND: usize = 2;
pub const XOR: usize = 3;
pub const IMPOSSIBLE: usize = 4;
pub const IMPLIES: usize = 5;

/// The counts as the caller claims them.
#[derive(Clone, Copy, Debug, PartialEq, Eq)]
pub struct Counts {
    pub records: usize,
    pub side: usize,
    pub tops: usize,
    pub range: usize,
    pub terms: usize,
    pub sorts: usize,
}

#[derive(Clone, Debug)]
pub struct Lent {
    /// The line that the problem was read from, for messages.
    pub line: String,
    pub counts: Counts,
    /// How many cells the work room, the sort list and the error list have.
    pub work: usize,
    pub sort_list: usize,
    pub errors: usize,
    /// The four lists, cell by cell.
    pub record_list: Vec<usize>,
    pub side_list: Vec<usize>,
    pub top_list: Vec<usize>,
    pub range_list: Vec<usize>,
}

/// The cells of a record that are ever read.
#[derive(Clone, Copy, Debug)]
pub struct Record {
    pub kind: usize,
    pub v1: usize,
    pub v2: usize,
    pub v3: usize,
    pub place: usize,
}

#[derive(Clone, Copy, Debug)]
pub struct RangeEntry {
    pub term: usize,
    pub place: usize,
}

impl Lent {
    /// The record of that number; the list must reach that far.
    pub fn record(&self, number: usize) -> Record {
        let cells = &self.record_list[number * RECORD_CELLS..][..RECORD_CELLS];
        Record {
            kind: cells[0],
            v1: cells[1],
            v2: cells[2],
            v3: cells[3],
            place: cells[6],
        }
    }

    /// The part of the side list that a record names by its first two values.
    pub fn part(&self, record: Record) -> &[usize] {
        &self.side_list[record.v1..][..record.v2]
    }

    pub fn tops(&self) -> &[usize] {
        &self.top_list[..self.counts.tops]
    }

    pub fn range(&self) -> impl Iterator<Item = RangeEntry> + '_ {
        let entries = self.range_list.chunks_exact(RANGE_CELLS);
        entries.take(self.counts.range).map(|cells| RangeEntry {
            term: cells[0],
            place: cells[1],
        })
    }

    /// The records that a record names as its own.
    pub fn children(&self, record: Record) -> Vec<usize> {
        match record.kind {
            AND | XOR => self.part(record).to_vec(),
            IMPLIES => vec![record.v3],
            _ => vec![],
        }
    }

    pub fn parse(line: &str) -> Result<Lent, String> {
        let mut numbers = Numbers::of(line);
        let lent = Lent {
            line: line.to_owned(),
            counts: numbers.counts()?,
            work: numbers.next()?,
            sort_list: numbers.next()?,
            errors: numbers.next()?,
            record_list: numbers.list()?,
            side_list: numbers.list()?,
            top_list: numbers.list()?,
            range_list: numbers.list()?,
        };
        numbers.end()?;
        Ok(lent)
    }
}

/// The numbers of a line, in order.
pub(crate) struct Numbers<'a>(std::str::Split<'a, char>);

impl<'a> Numbers<'a> {
    pub(crate) fn of(line: &'a str) -> Self {
        Numbers(line.split(' '))
    }

    pub(crate) fn next(&mut self) -> Result<usize, String> {
        let word = self.0.next().ok_or("the line ends too soon")?;
        word.parse().map_err(|e| format!("{word:?}: {e}"))
    }

    /// A length and then so many numbers.
    pub(crate) fn list(&mut self) -> Result<Vec<usize>, String> {
        let length = self.next()?;
        (0..length).map(|_| self.next()).collect()
    }

    /// A problem's six counts.
    pub(crate) fn counts(&mut self) -> Result<Counts, String> {
        Ok(Counts {
            records: self.next()?,
            side: self.next()?,
            tops: self.next()?,
            range: self.next()?,
            terms: self.next()?,
            sorts: self.next()?,
        })
    }

    pub(crate) fn end(&mut self) -> Result<(), String> {
        match self.0.next() {
            None => Ok(()),
            Some(word) => Err(format!("a word too many: {word:?}")),
        }
    }
}
