//! Flat lists, as the page has them.
use crate::JUNK;
use sortlib::raw::Counts;

/// A problem's lists, an entry after another.
#[derive(Default)]
pub struct Flat {
    pub sorts: usize,
    pub terms: Vec<[usize; 2]>,
    pub records: Vec<[usize; 8]>,
    pub side: Vec<usize>,
    pub tops: Vec<usize>,
    pub range: Vec<[usize; 2]>,
}

/// The same as a call is lent them: as long as it may fill them, with junk behind the counts.
pub struct Lists {
    pub terms: Vec<usize>,
    pub records: Vec<usize>,
    pub side: Vec<usize>,
    pub tops: Vec<usize>,
    pub range: Vec<usize>,
}

fn stretched(mut cells: Vec<usize>, largest: usize) -> Vec<usize> {
    cells.resize(largest.max(cells.len()), JUNK);
    cells
}

fn entries<const CELLS: usize>(cells: &[usize], count: usize) -> Vec<[usize; CELLS]> {
    let all = cells.chunks_exact(CELLS).take(count);
    all.map(|entry| entry.try_into().expect("so many cells"))
        .collect()
}

impl Flat {
    pub fn counts(&self) -> Counts {
        Counts {
            records: self.records.len(),
            side: self.side.len(),
            tops: self.tops.len(),
            range: self.range.len(),
            terms: self.terms.len(),
            sorts: self.sorts,
        }
    }

    pub fn lists(&self) -> Lists {
        Lists {
            terms: stretched(self.terms.concat(), 256 * 2),
            records: stretched(self.records.concat(), 512 * 8),
            side: stretched(self.side.clone(), 2048),
            tops: stretched(self.tops.clone(), 512),
            range: stretched(self.range.concat(), 256 * 2),
        }
    }

    pub fn keep(&mut self, counts: Counts, lists: Lists) {
        self.terms = entries(&lists.terms, counts.terms);
        self.records = entries(&lists.records, counts.records);
        self.side = lists.side[..counts.side].to_vec();
        self.tops = lists.tops[..counts.tops].to_vec();
        self.range = entries(&lists.range, counts.range);
    }
}

/// A query's or actions' flat lists.
#[derive(Default)]
pub struct Calls {
    pub calls: Vec<[usize; 8]>,
    pub arguments: Vec<usize>,
}

impl Calls {
    pub fn with_part(&mut self, kind: usize, head: usize, part: &[usize], x: usize, place: usize) {
        let (start, count) = (self.arguments.len(), part.len());
        self.calls
            .push([kind, head, start, count, x, JUNK, place, JUNK]);
        self.arguments.extend(part);
    }

    pub fn with_two(&mut self, kind: usize, x: usize, y: usize, place: usize) {
        self.calls.push([kind, JUNK, JUNK, JUNK, x, y, place, JUNK]);
    }
}

/// 0 for none, else the value + 1; the largest number is far out of range either way.
pub fn present(value: Option<usize>) -> usize {
    value.map_or(0, |value| value.saturating_add(1))
}
