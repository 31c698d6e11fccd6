//! Constraints as trees, and how they are laid out as records: children first, in order, then their parent; parts of the
//! side list are appended in the same order. Cells that no kind reads are 0.
use super::lent::{Call, TERM_CELLS, VARIABLE};
use crate::lent::*;
use crate::refusals::{MOST_RANGE, MOST_RECORDS, MOST_SIDE, MOST_TERMS, MOST_TOPS};

#[derive(Clone, Debug, PartialEq, Eq)]
pub enum Tree {
    Eq(usize, usize),
    Assign(usize, usize),
    And(Vec<Tree>),
    Xor(Vec<Tree>),
    Impossible { head: usize, expected: usize },
    Implies(Vec<usize>, Box<Tree>),
}

/// A problem's lists as far as they are in use, and the terms.
#[derive(Clone, Debug, Default)]
pub struct Layout {
    pub records: Vec<[usize; RECORD_CELLS]>,
    pub side: Vec<usize>,
    pub tops: Vec<usize>,
    pub range: Vec<[usize; RANGE_CELLS]>,
    pub terms: Vec<[usize; TERM_CELLS]>,
}

impl Layout {
    /// What the call is lent, within the counts.
    pub fn of(call: &Call) -> Layout {
        let problem = &call.problem;
        let counts = problem.counts;
        Layout {
            records: entries(&problem.record_list, counts.records),
            side: problem.side_list[..counts.side].to_vec(),
            tops: problem.top_list[..counts.tops].to_vec(),
            range: entries(&problem.range_list, counts.range),
            terms: entries(&call.term_list, counts.terms),
        }
    }

    pub fn add_top(&mut self, tree: &Tree, place: usize) {
        let number = self.add(tree, place);
        self.tops.push(number);
    }

    /// The number of the record that stands for the tree.
    fn add(&mut self, tree: &Tree, place: usize) -> usize {
        let (kind, [v1, v2, v3]) = match tree {
            Tree::Eq(x, y) => (EQ, [*x, *y, 0]),
            Tree::Assign(x, sort) => (ASSIGN, [*x, *sort, 0]),
            Tree::And(children) => (AND, self.add_children(children, place)),
            Tree::Xor(children) => (XOR, self.add_children(children, place)),
            Tree::Impossible { head, expected } => (IMPOSSIBLE, [*head, *expected, 0]),
            Tree::Implies(watched, child) => {
                let child = self.add(child, place);
                let [start, count] = self.add_part(watched);
                (IMPLIES, [start, count, child])
            }
        };
        self.records.push([kind, v1, v2, v3, 0, 0, place, 0]);
        self.records.len() - 1
    }

    fn add_children(&mut self, children: &[Tree], place: usize) -> [usize; 3] {
        let numbers: Vec<usize> = children.iter().map(|c| self.add(c, place)).collect();
        let [start, count] = self.add_part(&numbers);
        [start, count, 0]
    }

    fn add_part(&mut self, cells: &[usize]) -> [usize; 2] {
        let start = self.side.len();
        self.side.extend(cells);
        [start, cells.len()]
    }

    /// A term enters the range once, with its first place.
    pub fn enter(&mut self, term: usize, place: usize) {
        if self.range.iter().all(|entry| entry[0] != term) {
            self.range.push([term, place]);
        }
    }

    /// The number of a fresh term, a variable.
    pub fn add_fresh_term(&mut self) -> usize {
        self.terms.push([VARIABLE, 0]);
        self.terms.len() - 1
    }

    /// 10: a largest size is passed.
    pub fn passes_a_size(&self) -> bool {
        self.records.len() > MOST_RECORDS
            || self.side.len() > MOST_SIDE
            || self.tops.len() > MOST_TOPS
            || self.range.len() > MOST_RANGE
            || self.terms.len() > MOST_TERMS
    }

    /// 10: a list that the call is lent is passed.
    pub fn passes_a_list(&self, call: &Call) -> bool {
        let problem = &call.problem;
        self.records.len() > problem.record_list.len() / RECORD_CELLS
            || self.side.len() > problem.side_list.len()
            || self.tops.len() > problem.top_list.len()
            || self.range.len() > problem.range_list.len() / RANGE_CELLS
            || self.terms.len() > call.term_list.len() / TERM_CELLS
    }

    pub fn counts(&self, sorts: usize) -> Counts {
        Counts {
            records: self.records.len(),
            side: self.side.len(),
            tops: self.tops.len(),
            range: self.range.len(),
            terms: self.terms.len(),
            sorts,
        }
    }

    /// The problem with lists and buffers just as large as solving asks for.
    pub fn problem(&self, sorts: usize, line: &str) -> Lent {
        let counts = self.counts(sorts);
        Lent {
            line: line.to_owned(),
            work: crate::refusals::WORK_CELLS_EACH * (counts.terms + counts.records),
            sort_list: counts.terms,
            errors: ENTRY_CELLS * counts.records,
            counts,
            record_list: self.records.concat(),
            side_list: self.side.clone(),
            top_list: self.tops.clone(),
            range_list: self.range.concat(),
        }
    }

    /// Writes what is in use over the front of the call's lists; cells past it stay as they were.
    pub fn write_to(&self, call: &mut Call) {
        call.problem.counts = self.counts(call.problem.counts.sorts);
        write_front(&mut call.problem.record_list, &self.records.concat());
        write_front(&mut call.problem.side_list, &self.side);
        write_front(&mut call.problem.top_list, &self.tops);
        write_front(&mut call.problem.range_list, &self.range.concat());
        write_front(&mut call.term_list, &self.terms.concat());
    }
}

fn entries<const CELLS: usize>(list: &[usize], count: usize) -> Vec<[usize; CELLS]> {
    let (entries, _) = list.as_chunks();
    entries[..count].to_vec()
}

fn write_front(list: &mut [usize], cells: &[usize]) {
    list[..cells.len()].copy_from_slice(cells);
}
