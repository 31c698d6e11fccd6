//! Problems from trees of constraints.
use oracle::lent::{AND, ASSIGN, Counts, ENTRY_CELLS, EQ, IMPLIES, IMPOSSIBLE, Lent, XOR};

/// The work room has this many cells for each term and each record.
pub const ROOM_FRAMES: usize = 18;

/// A constraint before it has numbers.
#[derive(Clone)]
pub enum Tree {
    Eq(usize, usize),
    Assign(usize, usize),
    And(Vec<Tree>),
    Xor(Vec<Tree>),
    Impossible(usize, usize),
    Implies(Vec<usize>, Box<Tree>),
}

/// A problem with just the room that it needs.
#[derive(Default)]
pub struct Builder {
    lent: Vec<usize>,
    side: Vec<usize>,
    tops: Vec<usize>,
    range: Vec<usize>,
}

impl Builder {
    fn record(&mut self, kind: usize, values: [usize; 3]) -> usize {
        let number = self.lent.len() / 8;
        let [first, second, third] = values;
        self.lent
            .extend([kind, first, second, third, 0, 0, number + 1, 0]);
        number
    }

    fn part(&mut self, cells: &[usize]) -> usize {
        self.side.extend(cells);
        self.side.len() - cells.len()
    }

    fn add(&mut self, tree: &Tree) -> usize {
        match tree {
            Tree::Eq(x, y) => self.record(EQ, [*x, *y, 0]),
            Tree::Assign(x, s) => self.record(ASSIGN, [*x, *s, 0]),
            Tree::Impossible(head, expected) => self.record(IMPOSSIBLE, [*head, *expected, 0]),
            Tree::And(children) => self.among(AND, children),
            Tree::Xor(children) => self.among(XOR, children),
            Tree::Implies(watched, child) => {
                let child = self.add(child);
                let start = self.part(watched);
                self.record(IMPLIES, [start, watched.len(), child])
            }
        }
    }

    fn among(&mut self, kind: usize, children: &[Tree]) -> usize {
        let numbers: Vec<usize> = children.iter().map(|child| self.add(child)).collect();
        let start = self.part(&numbers);
        self.record(kind, [start, numbers.len(), 0])
    }

    pub fn top(&mut self, tree: &Tree) {
        let number = self.add(tree);
        self.tops.push(number);
    }

    pub fn ask(&mut self, term: usize, place: usize) {
        self.range.extend([term, place]);
    }

    pub fn records(&self) -> usize {
        self.lent.len() / 8
    }

    /// Cells of the side list so far.
    pub fn side(&self) -> usize {
        self.side.len()
    }

    pub fn lent(self, terms: usize, sorts: usize) -> Lent {
        let records = self.lent.len() / 8;
        Lent {
            line: String::new(),
            counts: Counts {
                records,
                side: self.side.len(),
                tops: self.tops.len(),
                range: self.range.len() / 2,
                terms,
                sorts,
            },
            work: ROOM_FRAMES * (terms + records),
            sort_list: terms,
            errors: records * ENTRY_CELLS,
            record_list: self.lent,
            side_list: self.side,
            top_list: self.tops,
            range_list: self.range,
        }
    }
}
