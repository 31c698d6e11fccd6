//! A plain solver over the same flat lists, written for measuring: no refusals, no proofs, updates in place but for an Xor
//! that is not decided yet, whose trials work on copies.
use oracle::lent::{AND, ASSIGN, EQ, IMPOSSIBLE, Lent, XOR};

const ENTRY_CELLS: usize = 8;

/// The result and the two lists that a caller reads.
pub struct Solved {
    pub number: usize,
    pub passes: usize,
    pub term: usize,
    pub place: usize,
    pub sort_list: Vec<usize>,
    pub errors: Vec<usize>,
}

/// The sort of each term (0 for none, else sort + 1) and the state of each record: an Xor's only child + 1, an Implies's 1.
#[derive(Clone)]
struct Frame {
    sorts: Vec<usize>,
    states: Vec<usize>,
}

struct Solver<'a> {
    records: &'a [usize],
    side: &'a [usize],
}

/// Whether something changed; or the error's entries, in preorder.
type Updated = Result<bool, Vec<usize>>;

pub fn solve(lent: &Lent) -> Solved {
    let solver = Solver {
        records: &lent.record_list,
        side: &lent.side_list,
    };
    let mut frame = Frame {
        sorts: vec![0; lent.counts.terms],
        states: vec![0; lent.counts.records],
    };
    let mut solved = Solved {
        number: 0,
        passes: 0,
        term: 0,
        place: 0,
        sort_list: vec![],
        errors: vec![0; lent.counts.records * ENTRY_CELLS],
    };
    loop {
        solved.passes += 1;
        match solver.each(lent.tops(), &mut frame) {
            Ok(true) => {}
            Ok(false) => break,
            Err(entries) => {
                solved.number = entries[0];
                solved.errors[..entries.len()].copy_from_slice(&entries);
                return solved;
            }
        }
    }
    if let Some(open) = lent.range().find(|entry| frame.sorts[entry.term] == 0) {
        (solved.number, solved.term, solved.place) = (31, open.term, open.place);
    } else {
        solved.sort_list = frame.sorts;
    }
    solved
}

impl Solver<'_> {
    fn each(&self, children: &[usize], frame: &mut Frame) -> Updated {
        let mut changed = false;
        for &child in children {
            changed |= self.update(child, frame)?;
        }
        Ok(changed)
    }

    fn update(&self, number: usize, frame: &mut Frame) -> Updated {
        let record = &self.records[number * 8..][..8];
        let (first, second, place) = (record[1], record[2], record[6]);
        let entry = |kind, a, b, c| Err(vec![kind, number, place, a, b, c, 0, 0]);
        match record[0] {
            EQ => match (frame.sorts[first], frame.sorts[second]) {
                (0, 0) => Ok(false),
                (0, sort) => Ok(give(frame, first, sort)),
                (sort, 0) => Ok(give(frame, second, sort)),
                (a, b) if a == b => Ok(false),
                (a, b) => entry(30, first, a - 1, b - 1),
            },
            ASSIGN => match frame.sorts[first] {
                0 => Ok(give(frame, first, second + 1)),
                held if held == second + 1 => Ok(false),
                held => entry(30, first, second, held - 1),
            },
            AND => self.each(&self.side[first..][..second], frame),
            XOR => self.xor(number, place, &self.side[first..][..second], frame),
            IMPOSSIBLE => entry(33, first, second, 0),
            _ => self.implies(number, &self.side[first..][..second], record[3], frame),
        }
    }

    fn implies(
        &self,
        number: usize,
        watched: &[usize],
        child: usize,
        frame: &mut Frame,
    ) -> Updated {
        if frame.states[number] == 1 {
            return self.update(child, frame);
        }
        if watched.iter().any(|&term| frame.sorts[term] == 0) {
            return Ok(false);
        }
        frame.states[number] = 1;
        self.update(child, frame)?;
        Ok(true)
    }

    fn xor(&self, number: usize, place: usize, children: &[usize], frame: &mut Frame) -> Updated {
        let narrowed = frame.states[number];
        if narrowed != 0 {
            let child = children[narrowed - 1];
            return self
                .update(child, frame)
                .map_err(|inner| none(number, place, 1, &inner));
        }
        let mut kept: Option<(usize, bool, Frame)> = None;
        let mut errors = vec![];
        for (i, &child) in children.iter().enumerate() {
            let mut trial = frame.clone();
            match self.update(child, &mut trial) {
                Err(entries) => errors.extend(entries),
                Ok(_) if kept.is_some() => return Ok(false),
                Ok(changed) => kept = Some((i, changed, trial)),
            }
        }
        match kept {
            None => Err(none(number, place, children.len(), &errors)),
            Some((i, changed, trial)) => {
                *frame = trial;
                frame.states[number] = i + 1;
                Ok(changed)
            }
        }
    }
}

fn give(frame: &mut Frame, term: usize, sort: usize) -> bool {
    frame.sorts[term] = sort;
    true
}

fn none(number: usize, place: usize, children: usize, inner: &[usize]) -> Vec<usize> {
    let mut entries = vec![32, number, place, children, 0, 0, 0, 0];
    entries.extend(inner);
    entries
}
