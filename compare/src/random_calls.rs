//! Random generator calls: alone, in chains on one problem, near the largest sizes, and damaged.
use crate::calls::{compare, through_the_library};
use crate::damage;
use crate::random::Random;
use crate::spread::spread;
use crate::tally::Tally;
use oracle::calls::lent::*;
use oracle::calls::{Call, Caller};
use oracle::lent::{ASSIGN, Counts, Lent};

const HEADS: usize = 3;

/// The largest sizes.
const RECORDS: usize = 512;
const SIDE: usize = 2048;
const TOPS: usize = 512;
const RANGE: usize = 256;
const TERMS: usize = 256;
const SIGNATURES: usize = 256;
const ARGUMENTS: usize = 2048;

/// Kinds of actions, by number.
const LET: usize = 0;
const SET: usize = 1;
const CHANGE: usize = 2;
const UNION: usize = 3;
const LET_ATOM_TERM: usize = 4;

pub fn random(count: u64) -> Tally {
    spread("calls at random", count, |seed, tally| {
        one(&mut Random::new(seed + 1), tally);
    })
}

pub fn one(random: &mut Random, tally: &mut Tally) {
    let which = random.below(4);
    if which == 0 {
        return chain(random, tally);
    }
    let mut maker = Maker::new(random);
    if which == 1 {
        maker.grow();
    }
    let mut call = maker.fitted();
    if which == 2 {
        damage(&mut call, random);
    }
    compare(&mut Caller::default(), &call, tally);
}

/// Calls of which each is lent what the one before it left.
fn chain(random: &mut Random, tally: &mut Tally) {
    let mut maker = Maker::new(random);
    let mut caller = Caller::default();
    for _ in 0..maker.random.between(2, 5) {
        let call = maker.fitted();
        let answer = compare(&mut caller, &call, tally);
        if answer.number == 0 {
            maker.carry_on(&answer.after);
        }
    }
}

fn damage(call: &mut Call, random: &mut Random) {
    let problem = &mut call.problem;
    let counts = &mut problem.counts;
    let mut some_counts = vec![
        &mut counts.records,
        &mut counts.side,
        &mut counts.tops,
        &mut counts.range,
        &mut counts.terms,
        &mut counts.sorts,
    ];
    let mut lists = vec![
        &mut call.term_list,
        &mut problem.record_list,
        &mut problem.side_list,
        &mut problem.top_list,
        &mut problem.range_list,
    ];
    if call.which == Which::Local {
        // its three numbers stay three; it is lent no tables
        damage::change(&mut call.item_list, random);
    } else {
        some_counts.extend([
            &mut call.signatures,
            &mut call.signature_sorts,
            &mut call.globals,
            &mut call.items,
            &mut call.arguments,
            &mut call.context,
        ]);
        lists.extend([
            &mut call.signature_list,
            &mut call.signature_sort_list,
            &mut call.global_list,
            &mut call.argument_list,
            &mut call.item_list,
        ]);
    }
    damage::damage(&mut some_counts, &mut lists, random);
}

/// Tables, terms, the problem so far, and calls over them.
struct Maker<'a> {
    random: &'a mut Random,
    context: usize,
    signatures: Vec<usize>,
    signature_sorts: Vec<usize>,
    globals: Vec<usize>,
    terms: Vec<[usize; 2]>,
    problem: Lent,
    most_items: usize,
}

impl<'a> Maker<'a> {
    fn new(random: &'a mut Random) -> Maker<'a> {
        let context = random.below(8);
        let sorts = random.between(1, 4);
        let mut maker = Maker {
            random,
            context,
            signatures: vec![],
            signature_sorts: vec![],
            globals: vec![],
            terms: vec![],
            problem: nothing(sorts),
            most_items: 4,
        };
        for _ in 0..maker.random.between(2, 6) {
            maker.add_signature();
        }
        for _ in 0..maker.random.below(4) {
            let sort = maker.sort() + 1;
            let cell = if maker.random.one_in(10) { 0 } else { sort };
            maker.globals.push(cell);
        }
        maker.terms.push([VARIABLE, 9]);
        for _ in 0..maker.random.between(1, 5) {
            maker.add_term();
        }
        maker
    }

    /// One of the sizes comes near its limit: signatures, terms, or what the problem has already.
    fn grow(&mut self) {
        match self.random.below(5) {
            0 => {
                let count = self.random.between(SIGNATURES - 1, SIGNATURES + 1);
                while self.signatures.len() / SIGNATURE_CELLS < count {
                    self.add_signature();
                }
            }
            1 => {
                let count = self.random.between(TERMS - 3, TERMS + 1);
                while self.terms.len() < count {
                    self.add_term();
                }
            }
            2 => {
                let count = self.random.between(RECORDS - 12, RECORDS + 1);
                for _ in 0..count {
                    self.add_record();
                }
            }
            3 => {
                while self.terms.len() < TERMS {
                    self.add_term();
                }
                let count = self.random.between(RANGE - 5, RANGE + 1);
                for place in 0..count {
                    self.problem.range_list.extend([place % TERMS, place]);
                }
                self.problem.counts.range = count;
            }
            _ => self.most_items = 300,
        }
    }

    fn add_record(&mut self) {
        let (term, sort) = (self.term(), self.sort());
        let counts = &mut self.problem.counts;
        let record = [ASSIGN, term, sort, 0, 0, 0, 5, 0];
        self.problem.record_list.extend(record);
        self.problem.top_list.push(counts.records);
        counts.records += 1;
        counts.tops += 1;
    }

    fn sort(&mut self) -> usize {
        self.random.below(self.problem.counts.sorts)
    }

    fn mask(&mut self) -> usize {
        let permitted = 1 << self.context;
        let any = self.random.below(256);
        let all = [permitted, 255, permitted | any, 255 - permitted, 1 << 63];
        self.random.pick(&all)
    }

    fn add_signature(&mut self) {
        let kinds = [
            FUNCTION,
            FUNCTION,
            CONSTRUCTOR,
            SIMPLE,
            SIMPLE,
            ALL_EQUAL,
            ALL_EQUAL,
        ];
        let kind = self.random.pick(&kinds);
        let (head, mask) = (self.random.below(HEADS), self.mask());
        let mut cells = [9; SIGNATURE_CELLS];
        cells[..3].copy_from_slice(&[kind, head, mask]);
        if kind == ALL_EQUAL {
            let length = self.random.pick(&[0, 0, 2, 3, 3, 4, 4, 10_000]);
            let length = if self.random.one_in(25) { 1 } else { length };
            let maybe = |maker: &mut Self| {
                if maker.random.one_in(3) {
                    maker.sort() + 1
                } else {
                    0
                }
            };
            cells[5..8].copy_from_slice(&[maybe(self), length, maybe(self)]);
        } else {
            let count = if self.random.one_in(40) {
                0
            } else {
                self.random.between(1, 4)
            };
            cells[3..5].copy_from_slice(&[self.signature_sorts.len(), count]);
            for _ in 0..count {
                let sort = self.sort();
                self.signature_sorts.push(sort);
            }
        }
        self.signatures.extend(cells);
    }

    fn add_term(&mut self) {
        let term = match self.random.below(10) {
            0 | 1 => {
                let past = usize::from(self.random.one_in(8) || self.globals.is_empty());
                [GLOBAL, self.random.below(self.globals.len() + past)]
            }
            2 | 3 => [LITERAL, self.sort()],
            _ => [VARIABLE, self.random.below(10)],
        };
        self.terms.push(term);
    }

    fn term(&mut self) -> usize {
        self.random.below(self.terms.len())
    }

    fn variable(&mut self) -> usize {
        let is_variable = |term: &usize| self.terms[*term][0] == VARIABLE;
        let all: Vec<usize> = (0..self.terms.len()).filter(is_variable).collect();
        self.random.pick(&all)
    }

    /// One that the table has, mostly.
    fn head(&mut self) -> usize {
        if self.random.one_in(20) {
            return self.random.below(HEADS + 1);
        }
        let number = self.random.below(self.signatures.len() / SIGNATURE_CELLS);
        self.signatures[number * SIGNATURE_CELLS + 1]
    }

    /// As many as some signature of the head takes, mostly; so many less as are appended.
    fn arguments(&mut self, head: usize, appended: usize) -> Vec<usize> {
        let signatures = self.signatures.chunks_exact(SIGNATURE_CELLS);
        let counts: Vec<usize> = signatures
            .filter(|cells| cells[1] == head)
            .map(|cells| {
                if cells[0] == ALL_EQUAL {
                    cells[6].wrapping_sub(1)
                } else {
                    cells[4]
                }
            })
            .filter(|&count| 0 < count && count < 9)
            .collect();
        let count = match counts.is_empty() || self.random.one_in(7) {
            true => self.random.between(1, 4),
            false => self.random.pick(&counts),
        };
        (appended..count).map(|_| self.term()).collect()
    }

    /// A call with just the room that it needs, mostly.
    fn fitted(&mut self) -> Call {
        let mut call = self.call();
        let mut roomy = call.clone();
        let largest = [RECORDS * 8, SIDE, TOPS, RANGE * 2, TERMS * 2];
        for (list, cells) in written(&mut roomy).into_iter().zip(largest) {
            list.resize(cells.max(list.len()), 6);
        }
        let c = through_the_library(&roomy).after.problem.counts;
        let needed = [c.records * 8, c.side, c.tops, c.range * 2, c.terms * 2];
        for (list, cells) in written(&mut call).into_iter().zip(needed) {
            let cells = match self.random.below(30) {
                0 => cells.saturating_sub(1),
                1 => cells + self.random.below(20),
                _ => cells,
            };
            list.resize(cells.max(list.len()), 6);
        }
        call
    }

    fn call(&mut self) -> Call {
        let which = match self.random.below(10) {
            0..5 => Which::Query,
            5..9 => Which::Actions,
            _ => Which::Local,
        };
        let mut items = Items::default();
        match which {
            Which::Local => {
                let place = self.random.below(100);
                items.list = vec![self.variable(), self.sort(), place];
            }
            _ => {
                let most = self.most_items;
                let count = self.random.between(usize::from(most > 4) * 60, most);
                for _ in 0..count {
                    match which {
                        Which::Query => self.add_atom(&mut items),
                        _ => self.add_action(&mut items),
                    }
                }
            }
        }
        let mut problem = self.problem.clone();
        problem.counts.terms = self.terms.len();
        Call {
            which,
            context: self.context,
            signatures: self.signatures.len() / SIGNATURE_CELLS,
            signature_sorts: self.signature_sorts.len(),
            globals: self.globals.len(),
            items: items.count,
            arguments: items.arguments.len(),
            signature_list: self.signatures.clone(),
            signature_sort_list: self.signature_sorts.clone(),
            global_list: self.globals.clone(),
            term_list: self.terms.concat(),
            item_list: items.list,
            argument_list: items.arguments,
            problem,
        }
    }

    fn add_atom(&mut self, items: &mut Items) {
        let place = self.random.below(100);
        if self.random.one_in(4) {
            let count = if self.random.one_in(20) {
                self.random.below(4)
            } else {
                2
            };
            let terms: Vec<usize> = (0..count).map(|_| self.term()).collect();
            return items.add(1, 9, &terms, [9, 9], place);
        }
        let head = self.head();
        let mut terms = self.arguments(head, 0);
        if self.random.one_in(50) {
            terms.clear();
        }
        if self.random.one_in(200) {
            let left = ARGUMENTS.saturating_sub(items.arguments.len());
            let count = self.random.between(left.saturating_sub(1), left + 1);
            terms = (0..count).map(|_| self.term()).collect();
        }
        items.add(0, head, &terms, [9, 9], place);
    }

    fn add_action(&mut self, items: &mut Items) {
        let place = self.random.below(100);
        let kind = self.random.below(6);
        let head = self.head();
        let terms = match kind {
            LET | SET | CHANGE => self.arguments(head, 1),
            _ => vec![],
        };
        let values = match kind {
            LET => [self.variable(), 9],
            SET => [self.term(), 9],
            UNION => [self.term(), self.term()],
            LET_ATOM_TERM => [self.variable(), self.term()],
            _ => [9, 9],
        };
        items.add(kind, head, &terms, values, place);
    }

    /// The next call is lent what this one left.
    fn carry_on(&mut self, after: &Call) {
        let c = after.problem.counts;
        self.problem = after.problem.clone();
        self.problem.record_list.truncate(c.records * 8);
        self.problem.side_list.truncate(c.side);
        self.problem.top_list.truncate(c.tops);
        self.problem.range_list.truncate(c.range * 2);
        let terms = after.term_list.chunks_exact(2).take(c.terms);
        self.terms = terms.map(|cells| [cells[0], cells[1]]).collect();
        if self.random.one_in(3) {
            self.add_term();
        }
    }
}

/// The lists that a call may write: records, side, top-level entries, range, terms.
fn written(call: &mut Call) -> [&mut Vec<usize>; 5] {
    let problem = &mut call.problem;
    [
        &mut problem.record_list,
        &mut problem.side_list,
        &mut problem.top_list,
        &mut problem.range_list,
        &mut call.term_list,
    ]
}

/// Atoms or actions and their arguments.
#[derive(Default)]
struct Items {
    count: usize,
    list: Vec<usize>,
    arguments: Vec<usize>,
}

impl Items {
    fn add(&mut self, kind: usize, head: usize, terms: &[usize], [x, y]: [usize; 2], place: usize) {
        let start = self.arguments.len();
        self.arguments.extend(terms);
        let item = [kind, head, start, terms.len(), x, y, place, 9];
        self.list.extend(item);
        self.count += 1;
    }
}

fn nothing(sorts: usize) -> Lent {
    Lent {
        line: String::new(),
        counts: Counts {
            records: 0,
            side: 0,
            tops: 0,
            range: 0,
            terms: 0,
            sorts,
        },
        work: 0,
        sort_list: 0,
        errors: 0,
        record_list: vec![],
        side_list: vec![],
        top_list: vec![],
        range_list: vec![],
    }
}
