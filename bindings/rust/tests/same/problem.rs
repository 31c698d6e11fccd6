//! A problem, and what rules add to it, both ways.
use crate::errors::{flatten, told};
use crate::flat::{present, Calls, Flat, Lists};
use crate::random::{terms, Random};
use crate::tables::BothTables;
use crate::{refusal, HEADS, JUNK};
use sortlib::raw::{self, Added, Told};
use sortlib::{
    Actions, Answer, Context, Global, Head, Place, Problem, Query, Record, Refusal, Sort, Term,
};
use std::collections::BTreeSet;
use std::ops::Range;

/// The kind of a Union.
const UNION: usize = 3;

/// A problem, and the same as flat lists.
pub struct Both {
    problem: Problem,
    flat: Flat,
    tables: BothTables,
    /// Records that are not yet used.
    pub free: Vec<Record>,
    /// The answer numbers that were given.
    pub given: BTreeSet<usize>,
}

impl Both {
    pub fn random(random: &mut Random) -> Both {
        let sorts = 1 + random.below(4);
        let variables = if random.one_in(20) { 254 } else { 2 };
        Both {
            problem: Problem::new(variables, sorts),
            flat: Flat {
                sorts,
                terms: vec![[0, JUNK]; variables],
                ..Flat::default()
            },
            tables: BothTables::random(random, sorts),
            free: Vec::new(),
            given: BTreeSet::new(),
        }
    }

    pub fn step(&mut self, random: &mut Random) {
        let place = random.number(50);
        match random.below(17) {
            0 => self.add_term(random),
            1..=5 => self.add_leaf(random, place),
            6 => {
                let children = (0..random.below(4)).filter_map(|_| self.take_free(random));
                let children = children.collect();
                self.add_parent(random, children, place);
            }
            7 => self.nest(random, place),
            8..=10 => self.require(random),
            11 => {
                let term = random.number(self.flat.terms.len());
                self.problem.ask(Term(term), Place(place));
                self.flat.range.push([term, place]);
            }
            12 => self.add_local(random, place),
            13 => self.add_query(random),
            14 => self.add_actions(random, 4, 0..6),
            15 if random.one_in(10) => self.add_actions(random, 400, UNION..UNION + 1),
            _ => self.solve(),
        }
    }

    fn add_term(&mut self, random: &mut Random) {
        let number = self.flat.terms.len();
        if number > 256 {
            return; // tests/numbers.rs goes on
        }
        let (kind, value) = (random.below(3), random.number(self.flat.sorts));
        let term = match kind {
            0 => self.problem.variable(),
            1 => self.problem.global(Global(value)),
            _ => self.problem.literal(Sort(value)),
        };
        assert_eq!(term, Term(number));
        let read = if kind == 0 { JUNK } else { value };
        self.flat.terms.push([kind, read]);
    }

    fn add_leaf(&mut self, random: &mut Random, place: usize) {
        let (terms, sorts) = (self.flat.terms.len(), self.flat.sorts);
        let kind = [0, 1, 1, 4][random.below(4)];
        let (first, second) = match kind {
            0 => (random.number(terms), random.number(terms)),
            1 => (random.number(terms), random.number(sorts)),
            _ => (random.number(HEADS), 1 + random.below(4)),
        };
        let record = match kind {
            0 => self.problem.equal(Term(first), Term(second), Place(place)),
            1 => self.problem.assign(Term(first), Sort(second), Place(place)),
            _ => self.problem.impossible(Head(first), second, Place(place)),
        };
        self.add_record(record, [kind, first, second, JUNK], place);
    }

    /// Puts the last record that is not yet used into another, and that into another, and so on.
    fn nest(&mut self, random: &mut Random, place: usize) {
        for _ in 0..random.below(12) {
            let last = self.free.pop();
            self.add_parent(random, last.into_iter().collect(), place);
        }
    }

    fn add_parent(&mut self, random: &mut Random, children: Vec<Record>, place: usize) {
        let start = self.flat.side.len();
        if let ([child], true) = (&children[..], random.one_in(3)) {
            let watched = random.numbers(2, self.flat.terms.len());
            self.flat.side.extend(&watched);
            let implies = self
                .problem
                .implies(&terms(&watched), *child, Place(place))
                .unwrap();
            let cells = [5, start, watched.len(), child.number()];
            return self.add_record(implies, cells, place);
        }
        let numbers: Vec<usize> = children.iter().map(|child| child.number()).collect();
        self.flat.side.extend(&numbers);
        let (record, kind) = if random.one_in(2) {
            (self.problem.and(&children, Place(place)).unwrap(), 2)
        } else {
            (self.problem.xor(&children, Place(place)).unwrap(), 3)
        };
        self.add_record(record, [kind, start, numbers.len(), JUNK], place);
    }

    fn add_record(&mut self, record: Record, cells: [usize; 4], place: usize) {
        assert_eq!(record.number(), self.flat.records.len());
        let [kind, first, second, third] = cells;
        self.flat
            .records
            .push([kind, first, second, third, JUNK, JUNK, place, JUNK]);
        self.free.push(record);
    }

    /// A record that is not yet used; seldom one that stays so.
    fn take_free(&mut self, random: &mut Random) -> Option<Record> {
        if self.free.is_empty() {
            return None;
        }
        let number = random.below(self.free.len());
        if random.one_in(100) {
            return Some(self.free[number]);
        }
        Some(self.free.swap_remove(number))
    }

    pub fn require(&mut self, random: &mut Random) {
        if let Some(record) = self.take_free(random) {
            self.problem.require(record).unwrap();
            self.flat.tops.push(record.number());
        }
    }

    fn add_local(&mut self, random: &mut Random, place: usize) {
        let term = random.number(self.flat.terms.len());
        let sort = random.number(self.flat.sorts);
        let got = self.problem.add_local(Term(term), Sort(sort), Place(place));
        let mut lists = self.flat.lists();
        let added = raw::assign_local(
            self.flat.counts(),
            term,
            sort,
            place,
            &lists.terms,
            &lists.side,
            &mut lists.records,
            &mut lists.tops,
            &mut lists.range,
        );
        self.compare_added(got.map(|()| vec![]), added, lists);
    }

    fn add_query(&mut self, random: &mut Random) {
        let (mut query, mut flat) = (Query::new(), Calls::default());
        for _ in 0..random.below(4) {
            let (head, place) = (random.number(HEADS), random.number(50));
            let part = random.numbers(4, self.flat.terms.len());
            if let ([x, y], true) = (&part[..], random.one_in(2)) {
                query.equal(Term(*x), Term(*y), Place(place));
                flat.with_part(1, JUNK, &part, JUNK, place);
            } else {
                query.atom(Head(head), &terms(&part), Place(place));
                flat.with_part(0, head, &part, JUNK, place);
            }
        }
        let context = random.number(8);
        let got = self
            .problem
            .add_query(&self.tables.tables, Context(context), &query);
        let mut lists = self.flat.lists();
        let added = raw::add_query(
            self.tables.lent(context, &flat),
            self.flat.counts(),
            &self.tables.signatures.concat(),
            &self.tables.sorts,
            &self.tables.globals,
            &lists.terms,
            &flat.calls.concat(),
            &flat.arguments,
            &mut lists.records,
            &mut lists.side,
            &mut lists.tops,
            &mut lists.range,
        );
        self.compare_added(got.map(|()| vec![]), added, lists);
    }

    /// Fewer than so many actions of these kinds.
    fn add_actions(&mut self, random: &mut Random, many: usize, kinds: Range<usize>) {
        let (mut actions, mut flat) = (Actions::new(), Calls::default());
        for _ in 0..random.below(many) {
            let count = self.flat.terms.len();
            let (head, number) = (random.number(HEADS), random.number(50));
            let (x, y) = (random.number(count), random.number(count));
            let part = random.numbers(3, count);
            let (listed, place) = (terms(&part), Place(number));
            match kinds.start + random.below(kinds.len()) {
                0 => {
                    actions.bind(Term(x), Head(head), &listed, place);
                    flat.with_part(0, head, &part, x, number);
                }
                1 => {
                    actions.set(Head(head), &listed, Term(x), place);
                    flat.with_part(1, head, &part, x, number);
                }
                2 => {
                    actions.change(Head(head), &listed, place);
                    flat.with_part(2, head, &part, JUNK, number);
                }
                UNION => {
                    actions.union(Term(x), Term(y), place);
                    flat.with_two(UNION, x, y, number);
                }
                4 => {
                    actions.bind_term(Term(x), Term(y), place);
                    flat.with_two(4, x, y, number);
                }
                _ => {
                    actions.panic(place);
                    flat.with_two(5, JUNK, JUNK, number);
                }
            }
        }
        let context = random.number(8);
        let got = self
            .problem
            .add_actions(&self.tables.tables, Context(context), &actions);
        let mut lists = self.flat.lists();
        let added = raw::add_actions(
            self.tables.lent(context, &flat),
            self.flat.counts(),
            &self.tables.signatures.concat(),
            &self.tables.sorts,
            &self.tables.globals,
            &mut lists.terms,
            &flat.calls.concat(),
            &flat.arguments,
            &mut lists.records,
            &mut lists.side,
            &mut lists.tops,
            &mut lists.range,
        );
        self.compare_added(got, added, lists);
    }

    /// What a generator's call answered and left.
    fn compare_added(&mut self, got: Result<Vec<Term>, Refusal>, added: Added, lists: Lists) {
        let expected = match added.number {
            0 => Ok((self.flat.terms.len()..added.counts.terms)
                .map(Term)
                .collect()),
            number => Err(refusal(number, added.head, added.place)),
        };
        assert_eq!(got, expected);
        self.given.insert(added.number);
        self.flat.keep(added.counts, lists);
    }

    pub fn solve(&mut self) {
        let counts = self.flat.counts();
        let lists = self.flat.lists();
        let mut work = vec![JUNK; 18 * (counts.terms + counts.records)];
        let mut sort_list = vec![JUNK; counts.terms];
        let mut errors = vec![JUNK; 8 * counts.records];
        let outcome = raw::solve(
            counts,
            &lists.records,
            &lists.side,
            &lists.tops,
            &lists.range,
            &mut work,
            &mut sort_list,
            &mut errors,
        );
        self.given.insert(outcome.number);
        let solved = match self.problem.solve() {
            Ok(solved) => solved,
            Err(refused) => return assert_eq!(refused, refusal(outcome.number, 0, 0)),
        };
        assert_eq!(solved.passes, outcome.passes);
        let told: Vec<(Told, usize)> = solved.type_errors.as_slice().iter().map(told).collect();
        match solved.answer {
            Answer::Sorted(sorts) => {
                assert_eq!(outcome.number, 0);
                let found = (0..counts.terms).map(|term| sorts.of(Term(term)));
                let cells: Vec<usize> = found.map(|sort| present(sort.map(|s| s.0))).collect();
                assert_eq!(cells, sort_list);
                assert_eq!(told, []);
            }
            Answer::Open { term, place, .. } => {
                assert_eq!(outcome.number, 31);
                assert_eq!((term.0, place.0), (outcome.term, outcome.place));
                assert_eq!(told, [(raw::outcome_type_error(outcome), outcome.place)]);
            }
            Answer::Conflict(error) => {
                let mut listed = Vec::new();
                flatten(&error, &mut listed);
                assert_eq!(listed[0][0], outcome.number);
                let expected = listed.iter().enumerate().map(|(number, entry)| {
                    let told = raw::type_error(counts.records, number, &errors);
                    (told, entry[2])
                });
                assert_eq!(told, expected.collect::<Vec<_>>());
                listed.resize(counts.records, [0; 8]);
                assert_eq!(listed.concat(), errors);
            }
            _ => panic!("a kind of answer that the page has not"),
        }
    }
}
