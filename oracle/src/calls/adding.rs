//! What a call adds, atom by atom: the tests in their order, the crate's constraints, their layout, the range.
use super::layout::Layout;
use super::lent::*;
use super::names::*;
use super::reading::Known;
use super::refusals::{Verdict, verdict};
use super::running::*;
use crate::constraint::Problem;
use crate::core::AtomTerm;
use crate::typechecking::{TypeError, TypeInfo};
use crate::util::{FreshGen, SymbolGen};
use egglog_ast::span::Span;
use std::collections::HashMap;

/// Head and place are 0 unless the crate's error has them.
#[derive(Clone, Debug, PartialEq, Eq)]
pub struct Refused {
    pub number: usize,
    pub head: usize,
    pub place: usize,
}

impl Refused {
    pub fn plainly(number: usize) -> Refused {
        let (head, place) = (0, 0);
        Refused {
            number,
            head,
            place,
        }
    }
}

pub struct Added {
    pub layout: Layout,
    pub world: World,
}

/// Past 1 and 2. Atoms are first run one at a time, so that each one's constraints are known; then all of them in one
/// call of the crate, which must give the same.
pub fn add(call: &Call, world: &World) -> Result<Added, Refused> {
    let mut adding = Adding {
        call,
        entry: world,
        tables: tables(call, &world.names),
        layout: Layout::of(call),
        names: world.names.clone(),
        generator: world.generator.clone(),
        lowered: vec![],
        printed: vec![],
    };
    for item in call.all_items() {
        adding.add_item(item)?;
    }
    Ok(adding.finish())
}

struct Adding<'a> {
    call: &'a Call,
    entry: &'a World,
    tables: TypeInfo,
    layout: Layout,
    names: Vec<String>,
    generator: SymbolGen,
    lowered: Vec<Lowered>,
    /// The printed form of every constraint added so far.
    printed: Vec<String>,
}

impl Adding<'_> {
    fn add_item(&mut self, item: Item) -> Result<(), Refused> {
        let given = given_arguments(self.call, item);
        let lowered = lower(self.call, &self.names, item);
        self.lowered.push(lowered.clone());
        match verdict(self.call, item, &given) {
            Verdict::Refused(number) => return Err(Refused::plainly(number)),
            Verdict::CrateError(number) => return Err(self.crate_error(number)),
            Verdict::Passed => {}
        }
        let known = self.known(item, &given);
        for text in self.constraints_of(lowered) {
            self.layout.add_top(&known.tree(&text), item.cells.place);
            self.printed.push(text);
        }
        for term in entering(item, &given) {
            self.layout.enter(term, item.cells.place);
        }
        match self.layout.passes_a_size() || self.layout.passes_a_list(self.call) {
            true => Err(Refused::plainly(10)),
            false => Ok(()),
        }
    }

    /// The arguments with their numbers. A fresh one gets the name that the crate will give it.
    fn known(&mut self, item: Item, given: &[usize]) -> Known {
        let place = item.cells.place;
        let term = |&n: &usize| (n, atom_term(self.call, &self.names, n, place));
        let mut arguments: Vec<(usize, AtomTerm)> = given.iter().map(term).collect();
        if item.kind == Kind::Change {
            let name = self.generator.clone().fresh(&head_name(item.cells.head));
            let number = self.layout.add_fresh_term();
            self.names.push(name.clone());
            arguments.push((number, AtomTerm::Var(Span::At(place), name)));
        }
        Known {
            head: item.cells.head,
            place,
            arguments,
        }
    }

    /// The printed forms of what the crate gives for one atom or action.
    fn constraints_of(&mut self, lowered: Lowered) -> Vec<String> {
        let mut alone = Problem::default();
        let generator = &mut self.generator;
        let run = run(self.call, &self.tables, &[lowered], &mut alone, generator);
        run.unwrap_or_else(|e| panic!("{e:?} from {}", self.call.problem.line));
        alone.constraints.iter().map(|c| c.pretty()).collect()
    }

    /// 20 or 21, as the crate gives it to the whole call so far.
    fn crate_error(&self, number: usize) -> Refused {
        let (_, _, result) = self.run_whole();
        let (given, head, span) = match result {
            Err(TypeError::UnboundFunction(head, span)) => (20, head, span),
            Err(TypeError::SetConstructorDisallowed(head, span)) => (21, head, span),
            other => panic!("{other:?} from {}", self.call.problem.line),
        };
        assert_eq!(given, number, "{}", self.call.problem.line);
        Refused {
            number,
            head: head_number(&head),
            place: place_of(&span),
        }
    }

    /// All atoms so far in one call of the crate, on a copy of what it had at entry.
    fn run_whole(&self) -> (CrateProblem, SymbolGen, Result<(), TypeError>) {
        let mut problem = copy_of(&self.entry.problem);
        let mut generator = self.entry.generator.clone();
        let (tables, lowered) = (&self.tables, &self.lowered);
        let result = run(self.call, tables, lowered, &mut problem, &mut generator);
        (problem, generator, result)
    }

    fn finish(self) -> Added {
        let line = &self.call.problem.line;
        let (problem, generator, result) = self.run_whole();
        result.unwrap_or_else(|e| panic!("{e:?} from {line}"));
        let added = &problem.constraints[self.entry.problem.constraints.len()..];
        let printed: Vec<String> = added.iter().map(|c| c.pretty()).collect();
        assert_eq!(printed, self.printed, "one by one and whole: {line}");
        assert_eq!(generator, self.generator, "fresh names: {line}");
        let world = World {
            names: self.names,
            generator,
            problem,
        };
        assert_eq!(range_of(&world), first_entries(&self.layout), "{line}");
        Added {
            layout: self.layout,
            world,
        }
    }
}

/// All arguments but a fresh one: those of the part, then the appended one; or the sides of an equation.
fn given_arguments(call: &Call, item: Item) -> Vec<usize> {
    let cells = item.cells;
    let with = |appended: &[usize]| [call.part(cells), appended].concat();
    match item.kind {
        Kind::Head | Kind::Equality | Kind::Change => with(&[]),
        Kind::Let | Kind::Set => with(&[cells.x]),
        Kind::Union | Kind::LetAtomTerm => vec![cells.x, cells.y],
        Kind::Panic => vec![],
        Kind::Local => vec![cells.x],
    }
}

/// The terms that the atom or action puts into the range, in order.
fn entering(item: Item, given: &[usize]) -> Vec<usize> {
    match item.kind {
        Kind::Head | Kind::Equality => given.to_vec(),
        Kind::Let | Kind::LetAtomTerm | Kind::Local => vec![item.cells.x],
        Kind::Set | Kind::Change | Kind::Union | Kind::Panic => vec![],
    }
}

pub fn numbers_by_name(world: &World) -> HashMap<&str, usize> {
    let names = world.names.iter().map(String::as_str);
    names.zip(0..).collect()
}

/// The crate's range, which has no order, by term number. Its places are the first ones too.
fn range_of(world: &World) -> Vec<[usize; 2]> {
    let numbers = numbers_by_name(world);
    let entry = |term: &AtomTerm| [numbers[name_of(term)], place_of(term.span())];
    let mut entries: Vec<[usize; 2]> = world.problem.range.iter().map(entry).collect();
    entries.sort();
    entries
}

/// The range's entries by term number, each term's first one.
fn first_entries(layout: &Layout) -> Vec<[usize; 2]> {
    let mut entries = layout.range.clone();
    entries.sort_by_key(|entry| entry[0]); // stable: a term's first entry stays first
    entries.dedup_by_key(|entry| entry[0]);
    entries
}
