//! The program `sorts`: each line a call of its own through the crate's generators, then one solve. Reading, 50, 51, 52
//! and the sizes are written from document 01 and its readings.
mod grammar;
mod tables;

use crate::calls::layout::Layout;
use crate::calls::lent::*;
use crate::calls::refusals::MOST_ARGUMENTS;
use crate::calls::{Added, World, add, solve_both};
use crate::lent::{RANGE_CELLS, RECORD_CELLS};
use crate::refusals::*;
use crate::solving::{ARITY, Ending, Entry, MISMATCH, NONE, Outcome};
use grammar::{Line, Rule, TermWord, parse};
use tables::Tables;

const MOST_BYTES: usize = 32_768;
const MALFORMED: usize = 50;
const TOO_LONG: usize = 52;
const TOO_MANY: usize = 10;

/// The whole output for an input.
pub fn sorts(input: &[u8]) -> String {
    if input.len() > MOST_BYTES {
        return refused(TOO_LONG, 0);
    }
    let mut reader = Reader::default();
    for (number, line) in (1..).zip(input.split(|&byte| byte == b'\n')) {
        if line.is_empty() {
            continue;
        }
        if let Err(refusal) = reader.take_in(line, number) {
            return refused(refusal, number);
        }
    }
    reader.solved()
}

fn refused(number: usize, line: usize) -> String {
    format!("refused {number} line {line}\n")
}

/// All that the lines so far have given.
#[derive(Default)]
struct Reader {
    tables: Tables,
    layout: Layout,
    world: Option<World>,
}

impl Reader {
    /// 50, then 51, then the rest.
    fn take_in(&mut self, line: &[u8], number: usize) -> Result<(), usize> {
        let text = std::str::from_utf8(line).map_err(|_| MALFORMED)?;
        let line = parse(text).ok_or(MALFORMED)?;
        self.tables.names_fit(&line)?;
        match &line {
            Line::Rule(rule) => self.run(rule, number),
            declaration => self.tables.declare(declaration),
        }
    }

    /// A rule is one call. 10 for too many arguments comes last, as 10 does for all else.
    fn run(&mut self, rule: &Rule, place: usize) -> Result<(), usize> {
        let call = self.call(rule, place);
        let mut world = match &self.world {
            Some(world) => world.copy(),
            None => World::at_entry_of(&call),
        };
        world.name_new_terms(&call);
        let added = add(&call, &world).map_err(|refused| refused.number)?;
        if rule.terms.len() > MOST_ARGUMENTS {
            return Err(TOO_MANY);
        }
        self.layout = added.layout;
        self.world = Some(added.world);
        for fresh in self.tables.term_names.len()..self.layout.terms.len() {
            self.tables.term_names.push(format!("#{fresh}"));
        }
        Ok(())
    }

    fn call(&mut self, rule: &Rule, place: usize) -> Call {
        let variable = rule.variable.map(|term| self.term(term));
        let mut arguments: Vec<usize> = rule.terms.iter().map(|&t| self.term(t)).collect();
        let head = rule.head.map_or(0, |name| self.tables.head(name));
        let (mut x, mut y) = (variable.unwrap_or(0), 0);
        match rule.kind {
            Kind::Set => x = arguments.pop().expect("a right side"),
            Kind::Union => (x, y) = (arguments[0], arguments[1]),
            Kind::LetAtomTerm => y = arguments[0],
            Kind::Local => y = rule.sort.map_or(0, |name| self.tables.sort(name)),
            _ => {}
        }
        let (which, kind) = number_of(rule.kind);
        let item_list = match which {
            Which::Local => vec![x, y, place],
            _ => vec![kind, head, 0, arguments.len(), x, y, place, 0],
        };
        self.lend(which, item_list, arguments)
    }

    /// A term's number. A new one's cells are taken in as well.
    fn term(&mut self, term: TermWord) -> usize {
        let number = self.tables.term(term);
        if number == self.layout.terms.len() {
            self.layout.terms.push(self.tables.term_cells(term));
        }
        number
    }

    /// Every list is as long as its largest size, so that only the sizes bound what is added.
    fn lend(&self, which: Which, item_list: Vec<usize>, argument_list: Vec<usize>) -> Call {
        let tables = &self.tables;
        let mut call = Call {
            which,
            context: tables.context,
            signatures: tables.signature_list.len() / SIGNATURE_CELLS,
            signature_sorts: tables.signature_sort_list.len(),
            globals: tables.global_list.len(),
            items: 1,
            arguments: argument_list.len(),
            signature_list: tables.signature_list.clone(),
            signature_sort_list: tables.signature_sort_list.clone(),
            global_list: tables.global_list.clone(),
            term_list: self.layout.terms.concat(),
            item_list,
            argument_list,
            problem: self.layout.problem(tables.sort_names.len(), "a text"),
        };
        let problem = &mut call.problem;
        lengthen(&mut problem.record_list, MOST_RECORDS * RECORD_CELLS);
        lengthen(&mut problem.side_list, MOST_SIDE);
        lengthen(&mut problem.top_list, MOST_TOPS);
        lengthen(&mut problem.range_list, MOST_RANGE * RANGE_CELLS);
        lengthen(&mut call.term_list, MOST_TERMS * TERM_CELLS);
        call
    }

    fn solved(self) -> String {
        let world = self.world.unwrap_or_else(World::of_nothing);
        let added = Added {
            layout: self.layout,
            world,
        };
        let sorts = self.tables.sort_names.len();
        let outcome = solve_both(&added, sorts, "a text");
        printed(&self.tables, &outcome)
    }
}

/// A list is only ever made longer: past a size, 10 is near.
fn lengthen(list: &mut Vec<usize>, cells: usize) {
    list.resize(list.len().max(cells), 0);
}

/// Which call a rule is, and the number of its kind there.
fn number_of(kind: Kind) -> (Which, usize) {
    let of = |which| (0..).map_while(move |n| Some((which, n, kind_of(which, n)?)));
    let mut all = of(Which::Query).chain(of(Which::Actions));
    match all.find(|&(_, _, other)| other == kind) {
        Some((which, number, _)) => (which, number),
        None => (Which::Local, 0),
    }
}

fn printed(tables: &Tables, outcome: &Outcome) -> String {
    let passes = outcome.passes;
    match &outcome.ending {
        Ending::Answered(cells) => answered(tables, passes, cells),
        Ending::Open { term, place } => {
            let term = &tables.term_names[*term];
            format!("open {passes}\nunsorted {place} {term}\n")
        }
        Ending::Conflict(entries) => {
            let lines = entries.iter().map(|entry| printed_entry(tables, entry));
            format!("conflict {passes}\n") + &lines.collect::<String>()
        }
    }
}

/// Every sorted term by its number.
fn answered(tables: &Tables, passes: usize, cells: &[usize]) -> String {
    let sorted = tables
        .term_names
        .iter()
        .zip(cells)
        .filter(|(_, cell)| **cell > 0);
    let lines = sorted.map(|(term, cell)| format!("{term} {}\n", tables.sort_names[cell - 1]));
    let lines: Vec<String> = lines.collect();
    format!("ok {} passes {passes}\n", lines.len()) + &lines.concat()
}

fn printed_entry(tables: &Tables, entry: &Entry) -> String {
    let (place, [v1, v2, v3]) = (entry.place, entry.values);
    match entry.number {
        MISMATCH => {
            let (term, expected) = (&tables.term_names[v1], &tables.sort_names[v2]);
            format!(
                "mismatch {place} {term} {expected} {}\n",
                tables.sort_names[v3]
            )
        }
        NONE => format!("none {v1}\n"),
        ARITY => format!("arity {place} {} {}\n", tables.head_names[v1], v2 - 1),
        number => unreachable!("no entry has the number {number}"),
    }
}

/// A text in a list of texts: its byte count, a line feed, its bytes, a line feed.
pub fn framed(text: &[u8]) -> Vec<u8> {
    let count = format!("{}\n", text.len()).into_bytes();
    [&count, text, b"\n"].concat()
}

/// The texts of such a list.
pub fn read_framed(mut list: &[u8]) -> Result<Vec<&[u8]>, String> {
    let mut texts = vec![];
    while !list.is_empty() {
        let end = list.iter().position(|&byte| byte == b'\n');
        let (count, rest) = list.split_at(end.ok_or("no line feed after a count")?);
        let count = std::str::from_utf8(count).ok().and_then(|c| c.parse().ok());
        let count: usize = count.ok_or("no byte count")?;
        let text = rest.get(1..count + 1).ok_or("a text ends too soon")?;
        if rest.get(count + 1) != Some(&b'\n') {
            return Err("no line feed after a text".to_owned());
        }
        texts.push(text);
        list = &rest[count + 2..];
    }
    Ok(texts)
}
