//! Runs a call through the crate's own `add_query`, `add_actions` and `assign_local_var_type`.
use super::lent::*;
use super::names::*;
use crate::ast::FunctionSubtype;
use crate::constraint::Problem;
use crate::core::*;
use crate::sort::ArcSort;
use crate::typechecking::{
    Context, ContextIds, FuncType, Primitive, PrimitiveWithId, Signature as Asked, TypeError,
    TypeInfo,
};
use crate::util::SymbolGen;
use egglog_ast::generic_ast::Change;
use egglog_ast::span::Span;
use std::sync::Arc;

pub type CrateProblem = Problem<AtomTerm, ArcSort>;

/// What the crate has of a problem: its constraints and range, each term's name, and the maker of fresh names.
pub struct World {
    pub names: Vec<String>,
    pub generator: SymbolGen,
    pub problem: CrateProblem,
}

impl World {
    pub fn of_nothing() -> World {
        World {
            names: vec![],
            generator: SymbolGen::new("@".to_owned()),
            problem: Problem::default(),
        }
    }

    /// The range so far and no constraints: a generator only adds to them.
    pub fn at_entry_of(call: &Call) -> World {
        let mut world = World::of_nothing();
        world.name_new_terms(call);
        for entry in call.problem.range() {
            let term = atom_term(call, &world.names, entry.term, entry.place);
            world.problem.range.insert(term);
        }
        world
    }

    /// Names for the terms that the caller has added since.
    pub fn name_new_terms(&mut self, call: &Call) {
        let new = self.names.len()..call.problem.counts.terms;
        self.names.extend(new.map(term_name));
    }

    pub fn copy(&self) -> World {
        World {
            names: self.names.clone(),
            generator: self.generator.clone(),
            problem: copy_of(&self.problem),
        }
    }
}

pub fn copy_of(problem: &CrateProblem) -> CrateProblem {
    Problem {
        constraints: problem.constraints.clone(),
        range: problem.range.clone(),
    }
}

/// An atom or action as the crate has it.
#[derive(Clone)]
pub enum Lowered {
    Atom(Atom<StringOrEq>),
    Action(CoreAction),
    Local(String, Span, ArcSort),
}

pub fn lower(call: &Call, names: &[String], item: Item) -> Lowered {
    let cells = item.cells;
    let span = Span::At(cells.place);
    let head = head_name(cells.head);
    let term = |number| atom_term(call, names, number, cells.place);
    let name = |number: usize| names[number].clone();
    let arguments = match item.kind.has_part() {
        true => call
            .part(cells)
            .iter()
            .map(|&number| term(number))
            .collect(),
        false => vec![],
    };
    let atom = |head| Atom {
        span: span.clone(),
        head,
        args: arguments.clone(),
    };
    match item.kind {
        Kind::Head => Lowered::Atom(atom(StringOrEq::Head(head))),
        Kind::Equality => Lowered::Atom(atom(StringOrEq::Eq)),
        Kind::Let => Lowered::Action(CoreAction::Let(span, name(cells.x), head, arguments)),
        Kind::Set => Lowered::Action(CoreAction::Set(span, head, arguments, term(cells.x))),
        Kind::Change => Lowered::Action(CoreAction::Change(span, Change::Delete, head, arguments)),
        Kind::Union => Lowered::Action(CoreAction::Union(span, term(cells.x), term(cells.y))),
        Kind::LetAtomTerm => {
            Lowered::Action(CoreAction::LetAtomTerm(span, name(cells.x), term(cells.y)))
        }
        Kind::Panic => Lowered::Action(CoreAction::Panic(span, String::new())),
        Kind::Local => Lowered::Local(name(cells.x), span, sort(cells.y)),
    }
}

/// One call of the crate. A problem, or a maker of fresh names, that an error has half changed is not used again.
pub fn run(
    call: &Call,
    tables: &TypeInfo,
    lowered: &[Lowered],
    problem: &mut CrateProblem,
    generator: &mut SymbolGen,
) -> Result<(), TypeError> {
    let context = Context(call.context);
    let (mut atoms, mut actions) = (vec![], vec![]);
    for item in lowered.iter().cloned() {
        match item {
            Lowered::Atom(atom) => atoms.push(atom),
            Lowered::Action(action) => actions.push(action),
            Lowered::Local(name, span, sort) => {
                return problem.assign_local_var_type(&name, span, sort);
            }
        }
    }
    match call.which {
        Which::Query => problem.add_query(&Query { atoms }, tables, context),
        _ => problem.add_actions(&GenericCoreActions(actions), tables, generator, context),
    }
}

/// The lent tables as the crate's. A typed local is lent none.
pub fn tables(call: &Call, names: &[String]) -> TypeInfo {
    let mut tables = TypeInfo::default();
    if call.which == Which::Local {
        return tables;
    }
    for (number, signature) in call.all_signatures().enumerate() {
        let head = head_name(signature.head);
        if signature.kind <= CONSTRUCTOR {
            let function = Arc::new(function(call, signature));
            tables.functions.entry(head).or_insert(function);
        } else {
            let primitive = primitive(call, signature, number);
            tables.primitives.entry(head).or_default().push(primitive);
        }
    }
    for (number, name) in names.iter().enumerate() {
        let term = call.term(number);
        if let (GLOBAL, Some(found)) = (term.kind, call.global_sort(term.value)) {
            tables.globals.insert(name.clone(), sort(found));
        }
    }
    tables
}

/// The crate's functions have an output. One without sorts is only ever asked whether it is a constructor.
fn function(call: &Call, signature: Signature) -> FuncType {
    let mut sorts: Vec<ArcSort> = call.sorts_of(signature).iter().map(|&s| sort(s)).collect();
    let output = sorts
        .pop()
        .unwrap_or_else(|| crate::sort::named_sort("none"));
    FuncType {
        name: head_name(signature.head),
        subtype: match signature.kind {
            CONSTRUCTOR => FunctionSubtype::Constructor,
            _ => FunctionSubtype::Custom,
        },
        input: sorts,
        output,
    }
}

fn primitive(call: &Call, signature: Signature, number: usize) -> PrimitiveWithId {
    let optional_sort = |cell: usize| cell.checked_sub(1).map(sort);
    let asked = match signature.kind {
        SIMPLE => {
            let sorts = call.sorts_of(signature).iter().map(|&s| sort(s)).collect();
            Asked::Simple(sorts)
        }
        _ => Asked::AllEqual {
            common: optional_sort(signature.common),
            length: signature.length.checked_sub(1),
            output: optional_sort(signature.output),
        },
    };
    PrimitiveWithId {
        primitive: Primitive::new(&head_name(signature.head), asked),
        validator: None,
        context_ids: ContextIds::from_mask(signature.mask, number),
    }
}
