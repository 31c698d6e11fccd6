//! Runs the crate's own `grounded_check` on a body.
use super::lent::*;
use crate::ast::{FunctionSubtype, ResolvedVar};
use crate::calls::lent::{GLOBAL, LITERAL};
use crate::calls::names::{place_of, term_name, term_number};
use crate::constraint::grounded_check;
use crate::core::*;
use crate::sort::{ArcSort, named_sort};
use crate::typechecking::*;
use egglog_ast::generic_ast::Literal;
use egglog_ast::span::Span;
use std::sync::Arc;

/// The variable that the crate names, and the place that it gives.
#[derive(Debug)]
pub struct Ungrounded {
    pub term: usize,
    pub place: usize,
}

pub fn grounded(body: &Body) -> Result<(), Ungrounded> {
    let call = Calls::new();
    let atoms = body
        .all_atoms()
        .map(|atom| atom_of(body, &call, atom))
        .collect();
    let rule = GenericCoreRule {
        span: Span::At(body.place),
        body: Query { atoms },
        head: GenericCoreActions::default(),
    };
    match grounded_check(&rule) {
        Ok(()) => Ok(()),
        Err(TypeError::Ungrounded(name, span)) => Err(Ungrounded {
            term: term_number(&name),
            place: place_of(&span),
        }),
        Err(other) => panic!("{other:?} from {}", body.line),
    }
}

type CrateAtom = GenericAtom<HeadOrEq<ResolvedCall>, ResolvedVar>;

fn atom_of(body: &Body, calls: &Calls, atom: BodyAtom) -> CrateAtom {
    let arguments = body.arguments_of(atom);
    GenericAtom {
        span: Span::At(0),
        head: match atom.kind {
            FUNCTION_ATOM => HeadOrEq::Head(calls.function()),
            PRIMITIVE_ATOM => HeadOrEq::Head(calls.primitive(arguments.len())),
            _ => HeadOrEq::Eq,
        },
        args: arguments.iter().map(|&term| term_of(body, term)).collect(),
    }
}

/// Every term has its own name, so that two terms of one global or one literal stay two.
fn term_of(body: &Body, number: usize) -> ResolvedAtomTerm {
    let (span, name, sort) = (Span::At(0), term_name(number), sort());
    let variable = ResolvedVar {
        name: name.clone(),
        is_global_ref: body.kind_of(number) == GLOBAL,
        sort,
    };
    match body.kind_of(number) {
        GLOBAL => ResolvedAtomTerm::Global(span, variable),
        LITERAL => {
            let sort = SORT_NAME.to_owned();
            ResolvedAtomTerm::Literal(span, Literal::Named { sort, name })
        }
        _ => ResolvedAtomTerm::Var(span, variable),
    }
}

const SORT_NAME: &str = "s";
const HEAD: &str = "h";

fn sort() -> ArcSort {
    named_sort(SORT_NAME)
}

/// The check only asks whether a call is of a function or of a primitive. This one primitive takes any arguments.
struct Calls {
    tables: TypeInfo,
}

impl Calls {
    fn new() -> Calls {
        let any = Signature::AllEqual {
            common: None,
            length: None,
            output: None,
        };
        let primitive = PrimitiveWithId {
            primitive: Primitive::new(HEAD, any),
            validator: None,
            context_ids: ContextIds::from_mask(1, 0),
        };
        let mut tables = TypeInfo::default();
        tables.primitives.insert(HEAD.to_owned(), vec![primitive]);
        Calls { tables }
    }

    fn function(&self) -> ResolvedCall {
        ResolvedCall::Func(Arc::new(FuncType {
            name: HEAD.to_owned(),
            subtype: FunctionSubtype::Custom,
            input: vec![],
            output: sort(),
        }))
    }

    fn primitive(&self, arguments: usize) -> ResolvedCall {
        let sorts = vec![sort(); arguments];
        let call =
            ResolvedCall::from_resolution(HEAD, &sorts, &self.tables, Context(0), &Span::At(0));
        call.expect("the primitive takes any arguments")
    }
}
