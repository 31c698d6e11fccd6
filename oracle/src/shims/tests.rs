//! The module's generators, type errors and groundedness run over the shims, as document 01 says they should.
use crate::ast::{FunctionSubtype, ResolvedVar};
use crate::constraint::{Problem, grounded_check};
use crate::core::*;
use crate::sort::{ArcSort, named_sort};
use crate::typechecking::*;
use crate::util::SymbolGen;
use egglog_ast::span::Span;
use std::sync::Arc;

fn function(
    info: &mut TypeInfo,
    name: &str,
    input: &[&str],
    output: &str,
    subtype: FunctionSubtype,
) {
    let function = FuncType {
        name: name.to_owned(),
        subtype,
        input: input.iter().map(|sort| named_sort(sort)).collect(),
        output: named_sort(output),
    };
    info.functions.insert(name.to_owned(), Arc::new(function));
}

fn simple_primitive(info: &mut TypeInfo, name: &str, mask: usize, sorts: &[&str]) {
    let sorts = sorts.iter().map(|sort| named_sort(sort)).collect();
    let of_that_name = info.primitives.entry(name.to_owned()).or_default();
    of_that_name.push(PrimitiveWithId {
        primitive: Primitive::new(name, Signature::Simple(sorts)),
        validator: None,
        context_ids: ContextIds::from_mask(mask, 0),
    });
}

fn variable(name: &str) -> AtomTerm {
    AtomTerm::Var(Span::At(1), name.to_owned())
}

fn query(head: &str, arguments: &[&str]) -> Query<StringOrEq, String> {
    Query {
        atoms: vec![GenericAtom {
            span: Span::At(1),
            head: StringOrEq::Head(head.to_owned()),
            args: arguments.iter().map(|name| variable(name)).collect(),
        }],
    }
}

fn constraints_in(info: &TypeInfo, context: usize) -> usize {
    let mut problem = Problem::default();
    let added = problem.add_query(&query("dist", &["t", "d"]), info, Context(context));
    added.expect("dist is declared");
    problem.constraints.len()
}

#[test]
fn the_documents_example() {
    let mut info = TypeInfo::default();
    function(
        &mut info,
        "dist",
        &["Reading"],
        "Metre",
        FunctionSubtype::Custom,
    );
    let mut problem = Problem::default();
    let added = problem.add_query(&query("dist", &["t", "d"]), &info, Context(0));
    added.expect("dist is declared");
    let sorts = problem.solve(|sort| sort.name());
    let sorts = sorts.unwrap_or_else(|e| panic!("{e:?}"));
    let sort_of = |name| {
        sorts
            .get(&variable(name))
            .map(|sort| sort.name().to_owned())
    };
    assert_eq!(sort_of("t").as_deref(), Some("Reading"));
    assert_eq!(sort_of("d").as_deref(), Some("Metre"));
}

#[test]
fn a_mask_permits_contexts() {
    let mut info = TypeInfo::default();
    function(
        &mut info,
        "dist",
        &["Reading"],
        "Metre",
        FunctionSubtype::Custom,
    );
    simple_primitive(&mut info, "dist", 0b100, &["Metre", "Metre"]);
    assert_eq!(constraints_in(&info, 2), 1, "one Xor");
    assert_eq!(constraints_in(&info, 1), 2, "the function's two Assigns");
}

#[test]
fn an_arity_entry_shows_one_less() {
    let mut info = TypeInfo::default();
    function(
        &mut info,
        "dist",
        &["Reading"],
        "Metre",
        FunctionSubtype::Custom,
    );
    let mut problem = Problem::default();
    let added = problem.add_query(&query("dist", &["t"]), &info, Context(0));
    added.expect("dist is declared");
    let error = problem.solve(|sort| sort.name()).err();
    let error = error.expect("an argument is missing").to_type_error();
    assert!(matches!(error, TypeError::Arity { expected: 1, .. }));
}

#[test]
fn a_constructor_is_never_set() {
    let mut info = TypeInfo::default();
    function(
        &mut info,
        "make",
        &[],
        "Metre",
        FunctionSubtype::Constructor,
    );
    let set = CoreAction::Set(Span::At(1), "make".to_owned(), vec![], variable("d"));
    let mut names = SymbolGen::new("@".to_owned());
    let mut problem = Problem::default();
    let actions = GenericCoreActions(vec![set]);
    let added = problem.add_actions(&actions, &info, &mut names, Context(0));
    assert!(matches!(
        added,
        Err(TypeError::SetConstructorDisallowed(..))
    ));
}

type Body = Query<HeadOrEq<ResolvedCall>, ResolvedVar>;

fn resolved(name: &str) -> ResolvedAtomTerm {
    let variable = ResolvedVar {
        name: name.to_owned(),
        sort: named_sort("Metre"),
        is_global_ref: false,
    };
    ResolvedAtomTerm::Var(Span::At(1), variable)
}

/// An atom of a head over variables that all have one sort.
fn add_atom(body: &mut Body, info: &TypeInfo, head: &str, arguments: &[&str]) {
    let sorts: Vec<ArcSort> = arguments.iter().map(|_| named_sort("Metre")).collect();
    let call = ResolvedCall::from_resolution(head, &sorts, info, Context(0), &Span::At(1));
    body.atoms.push(GenericAtom {
        span: Span::At(1),
        head: HeadOrEq::Head(call.expect("the head takes these sorts")),
        args: arguments.iter().map(|name| resolved(name)).collect(),
    });
}

fn check(body: Body) -> Result<(), TypeError> {
    grounded_check(&GenericCoreRule {
        span: Span::At(9),
        body,
        head: GenericCoreActions::default(),
    })
}

#[test]
fn a_primitive_grounds_its_output_once_its_input_is() {
    let mut info = TypeInfo::default();
    function(&mut info, "at", &[], "Metre", FunctionSubtype::Custom);
    simple_primitive(&mut info, "half", 1, &["Metre", "Metre"]);
    let mut body = Body::default();
    add_atom(&mut body, &info, "half", &["x", "y"]);
    let ungrounded = check(body.clone());
    assert!(matches!(
        ungrounded,
        Err(TypeError::Ungrounded(_, Span::At(9)))
    ));
    add_atom(&mut body, &info, "at", &["x"]);
    assert!(check(body).is_ok());
}
