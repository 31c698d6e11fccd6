//! Stands in for the crate's src/ast/mod.rs around its own ast/expr.rs. The lowering from surface syntax is never run
//! here: core.rs only has to find its names.
use crate::core::{GenericAtomTerm, HeadOrEq, Query, ResolvedCall};
use crate::{Display, Formatter, FreshGen, Hash, TypeInfo};
pub use egglog_ast::generic_ast::{GenericAction, GenericActions, GenericFact, GenericRule};

include!(concat!(env!("OUT_DIR"), "/ast_modules.rs"));
pub use expr::*;

#[derive(Clone, Copy, Debug, PartialEq, Eq, Hash)]
pub enum FunctionSubtype {
    Constructor,
    Custom,
}

/// A head together with the variable that stands for its call.
#[derive(Clone, Debug, PartialEq, Eq, Hash)]
pub struct CorrespondingVar<Head, Leaf> {
    pub head: Head,
    pub to: Leaf,
}

impl<Head, Leaf> CorrespondingVar<Head, Leaf> {
    pub fn new(head: Head, to: Leaf) -> Self {
        CorrespondingVar { head, to }
    }
}

impl<Head: Display, Leaf: Display> Display for CorrespondingVar<Head, Leaf> {
    fn fmt(&self, f: &mut Formatter<'_>) -> std::fmt::Result {
        write!(f, "{} for {}", self.to, self.head)
    }
}

pub type ResolvedFact = GenericFact<ResolvedCall, ResolvedVar>;
pub(crate) type ResolvedAction = GenericAction<ResolvedCall, ResolvedVar>;
pub(crate) type ResolvedActions = GenericActions<ResolvedCall, ResolvedVar>;
pub(crate) type ResolvedRule = GenericRule<ResolvedCall, ResolvedVar>;
pub(crate) type MappedFact<Head, Leaf> = GenericFact<CorrespondingVar<Head, Leaf>, Leaf>;
pub(crate) type MappedAction = GenericAction<CorrespondingVar<String, String>, String>;
pub(crate) type MappedActions<Head, Leaf> = GenericActions<CorrespondingVar<Head, Leaf>, Leaf>;

#[allow(dead_code)] // core.rs fills it, and `to_query` below is never run
pub struct Facts<Head, Leaf>(pub Vec<GenericFact<Head, Leaf>>);

type LoweredFacts<Head, Leaf> = (Query<HeadOrEq<Head>, Leaf>, Vec<MappedFact<Head, Leaf>>);

impl<Head, Leaf> Facts<Head, Leaf> {
    pub(crate) fn to_query(
        &self,
        _: &TypeInfo,
        _: &mut impl FreshGen<Head, Leaf>,
    ) -> LoweredFacts<Head, Leaf> {
        unreachable!("surface syntax is never lowered here")
    }
}

pub(crate) trait MappedExprExt<Head, Leaf> {
    fn get_corresponding_var_or_lit(&self, typeinfo: &TypeInfo) -> GenericAtomTerm<Leaf>;
}

impl<Head, Leaf: Hash> MappedExprExt<Head, Leaf> for MappedExpr<Head, Leaf> {
    fn get_corresponding_var_or_lit(&self, _: &TypeInfo) -> GenericAtomTerm<Leaf> {
        unreachable!("surface syntax is never lowered here")
    }
}
