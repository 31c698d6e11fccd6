//! Compiles egglog 3.0.0's own src/constraint.rs, with core.rs, util.rs and ast/expr.rs, and runs it.
//!
//! The crate's files name their surroundings through `crate::*`; `ast`, `sort` and `typechecking` are shims of those
//! surroundings with just what these files read. The harness is in the remaining modules.

use std::fmt::{Debug, Display, Formatter};
use std::hash::Hash;
use std::iter::once;
use std::sync::Arc;

// `constraint`, `core` and `util`: the crate's text, as it stands.
include!(concat!(env!("OUT_DIR"), "/root_modules.rs"));

#[path = "shims/ast.rs"]
mod ast;
#[path = "shims/sort.rs"]
pub mod sort;
#[path = "shims/typechecking.rs"]
mod typechecking;

#[cfg(test)]
#[path = "shims/tests.rs"]
mod shims_tests;

use crate::ast::*;
use crate::constraint::Constraint;
use crate::core::{AtomTerm, ResolvedAtomTerm, ResolvedCall};
use crate::sort::{ArcSort, UnitSort, literal_sort};
use crate::typechecking::{Context, ExternalFunctionId, TypeError, TypeInfo};
use crate::util::*;
use egglog_ast::generic_ast::Literal;

pub mod answer;
pub mod calls;
pub mod grounded;
pub mod lent;
pub mod lines;
pub mod measuring;
pub mod refusals;
pub mod solving;
pub mod text;
pub mod type_errors;
