//! Sort inference for rule templates.
//!
//! A [`Problem`] is a list of constraints over numbered terms and sorts; [`Problem::solve`] says which sort each term
//! has, which constraint clashes, or which term is still open. A rule's atoms ([`Query`]) and actions ([`Actions`])
//! give their constraints by the signatures of their heads ([`Tables`]). A [`Body`] says whether its variables are
//! grounded. [`text`] answers a rule writer's text. The work is done by the proved static library; this crate sizes the
//! buffers and turns numbers into types. [`raw`] has the library's functions as they are, on flat lists.
//!
//! ```
//! use sortlib::{Context, Head, Place, Problem, Query, Sort, Tables};
//!
//! // A function from a Reading to a Metre, and an atom of it.
//! let (reading, metre) = (Sort(0), Sort(1));
//! let dist = Head(0);
//! let mut tables = Tables::new();
//! tables.function(dist, &[reading, metre]);
//!
//! let mut problem = Problem::new(0, 2);
//! let (t, d) = (problem.variable(), problem.variable());
//! let mut query = Query::new();
//! query.atom(dist, &[t, d], Place(1));
//! problem.add_query(&tables, Context(0), &query)?;
//!
//! let sorts = problem.solve()?.into_sorts()?;
//! assert_eq!(sorts.of(t), Some(reading));
//! assert_eq!(sorts.of(d), Some(metre));
//! # Ok::<(), Box<dyn std::error::Error>>(())
//! ```
//!
//! # Stack
//!
//! The library allocates nothing, so a call takes stack. What stands at a call is what a thread should have for it, and
//! is enough where this crate is built without optimisation, too. It was measured and is not proved; the package's page
//! has what was measured. Where nothing stands, 16 kB are enough: that is the least that a thread has.
#![warn(missing_docs)]

pub mod raw;

mod answer;
mod body;
mod calls;
mod error;
mod layout;
mod lists;
mod number;
mod problem;
mod record;
mod refusal;
mod tables;
mod text;

pub use answer::{Answer, Solved, Sorts};
pub use body::{Body, Grounded};
pub use calls::{Actions, Query};
pub use error::{Error, TypeError, TypeErrors};
pub use number::{Context, Contexts, Global, Head, Place, Sort, Term};
pub use problem::Problem;
pub use record::Record;
pub use refusal::Refusal;
pub use tables::{AllEqual, Tables};
pub use text::text;

/// The examples of the package's page.
#[cfg(doctest)]
#[doc = include_str!("../README.md")]
struct Readme;
