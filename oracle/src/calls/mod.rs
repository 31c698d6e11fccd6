//! Generator calls: what each leaves in its result and in every list that it is lent.
mod adding;
mod alike;
pub mod layout;
pub mod lent;
pub(crate) mod names;
mod reading;
pub mod refusals;
mod running;

pub(crate) use adding::{Added, add};
pub(crate) use alike::solve_both;
pub use lent::Call;
pub(crate) use running::World;

use crate::answer::write_runs;
use layout::Layout;
use std::fmt;

pub struct Answer {
    pub number: usize,
    pub head: usize,
    pub place: usize,
    /// Counts and lists after the call.
    pub after: Call,
}

/// Answers calls one after another. Where a call is lent just what the one before it left, terms perhaps added, the
/// crate's own problem is carried on as well.
#[derive(Default)]
pub struct Caller {
    last: Option<Added>,
}

impl Caller {
    pub fn answer(&mut self, call: &Call) -> Answer {
        let mut after = call.clone();
        let refused = match refusals::refusal(call) {
            Some(number) => Some((number, 0, 0)),
            None => match self.add(call) {
                Ok(layout) => {
                    layout.write_to(&mut after);
                    None
                }
                Err(refused) => Some((refused.number, refused.head, refused.place)),
            },
        };
        let (number, head, place) = refused.unwrap_or((0, 0, 0));
        Answer {
            number,
            head,
            place,
            after,
        }
    }

    fn add(&mut self, call: &Call) -> Result<Layout, adding::Refused> {
        let carried = self.last.as_ref().filter(|last| carries_on(last, call));
        let mut world = match carried {
            Some(last) => last.world.copy(),
            None => World::at_entry_of(call),
        };
        world.name_new_terms(call);
        let built_from_nothing = carried.is_some() || has_nothing(call);
        let added = add(call, &world)?;
        let layout = added.layout.clone();
        if built_from_nothing {
            let counts = call.problem.counts;
            solve_both(&added, counts.sorts, &call.problem.line);
            self.last = Some(added);
        }
        Ok(layout)
    }
}

fn has_nothing(call: &Call) -> bool {
    let counts = call.problem.counts;
    counts.records == 0 && counts.tops == 0 && counts.range == 0
}

fn carries_on(last: &Added, call: &Call) -> bool {
    let (left, lent) = (&last.layout, Layout::of(call));
    left.records == lent.records
        && left.side == lent.side
        && left.tops == lent.tops
        && left.range == lent.range
        && lent.terms.starts_with(&left.terms)
}

impl fmt::Display for Answer {
    fn fmt(&self, f: &mut fmt::Formatter<'_>) -> fmt::Result {
        let problem = &self.after.problem;
        let counts = problem.counts;
        write!(f, "{} {} {}", self.number, self.head, self.place)?;
        write!(f, " {} {} {}", counts.records, counts.side, counts.tops)?;
        write!(f, " {} {} {}", counts.range, counts.terms, counts.sorts)?;
        write_runs(f, "terms", &self.after.term_list)?;
        write_runs(f, "records", &problem.record_list)?;
        write_runs(f, "side", &problem.side_list)?;
        write_runs(f, "tops", &problem.top_list)?;
        write_runs(f, "range", &problem.range_list)
    }
}
