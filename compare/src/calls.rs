//! Generator calls: the library's against the crate's, every cell of every list that may be written included.
use crate::problems::{counts_of, line};
use crate::tally::Tally;
use oracle::calls::lent::Which;
use oracle::calls::{Answer, Call, Caller};
use oracle::lent::Counts;
use sortlib::raw;

/// Every number that a generator can answer.
pub const NUMBERS: [usize; 9] = [0, 1, 2, 7, 8, 9, 10, 20, 21];

/// The call's answer and lists after it. `caller` carries the crate's problem on from one call to the next.
pub fn compare(caller: &mut Caller, call: &Call, tally: &mut Tally) -> Answer {
    let ours = through_the_library(call);
    let theirs = caller.answer(call);
    if alike(&ours, &theirs) {
        tally.same(ours.number);
    } else {
        let size = call.item_list.len() + call.argument_list.len() + call.problem.record_list.len();
        tally.differs(size, line_of(call), ours.to_string(), theirs.to_string());
    }
    ours
}

fn alike(one: &Answer, other: &Answer) -> bool {
    let told = |answer: &Answer| (answer.number, answer.head, answer.place);
    let (a, b) = (&one.after, &other.after);
    told(one) == told(other)
        && a.problem.counts == b.problem.counts
        && a.term_list == b.term_list
        && a.problem.record_list == b.problem.record_list
        && a.problem.side_list == b.problem.side_list
        && a.problem.top_list == b.problem.top_list
        && a.problem.range_list == b.problem.range_list
}

pub fn through_the_library(call: &Call) -> Answer {
    let mut after = call.clone();
    let added = match call.which {
        Which::Query => query(call, &mut after),
        Which::Actions => actions(call, &mut after),
        Which::Local => local(call, &mut after),
    };
    let c = added.counts;
    after.problem.counts = Counts {
        records: c.records,
        side: c.side,
        tops: c.tops,
        range: c.range,
        terms: c.terms,
        sorts: c.sorts,
    };
    Answer {
        number: added.number,
        head: added.head,
        place: added.place,
        after,
    }
}

fn lent_of(call: &Call) -> raw::Lent {
    raw::Lent {
        signatures: call.signatures,
        signature_sorts: call.signature_sorts,
        globals: call.globals,
        context: call.context,
        calls: call.items,
        arguments: call.arguments,
    }
}

fn query(call: &Call, after: &mut Call) -> raw::Added {
    let problem = &mut after.problem;
    raw::add_query(
        lent_of(call),
        counts_of(&call.problem),
        &call.signature_list,
        &call.signature_sort_list,
        &call.global_list,
        &call.term_list,
        &call.item_list,
        &call.argument_list,
        &mut problem.record_list,
        &mut problem.side_list,
        &mut problem.top_list,
        &mut problem.range_list,
    )
}

fn actions(call: &Call, after: &mut Call) -> raw::Added {
    let problem = &mut after.problem;
    raw::add_actions(
        lent_of(call),
        counts_of(&call.problem),
        &call.signature_list,
        &call.signature_sort_list,
        &call.global_list,
        &mut after.term_list,
        &call.item_list,
        &call.argument_list,
        &mut problem.record_list,
        &mut problem.side_list,
        &mut problem.top_list,
        &mut problem.range_list,
    )
}

fn local(call: &Call, after: &mut Call) -> raw::Added {
    let (term, sort, place) = call.local();
    let problem = &mut after.problem;
    raw::assign_local(
        counts_of(&call.problem),
        term,
        sort,
        place,
        &call.term_list,
        &call.problem.side_list,
        &mut problem.record_list,
        &mut problem.top_list,
        &mut problem.range_list,
    )
}

/// The call as the oracle's program `calls` reads it.
fn line_of(call: &Call) -> String {
    let which = match call.which {
        Which::Query => 0,
        Which::Actions => 1,
        Which::Local => 2,
    };
    let mut numbers = vec![which, call.context, call.signatures, call.signature_sorts];
    numbers.extend([call.globals, call.items, call.arguments]);
    let (problem, c) = (&call.problem, call.problem.counts);
    numbers.extend([c.records, c.side, c.tops, c.range, c.terms, c.sorts]);
    let lists = [
        &call.signature_list,
        &call.signature_sort_list,
        &call.global_list,
        &call.term_list,
        &problem.record_list,
        &problem.side_list,
        &problem.top_list,
        &problem.range_list,
        &call.item_list,
        &call.argument_list,
    ];
    for list in lists {
        numbers.push(list.len());
        numbers.extend(list);
    }
    line(&numbers)
}
