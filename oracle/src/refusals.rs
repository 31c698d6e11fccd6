//! Refusals 1 to 6, written from document 01 and its readings of it. The crate has none of these tests.
use crate::lent::*;

pub(crate) const MOST_RECORDS: usize = 512;
pub(crate) const MOST_SIDE: usize = 2048;
pub(crate) const MOST_TOPS: usize = 512;
pub(crate) const MOST_RANGE: usize = 256;
pub(crate) const MOST_TERMS: usize = 256;
pub(crate) const MOST_SORTS: usize = 256;
const MOST_DEPTH: usize = 8;
pub(crate) const MOST_EXPECTED: usize = 9999;
pub(crate) const WORK_CELLS_EACH: usize = 18;

/// The first refusal that applies. Each test may lean on those before it having passed.
pub fn refusal(lent: &Lent) -> Option<usize> {
    let tests: [fn(&Lent) -> bool; 6] = [
        a_count_is_too_large,
        a_value_is_out_of_range,
        records_are_no_trees,
        nesting_is_too_deep,
        work_room_is_too_small,
        an_answer_has_no_room,
    ];
    (1..).zip(tests).find(|(_, t)| t(lent)).map(|(n, _)| n)
}

/// 1: against the largest size, and against what the list holds in whole entries.
pub(crate) fn a_count_is_too_large(lent: &Lent) -> bool {
    let counts = &lent.counts;
    counts.records > MOST_RECORDS
        || counts.records > lent.record_list.len() / RECORD_CELLS
        || counts.side > MOST_SIDE
        || counts.side > lent.side_list.len()
        || counts.tops > MOST_TOPS
        || counts.tops > lent.top_list.len()
        || counts.range > MOST_RANGE
        || counts.range > lent.range_list.len() / RANGE_CELLS
        || counts.terms > MOST_TERMS
        || counts.sorts > MOST_SORTS
}

/// 2: record numbers are not looked at here.
pub(crate) fn a_value_is_out_of_range(lent: &Lent) -> bool {
    let terms = lent.counts.terms;
    (0..lent.counts.records).any(|r| bad_record(lent, lent.record(r)))
        || lent.range().any(|entry| entry.term >= terms)
}

fn bad_record(lent: &Lent, record: Record) -> bool {
    let (terms, sorts) = (lent.counts.terms, lent.counts.sorts);
    match record.kind {
        EQ => record.v1 >= terms || record.v2 >= terms,
        ASSIGN => record.v1 >= terms || record.v2 >= sorts,
        AND | XOR => bad_part(lent, record),
        IMPOSSIBLE => record.v2 < 1 || record.v2 > MOST_EXPECTED,
        IMPLIES => bad_part(lent, record) || lent.part(record).iter().any(|&t| t >= terms),
        _ => true,
    }
}

/// Start and count together may reach the side count and no further.
fn bad_part(lent: &Lent, record: Record) -> bool {
    reaches_past(record.v1, record.v2, lent.counts.side)
}

/// Whether a part goes on past the end of a list of so many cells. Start and count together may not fit a cell.
pub(crate) fn reaches_past(start: usize, count: usize, cells: usize) -> bool {
    match start.checked_add(count) {
        Some(end) => end > cells,
        None => true,
    }
}

/// 3: a child is below its parent, and every record is named once, by a parent or as a top-level entry.
fn records_are_no_trees(lent: &Lent) -> bool {
    let mut named = vec![0; lent.counts.records];
    for parent in 0..lent.counts.records {
        for child in lent.children(lent.record(parent)) {
            if child >= parent {
                return true;
            }
            named[child] += 1;
        }
    }
    for &top in lent.tops() {
        if top >= lent.counts.records {
            return true;
        }
        named[top] += 1;
    }
    named.iter().any(|&times| times != 1)
}

/// 4: parents come after their children, so one walk from the last record down gives every depth.
fn nesting_is_too_deep(lent: &Lent) -> bool {
    let mut depth = vec![1; lent.counts.records];
    for parent in (0..lent.counts.records).rev() {
        for child in lent.children(lent.record(parent)) {
            depth[child] = depth[parent] + 1;
        }
    }
    depth.iter().any(|&d| d > MOST_DEPTH)
}

/// 5
fn work_room_is_too_small(lent: &Lent) -> bool {
    lent.work < WORK_CELLS_EACH * (lent.counts.terms + lent.counts.records)
}

/// 6: the error list is counted in whole entries.
fn an_answer_has_no_room(lent: &Lent) -> bool {
    lent.sort_list < lent.counts.terms || lent.errors / ENTRY_CELLS < lent.counts.records
}
