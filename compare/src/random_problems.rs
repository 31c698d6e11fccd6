//! Random problems of every size, some at a limit or one past it, some with damaged cells.
use crate::build::{Builder, Tree};
use crate::damage;
use crate::problems::compare;
use crate::random::Random;
use crate::spread::spread;
use crate::tally::Tally;
use oracle::lent::Lent;

/// The largest side list.
const SIDE: usize = 2048;

pub fn random(count: u64) -> Tally {
    spread("problems at random", count, |seed, tally| {
        one(&mut Random::new(seed + 1), tally);
    })
}

pub fn one(random: &mut Random, tally: &mut Tally) {
    let mut lent = problem(random);
    if random.one_in(3) {
        damage(&mut lent, random);
    }
    compare(&lent, tally);
}

pub fn problem(random: &mut Random) -> Lent {
    let terms = random.size(256);
    let sorts = random.size(256);
    let records = random.size(512);
    let deep = if random.one_in(8) {
        9
    } else {
        random.between(1, 8)
    };
    let mut builder = Builder::default();
    while builder.records() < records {
        let room = records - builder.records();
        let tree = tree(random, terms, sorts, deep, room.min(40));
        builder.top(&tree);
    }
    if random.one_in(40) {
        let deep = random.between(7, 9);
        builder.top(&tower(random, terms, sorts, deep));
    }
    if random.one_in(40) {
        builder.top(&watching(random, terms, SIDE - builder.side().min(SIDE)));
    }
    let asked = if random.one_in(20) {
        random.size(256)
    } else {
        random.below(6)
    };
    for place in 0..asked {
        builder.ask(random.below(terms.max(1)), place);
    }
    let mut lent = builder.lent(terms, sorts);
    if random.one_in(40) {
        // one entry too many: past the largest size, or a record named twice
        lent.top_list.push(random.below(records.max(1)));
        lent.counts.tops += 1;
    }
    // more room than needed, exactly enough, or one cell less
    for room in [&mut lent.work, &mut lent.sort_list, &mut lent.errors] {
        match random.below(30) {
            0 => *room = room.saturating_sub(1),
            1..6 => *room += random.below(20),
            _ => {}
        }
    }
    lent
}

/// An Implies that fills the side list, but for a cell, or past it by one.
fn watching(random: &mut Random, terms: usize, left: usize) -> Tree {
    let count = random.between(left.saturating_sub(1), left + 1);
    let watched = (0..count).map(|_| random.below(terms.max(1))).collect();
    Tree::Implies(watched, Box::new(Tree::And(vec![])))
}

/// One child in another, so many levels deep.
fn tower(random: &mut Random, terms: usize, sorts: usize, deep: usize) -> Tree {
    if deep == 1 {
        return tree(random, terms, sorts, 1, 1);
    }
    let below = tower(random, terms, sorts, deep - 1);
    match random.below(3) {
        0 => Tree::And(vec![below]),
        1 => Tree::Xor(vec![below]),
        _ => Tree::Implies(vec![], Box::new(below)),
    }
}

/// A tree of at most so many records and so deep.
fn tree(random: &mut Random, terms: usize, sorts: usize, deep: usize, room: usize) -> Tree {
    let term = |random: &mut Random| random.below(terms.max(1));
    if deep <= 1 || room <= 1 || random.one_in(3) {
        return match random.below(20) {
            0 => Tree::Impossible(random.below(9), random.between(1, 9999)),
            1..8 => Tree::Eq(term(random), term(random)),
            _ => Tree::Assign(term(random), random.below(sorts.max(1))),
        };
    }
    if random.one_in(4) {
        let watched = (0..random.below(4)).map(|_| term(random)).collect();
        let child = tree(random, terms, sorts, deep - 1, room - 1);
        return Tree::Implies(watched, Box::new(child));
    }
    let count = random.below(5).min(room - 1);
    let each = if count == 0 { 0 } else { (room - 1) / count };
    let children = (0..count)
        .map(|_| tree(random, terms, sorts, deep - 1, each))
        .collect();
    if random.one_in(3) {
        Tree::And(children)
    } else {
        Tree::Xor(children)
    }
}

fn damage(lent: &mut Lent, random: &mut Random) {
    let counts = &mut lent.counts;
    damage::damage(
        &mut [
            &mut counts.records,
            &mut counts.side,
            &mut counts.tops,
            &mut counts.range,
            &mut counts.terms,
            &mut counts.sorts,
        ],
        &mut [
            &mut lent.record_list,
            &mut lent.side_list,
            &mut lent.top_list,
            &mut lent.range_list,
        ],
        random,
    );
}
