//! A rule's body, both ways.
use crate::random::{terms, Random};
use crate::{refusal, JUNK};
use sortlib::raw::{self, BodyCounts};
use sortlib::{Body, Grounded, Term};

/// A body, both ways; the answer number.
pub fn check_body(random: &mut Random) -> usize {
    let (mut body, mut flat_terms) = (Body::new(), Vec::new());
    let many = if random.one_in(50) { 257 } else { 6 };
    for number in 0..random.below(many + 1) {
        let kind = random.below(3);
        let term = match kind {
            0 => body.variable(),
            1 => body.global(),
            _ => body.literal(),
        };
        assert_eq!(term, Term(number));
        flat_terms.push([kind, JUNK]);
    }
    let (mut atoms, mut arguments) = (Vec::new(), Vec::new());
    let many = if random.one_in(50) { 600 } else { 6 };
    for _ in 0..random.below(many + 1) {
        let part = random.numbers(3, flat_terms.len());
        let kind = match (&part[..], random.below(3)) {
            ([x, y], 2) => {
                body.equal(Term(*x), Term(*y));
                2
            }
            (_, 1) => {
                body.primitive(&terms(&part));
                1
            }
            _ => {
                body.function(&terms(&part));
                0
            }
        };
        let (start, count) = (arguments.len(), part.len());
        atoms.push([kind, JUNK, start, count, JUNK, JUNK, JUNK, JUNK]);
        arguments.extend(part);
    }
    let counts = BodyCounts {
        atoms: atoms.len(),
        arguments: arguments.len(),
        terms: flat_terms.len(),
    };
    let outcome = raw::grounded_check(
        counts,
        0,
        &atoms.concat(),
        &arguments,
        &flat_terms.concat(),
        &mut vec![JUNK; 18 * (counts.terms + 512)],
        &mut vec![JUNK; counts.terms],
        &mut vec![JUNK; 8 * 512],
    );
    match body.check() {
        Ok(Grounded::All { passes, .. }) => {
            assert_eq!((0, passes), (outcome.number, outcome.passes));
        }
        Ok(Grounded::Not { term, passes, .. }) => {
            let found = (outcome.number, outcome.term, outcome.passes);
            assert_eq!((40, term.0, passes), found);
        }
        Ok(_) => panic!("a kind of answer that the page has not"),
        Err(refused) => assert_eq!(refused, refusal(outcome.number, 0, 0)),
    }
    outcome.number
}
