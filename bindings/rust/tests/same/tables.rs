//! Tables, both ways.
use crate::flat::{present, Calls};
use crate::random::Random;
use crate::{HEADS, JUNK};
use sortlib::raw::Lent;
use sortlib::{AllEqual, Contexts, Head, Sort, Tables};

/// Tables, and the same as flat lists.
#[derive(Default)]
pub struct BothTables {
    pub tables: Tables,
    pub signatures: Vec<[usize; 10]>,
    pub sorts: Vec<usize>,
    pub globals: Vec<usize>,
}

impl BothTables {
    pub fn random(random: &mut Random, sorts: usize) -> BothTables {
        let mut both = BothTables::default();
        let many = if random.one_in(50) { 257 } else { 8 };
        for _ in 0..random.below(many + 1) {
            both.add_signature(random, sorts);
        }
        for _ in 0..random.below(4) {
            let sort = Some(random.number(sorts)).filter(|_| !random.one_in(5));
            both.tables.global(sort.map(Sort));
            both.globals.push(present(sort));
        }
        both
    }

    fn add_signature(&mut self, random: &mut Random, sorts: usize) {
        let (kind, head, mask) = (random.below(4), random.number(HEADS), random.number(256));
        if kind == 3 {
            return self.add_all_equal(random, head, mask, sorts);
        }
        let most = if random.one_in(20) { 0 } else { 3 };
        let cells = random.numbers(most, sorts);
        let listed: Vec<Sort> = cells.iter().copied().map(Sort).collect();
        match kind {
            0 => self.tables.function(Head(head), &listed),
            1 => self.tables.constructor(Head(head), &listed),
            _ => {
                let contexts = Contexts::from_mask(mask);
                self.tables.simple(Head(head), contexts, &listed);
            }
        }
        let read = if kind == 2 { mask } else { JUNK };
        let (start, count) = (self.sorts.len(), cells.len());
        self.signatures
            .push([kind, head, read, start, count, JUNK, JUNK, JUNK, JUNK, JUNK]);
        self.sorts.extend(cells);
    }

    fn add_all_equal(&mut self, random: &mut Random, head: usize, mask: usize, sorts: usize) {
        let mut form = AllEqual::new();
        let [common, length, output] = [sorts, 4, sorts].map(|bound| {
            let value = random.number(bound);
            Some(value).filter(|_| random.one_in(2))
        });
        if let Some(sort) = common {
            form = form.with_all_arguments_sort(Sort(sort));
        }
        if let Some(length) = length {
            form = form.with_exact_length(length);
        }
        if let Some(sort) = output {
            form = form.with_output_sort(Sort(sort));
        }
        self.tables
            .all_equal(Head(head), Contexts::from_mask(mask), form);
        let [common, length, output] = [common, length, output].map(present);
        self.signatures.push([
            3, head, mask, JUNK, JUNK, common, length, output, JUNK, JUNK,
        ]);
    }

    pub fn lent(&self, context: usize, calls: &Calls) -> Lent {
        Lent {
            signatures: self.signatures.len(),
            signature_sorts: self.sorts.len(),
            globals: self.globals.len(),
            context,
            calls: calls.calls.len(),
            arguments: calls.arguments.len(),
        }
    }
}
