//! What was run: how many of each answer number, and the smallest input whose answers differ.
use std::collections::BTreeMap;

#[derive(Default)]
pub struct Tally {
    pub group: &'static str,
    pub runs: u64,
    pub numbers: BTreeMap<usize, u64>,
    difference: Option<Difference>,
}

struct Difference {
    count: u64,
    size: usize,
    input: String,
    ours: String,
    theirs: String,
}

impl Tally {
    pub fn new(group: &'static str) -> Tally {
        Tally {
            group,
            ..Tally::default()
        }
    }

    pub fn same(&mut self, number: usize) {
        self.runs += 1;
        *self.numbers.entry(number).or_default() += 1;
    }

    /// The input is one line that the oracle's program of this group reads.
    pub fn differs(&mut self, size: usize, input: String, ours: String, theirs: String) {
        self.runs += 1;
        let count = self.difference.as_ref().map_or(0, |d| d.count) + 1;
        if let Some(known) = self.difference.as_mut().filter(|d| d.size <= size) {
            known.count = count;
            return;
        }
        self.difference = Some(Difference {
            count,
            size,
            input,
            ours,
            theirs,
        });
    }

    /// No difference was seen.
    pub fn alike(&self) -> bool {
        self.difference.is_none()
    }

    pub fn join(&mut self, other: Tally) {
        self.runs += other.runs;
        for (number, count) in other.numbers {
            *self.numbers.entry(number).or_default() += count;
        }
        let Some(new) = other.difference else { return };
        match self.difference.as_mut() {
            Some(old) if old.size <= new.size => old.count += new.count,
            Some(old) => {
                let count = old.count + new.count;
                *old = Difference { count, ..new };
            }
            None => self.difference = Some(new),
        }
    }

    /// Prints what was run. Whether all was alike and every number was seen.
    pub fn report(&self, expected: &[usize]) -> bool {
        println!("{}: {} runs", self.group, self.runs);
        for (number, count) in &self.numbers {
            println!("  answer {number}: {count}");
        }
        let missing: Vec<_> = expected
            .iter()
            .filter(|n| !self.numbers.contains_key(n))
            .collect();
        if !missing.is_empty() {
            println!("  never seen: {missing:?}");
        }
        if let Some(d) = &self.difference {
            println!("  {} DIFFERENCES; the smallest:", d.count);
            println!("  input  {}", d.input);
            println!("  ours   {}", d.ours);
            println!("  crate  {}", d.theirs);
        }
        missing.is_empty() && self.alike()
    }
}
