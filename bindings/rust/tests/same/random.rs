//! Numbers that look random.
use sortlib::Term;

pub struct Random {
    state: u64,
    /// Whether numbers may be out of range.
    wild: bool,
}

impl Random {
    pub fn new(case: u64) -> Random {
        Random {
            state: case << 32 | case,
            wild: case % 2 == 0,
        }
    }

    /// Below the bound; 0 where that is 0.
    pub fn below(&mut self, bound: usize) -> usize {
        self.state ^= self.state << 13;
        self.state ^= self.state >> 7;
        self.state ^= self.state << 17;
        (self.state >> 11) as usize % bound.max(1)
    }

    pub fn one_in(&mut self, many: usize) -> bool {
        self.below(many) == 0
    }

    /// Mostly below the bound; where numbers are wild, now and then not.
    pub fn number(&mut self, bound: usize) -> usize {
        if self.wild && self.one_in(100) {
            [bound, 256, 10_000, usize::MAX][self.below(4)]
        } else {
            self.below(bound)
        }
    }

    pub fn numbers(&mut self, most: usize, bound: usize) -> Vec<usize> {
        (0..self.below(most + 1))
            .map(|_| self.number(bound))
            .collect()
    }
}

pub fn terms(numbers: &[usize]) -> Vec<Term> {
    numbers.iter().copied().map(Term).collect()
}
