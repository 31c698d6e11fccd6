//! Numbers from a seed, so that every run is the same; or from bytes, so that a fuzzer can choose them.

pub struct Random(Source);

enum Source {
    Seed(u64),
    Bytes(std::vec::IntoIter<u8>),
}

impl Random {
    pub fn new(seed: u64) -> Random {
        Random(Source::Seed(seed.wrapping_mul(0x9E37_79B9_7F4A_7C15) | 1))
    }

    /// Each choice takes a byte, or two where there are more than 256; where there are none left, it is 0.
    pub fn of_bytes(bytes: &[u8]) -> Random {
        Random(Source::Bytes(bytes.to_vec().into_iter()))
    }

    /// Below n; 0 where n is.
    pub fn below(&mut self, n: usize) -> usize {
        if n == 0 {
            return 0;
        }
        let chosen = match &mut self.0 {
            Source::Seed(state) => (next(state) >> 11) as usize,
            Source::Bytes(bytes) => {
                let mut byte = || bytes.next().map_or(0, usize::from);
                if n > 256 {
                    byte() << 8 | byte()
                } else {
                    byte()
                }
            }
        };
        chosen % n
    }

    /// From low to high, both included.
    pub fn between(&mut self, low: usize, high: usize) -> usize {
        low + self.below(high - low + 1)
    }

    pub fn one_in(&mut self, n: usize) -> bool {
        self.below(n) == 0
    }

    pub fn pick<T: Copy>(&mut self, all: &[T]) -> T {
        all[self.below(all.len())]
    }

    /// Mostly small; sometimes any size, the limit, or near it.
    pub fn size(&mut self, limit: usize) -> usize {
        match self.below(40) {
            0 => limit,
            1 => limit + 1,
            2 => limit - 1,
            3 => self.below(limit),
            4..8 => self.below(limit / 8),
            _ => self.between(1, 6),
        }
    }
}

/// xorshift64*
fn next(state: &mut u64) -> u64 {
    *state ^= *state >> 12;
    *state ^= *state << 25;
    *state ^= *state >> 27;
    state.wrapping_mul(0x2545_F491_4F6C_DD1D)
}
