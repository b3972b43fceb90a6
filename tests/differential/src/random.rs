//! Random numbers of our own, so that a seed gives the same cases on every machine.

use std::ops::RangeInclusive;

/// A row of random numbers (splitmix64).
pub struct Random {
    state: u64,
}

/// What the state grows by: an odd number near 2^64 divided by the golden ratio.
const STEP: u64 = 0x9E37_79B9_7F4A_7C15;

impl Random {
    /// The row for one case of a seed. Cases do not depend on each other.
    pub fn of_case(seed: u64, case: u64) -> Random {
        let mut seeds = Random { state: seed };
        Random {
            state: seeds.next() ^ case.wrapping_mul(STEP),
        }
    }

    pub fn next(&mut self) -> u64 {
        self.state = self.state.wrapping_add(STEP);
        let mut mixed = self.state;
        mixed = (mixed ^ mixed >> 30).wrapping_mul(0xBF58_476D_1CE4_E5B9);
        mixed = (mixed ^ mixed >> 27).wrapping_mul(0x94D0_49BB_1331_11EB);
        mixed ^ mixed >> 31
    }

    /// A number below `bound`, which is not 0.
    pub fn below(&mut self, bound: usize) -> usize {
        ((u128::from(self.next()) * bound as u128) >> 64) as usize
    }

    pub fn within(&mut self, range: RangeInclusive<usize>) -> usize {
        range.start() + self.below(range.end() - range.start() + 1)
    }

    /// Yes in so many cases of a hundred.
    pub fn chance(&mut self, percent: usize) -> bool {
        self.below(100) < percent
    }

    pub fn byte(&mut self) -> u8 {
        self.next() as u8
    }

    /// One of some things, each as often.
    pub fn pick<T: Copy>(&mut self, things: &[T]) -> T {
        things[self.below(things.len())]
    }

    /// One of some things, each as often as its weight says.
    pub fn weighed<T: Copy>(&mut self, things: &[(usize, T)]) -> T {
        let sum = things.iter().map(|(weight, _)| weight).sum();
        let mut left = self.below(sum);
        for &(weight, thing) in things {
            if left < weight {
                return thing;
            }
            left -= weight;
        }
        unreachable!("the weights add up")
    }
}

#[cfg(test)]
mod tests {
    use super::Random;

    #[test]
    fn a_case_is_always_the_same_and_another_is_not() {
        let first = |seed, case| Random::of_case(seed, case).next();
        assert_eq!(first(1, 7), first(1, 7));
        assert_ne!(first(1, 7), first(1, 8));
        assert_ne!(first(1, 7), first(2, 7));
    }

    #[test]
    fn numbers_keep_their_ranges() {
        let mut random = Random::of_case(1, 0);
        let mut seen = [false; 5];
        for _ in 0..1_000 {
            seen[random.below(5)] = true;
            assert!((3..=4).contains(&random.within(3..=4)));
            assert_eq!(random.weighed(&[(0, 'a'), (2, 'b')]), 'b');
        }
        assert_eq!(seen, [true; 5]);
    }
}
