//! A small pseudo-random generator (splitmix64), so that a seed gives the same cases everywhere.

pub struct Random {
    state: u64,
}

impl Random {
    /// A stream of its own for each seed and index.
    pub fn new(seed: u64, index: u64) -> Random {
        let mut random = Random { state: seed };
        random.state = random.next_number().wrapping_add(index);
        random.state = random.next_number();
        random
    }

    pub fn next_number(&mut self) -> u64 {
        self.state = self.state.wrapping_add(0x9E37_79B9_7F4A_7C15);
        let mixed = (self.state ^ self.state >> 30).wrapping_mul(0xBF58_476D_1CE4_E5B9);
        let mixed = (mixed ^ mixed >> 27).wrapping_mul(0x94D0_49BB_1331_11EB);
        mixed ^ mixed >> 31
    }

    /// A number below the bound, which must not be 0.
    pub fn below(&mut self, bound: usize) -> usize {
        (self.next_number() % bound as u64) as usize
    }

    /// A number from `least` to `most`, both included.
    pub fn within(&mut self, least: usize, most: usize) -> usize {
        least + self.below(most - least + 1)
    }

    pub fn percent(&mut self, chance: usize) -> bool {
        self.below(100) < chance
    }

    pub fn pick<T: Copy>(&mut self, choices: &[T]) -> T {
        choices[self.below(choices.len())]
    }

    /// `count` different numbers below the bound, in random order.
    pub fn different(&mut self, count: usize, bound: usize) -> Vec<u8> {
        let mut numbers: Vec<u8> = (0..bound).map(|number| number as u8).collect();
        for position in 0..bound {
            numbers.swap(position, self.within(position, bound - 1));
        }
        numbers.truncate(count);
        numbers
    }
}
