//! A small generator of random numbers: splitmix64.

#[derive(Clone, Debug)]
pub struct Rng(u64);

impl Rng {
    pub fn new(seed: u64) -> Rng {
        Rng(seed)
    }

    /// A generator of its own for one round of a seed.
    pub fn for_round(seed: u64, round: u64) -> Rng {
        let mut rng = Rng(seed);
        let mixed = rng.next_word() ^ round.wrapping_mul(0xD6E8_FEB8_6659_FD93);
        Rng(mixed)
    }

    pub fn next_word(&mut self) -> u64 {
        self.0 = self.0.wrapping_add(0x9E37_79B9_7F4A_7C15);
        let mut word = self.0;
        word = (word ^ word >> 30).wrapping_mul(0xBF58_476D_1CE4_E5B9);
        word = (word ^ word >> 27).wrapping_mul(0x94D0_49BB_1331_11EB);
        word ^ word >> 31
    }

    /// A number below the bound, which is not 0.
    pub fn below(&mut self, bound: u64) -> u64 {
        ((u128::from(self.next_word()) * u128::from(bound)) >> 64) as u64
    }

    /// A number from the first to the last, both included.
    pub fn within(&mut self, first: u64, last: u64) -> u64 {
        first + self.below(last - first + 1)
    }

    pub fn index(&mut self, len: usize) -> usize {
        self.below(len as u64) as usize
    }

    /// True so many times in a hundred.
    pub fn percent(&mut self, chance: u64) -> bool {
        self.below(100) < chance
    }

    /// One of the list; none of an empty one.
    pub fn pick<T: Copy>(&mut self, list: &[T]) -> Option<T> {
        if list.is_empty() {
            None
        } else {
            Some(list[self.index(list.len())])
        }
    }

    /// One of the list, which is not empty.
    pub fn one_of<T: Copy>(&mut self, list: &[T]) -> T {
        list[self.index(list.len())]
    }

    /// A word of the kinds that mistakes are made with.
    pub fn odd_word(&mut self) -> u64 {
        const EDGES: [u64; 17] = [
            0,
            1,
            2,
            16,
            17,
            31,
            32,
            33,
            63,
            64,
            65,
            1 << 16,
            (1 << 32) - 1,
            1 << 32,
            (1 << 32) + 1,
            1 << 63,
            u64::MAX,
        ];
        match self.below(4) {
            0 => self.next_word(),
            1 => self.below(100),
            2 => self.next_word() >> self.below(64),
            _ => self.one_of(&EDGES),
        }
    }
}
