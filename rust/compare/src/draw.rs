//! Pseudorandom draws, repeatable from a seed.

/// A splitmix generator.
#[derive(Clone)]
pub struct Draw(u64);

impl Draw {
    /// The generator of one unit of work.
    pub fn new(seed: u64, unit: u64) -> Self {
        let mut draw = Draw(seed);
        let mixed = draw.next();
        Draw(mixed ^ unit.wrapping_mul(0xd134_2543_de82_ef95))
    }

    fn next(&mut self) -> u64 {
        self.0 = self.0.wrapping_add(0x9e37_79b9_7f4a_7c15);
        let mixed = (self.0 ^ (self.0 >> 30)).wrapping_mul(0xbf58_476d_1ce4_e5b9);
        let mixed = (mixed ^ (mixed >> 27)).wrapping_mul(0x94d0_49bb_1331_11eb);
        mixed ^ (mixed >> 31)
    }

    pub fn word(&mut self) -> u32 {
        (self.next() >> 32) as u32
    }

    /// A number below the limit.
    pub fn below(&mut self, limit: usize) -> usize {
        ((u64::from(self.word()) * limit as u64) >> 32) as usize
    }

    pub fn one_in(&mut self, turns: usize) -> bool {
        self.below(turns) == 0
    }

    pub fn pick<T: Copy>(&mut self, choices: &[T]) -> T {
        choices[self.below(choices.len())]
    }

    /// A residue, one of 0, 1 and p - 1 a quarter of the time.
    pub fn residue(&mut self, prime: u32) -> u32 {
        if self.one_in(4) {
            self.special(prime)
        } else {
            self.word() % prime
        }
    }

    pub fn special(&mut self, prime: u32) -> u32 {
        self.pick(&[0, 1, prime - 1])
    }

    /// A residue that is not the given word.
    pub fn other_residue(&mut self, prime: u32, word: u32) -> u32 {
        let other = self.residue(prime);
        if other == word {
            (other + 1) % prime
        } else {
            other
        }
    }

    /// A word that is at least the limit.
    pub fn at_least(&mut self, limit: u32) -> u32 {
        let room = (u32::MAX - limit) as usize + 1;
        let any = limit + self.below(room) as u32;
        self.pick(&[limit, u32::MAX, any])
    }

    pub fn words(&mut self, count: usize) -> Vec<u32> {
        (0..count).map(|_| self.word()).collect()
    }
}
