//! Arithmetic modulo one of the four listed primes.

const PRIMES: [u32; 4] = [13, 65_537, 2_147_483_647, 4_294_967_291];

/// The field of residues modulo a listed prime. All operands are residues.
#[derive(Clone, Copy)]
pub(crate) struct Field {
    prime: u32,
}

impl Field {
    /// The field of a listed prime.
    pub(crate) fn listed(prime: u32) -> Option<Field> {
        PRIMES.contains(&prime).then_some(Field { prime })
    }

    pub(crate) fn holds(self, word: u32) -> bool {
        word < self.prime
    }

    pub(crate) fn holds_all(self, words: &[u32]) -> bool {
        words.iter().all(|&word| self.holds(word))
    }

    #[inline]
    pub(crate) fn add(self, a: u32, b: u32) -> u32 {
        let sum = u64::from(a) + u64::from(b);
        let prime = u64::from(self.prime);
        (if sum >= prime { sum - prime } else { sum }) as u32
    }

    #[inline]
    pub(crate) fn sub(self, a: u32, b: u32) -> u32 {
        let difference = a.wrapping_sub(b);
        if a < b {
            difference.wrapping_add(self.prime)
        } else {
            difference
        }
    }

    #[inline]
    pub(crate) fn mul(self, a: u32, b: u32) -> u32 {
        (u64::from(a) * u64::from(b) % u64::from(self.prime)) as u32
    }

    /// The value at `z` of the line that is `low` at 0 and `high` at 1.
    #[inline]
    pub(crate) fn between(self, low: u32, high: u32, z: u32) -> u32 {
        self.add(low, self.mul(z, self.sub(high, low)))
    }

    /// The value at `z` of a polynomial, its coefficients constant first.
    pub(crate) fn value(self, coefficients: &[u32], z: u32) -> u32 {
        coefficients.iter().rev().fold(0, |value, &c| self.add(self.mul(value, z), c))
    }

    /// The value at 1 of a polynomial: the sum of its coefficients.
    pub(crate) fn value_at_one(self, coefficients: &[u32]) -> u32 {
        coefficients.iter().fold(0, |value, &c| self.add(value, c))
    }
}
