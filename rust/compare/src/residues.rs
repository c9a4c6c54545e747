//! The little arithmetic that claims and a lying prover need. All operands are residues.

pub fn add(prime: u32, a: u32, b: u32) -> u32 {
    ((u64::from(a) + u64::from(b)) % u64::from(prime)) as u32
}

pub fn sub(prime: u32, a: u32, b: u32) -> u32 {
    add(prime, a, prime - b)
}

pub fn mul(prime: u32, a: u32, b: u32) -> u32 {
    (u64::from(a) * u64::from(b) % u64::from(prime)) as u32
}

/// The value of a polynomial, its coefficients constant first.
pub fn value(prime: u32, coefficients: &[u32], z: u32) -> u32 {
    coefficients.iter().rev().fold(0, |value, &c| add(prime, mul(prime, value, z), c))
}

/// The value at 0 plus the value at 1.
pub fn ends_sum(prime: u32, coefficients: &[u32]) -> u32 {
    add(prime, coefficients[0], value(prime, coefficients, 1))
}

/// The multilinear extension of a list at a point, the first coordinate telling its lower half from its upper one.
pub fn extension(prime: u32, list: &[u32], point: &[u32]) -> u32 {
    let Some((&z, rest)) = point.split_first() else {
        return list[0];
    };
    let (low, high) = list.split_at(list.len() / 2);
    let [low, high] = [low, high].map(|half| extension(prime, half, rest));
    add(prime, low, mul(prime, z, sub(prime, high, low)))
}
