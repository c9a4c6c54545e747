//! Honest transcripts of drawn circuits, and the messages written out from the definition.

use crate::{check, prove, prove_one};

const SEED: u64 = 0x51ed_2701_90ab_4c3d;
const PRIMES: [u32; 4] = [13, 65_537, 2_147_483_647, 4_294_967_291];

/// A splitmix generator.
struct Draw(u64);

impl Draw {
    fn word(&mut self) -> u32 {
        self.0 = self.0.wrapping_add(0x9e37_79b9_7f4a_7c15);
        let mixed = (self.0 ^ (self.0 >> 30)).wrapping_mul(0xbf58_476d_1ce4_e5b9);
        let mixed = (mixed ^ (mixed >> 27)).wrapping_mul(0x94d0_49bb_1331_11eb);
        (mixed >> 32) as u32
    }

    fn below(&mut self, limit: u32) -> u32 {
        self.word() % limit
    }

    fn residues(&mut self, prime: u32, count: usize) -> Vec<u32> {
        (0..count).map(|_| self.below(prime)).collect()
    }

    /// A circuit list for the exponents of all layers.
    fn circuit(&mut self, prime: u32, exponents: &[u32]) -> Vec<u32> {
        let mut words = vec![prime, exponents.len() as u32 - 1];
        words.extend(exponents);
        for pair in exponents.windows(2) {
            for _ in 0..1 << pair[0] {
                words.extend(self.gate(1 << pair[1]));
            }
        }
        words
    }

    /// A gate over a layer of the width.
    fn gate(&mut self, width: u32) -> [u32; 3] {
        let (kind, one, other) = (self.below(4), self.below(width), self.below(width));
        match kind {
            0 => [0; 3],
            3 => [kind, one, other],
            _ => [kind, one.min(other), one.max(other)],
        }
    }
}

fn coin_count(exponents: &[u32]) -> usize {
    exponents[1..].iter().fold(exponents[0] as usize, |count, &k| count + 2 * k as usize + 1)
}

#[test]
fn honest_transcripts_are_accepted_and_false_outputs_refused() {
    println!("seed {SEED:#x}");
    let mut draw = Draw(SEED);
    for turn in 0..200 {
        let prime = PRIMES[turn % 4];
        let depth = 1 + draw.below(4) as usize;
        let mut exponents = vec![draw.below(5)];
        exponents.extend((0..depth).map(|_| draw.below(if turn < 4 { 9 } else { 4 })));
        let circuit = draw.circuit(prime, &exponents);
        let input = draw.residues(prime, 1 << exponents[depth]);
        let coins = draw.residues(prime, coin_count(&exponents));
        let mut messages = [0; 684];
        let (mut outputs, words) = prove(&circuit, &input, &coins, &mut messages).unwrap();
        let messages = &messages[..words];
        assert_eq!(check(&circuit, &input, &outputs, &coins, messages), Ok(()), "turn {turn}");
        assert_eq!(single_messages(&circuit, &input, &coins), messages, "turn {turn}");
        // All words too high by one, so that the claim is so at any point.
        outputs.iter_mut().for_each(|output| *output = (*output + 1) % prime);
        let cause = if exponents[1] == 0 { 17 } else { 16 };
        assert_eq!(check(&circuit, &input, &outputs, &coins, messages), Err(cause), "turn {turn}");
    }
}

fn single_messages(circuit: &[u32], input: &[u32], coins: &[u32]) -> Vec<u32> {
    let mut all = Vec::new();
    for prefix in circuit[2] as usize..coins.len() {
        let mut buffer = [0; 9];
        let words = prove_one(circuit, input, &coins[..prefix], &mut buffer).unwrap();
        all.extend(&buffer[..words]);
    }
    all
}

/// The weight of an index, straight from the definition, modulo 13.
fn weight(index: usize, point: &[i64]) -> i64 {
    let k = point.len();
    (0..k).map(|j| if index >> (k - 1 - j) & 1 == 1 { point[j] } else { 1 - point[j] }).product::<i64>() % 13
}

fn extension(list: &[u32], point: &[i64]) -> i64 {
    list.iter().enumerate().map(|(index, &value)| i64::from(value) * weight(index, point)).sum::<i64>() % 13
}

/// The summand of the first layer at (u, v), the first point being z.
fn summand(gates: &[u32], values: &[u32], z: &[i64], (u, v): (&[i64], &[i64])) -> i64 {
    let ends = (extension(values, u), extension(values, v));
    let terms = gates.chunks(3).enumerate().map(|(index, gate)| {
        let value = match gate[0] {
            0 => 0,
            1 => ends.0 + ends.1,
            2 => ends.0 * ends.1,
            _ => ends.0 - ends.1,
        };
        let wires = weight(gate[1] as usize, u) * weight(gate[2] as usize, v) % 13;
        weight(index, z) * wires % 13 * value % 13
    });
    terms.sum()
}

#[test]
fn first_layer_messages_are_the_sums_of_the_definition() {
    println!("seed {SEED:#x}");
    let mut draw = Draw(SEED);
    for turn in 0..60 {
        let (first, k) = (turn % 5, 1 + turn % 3);
        let circuit = draw.circuit(13, &[first as u32, k as u32]);
        let values = draw.residues(13, 1 << k);
        let coins = draw.residues(13, first + 2 * k);
        for round in 0..2 * k {
            let prefix = &coins[..first + round];
            let mut message = [0; 3];
            assert_eq!(prove_one(&circuit, &values, prefix, &mut message), Ok(3));
            for x in 0..3 {
                let expected = open_sum(&circuit[4..], &values, prefix, x, (first, k));
                let [a, b, c] = message.map(i64::from);
                assert_eq!((a + x * (b + x * c) - expected).rem_euclid(13), 0, "turn {turn} round {round} at {x}");
            }
        }
    }
}

/// The sum over {0, 1} of the coordinates after x: a first point, then two points of k coordinates.
fn open_sum(gates: &[u32], values: &[u32], fixed: &[u32], x: i64, (first, k): (usize, usize)) -> i64 {
    let open = first + 2 * k - fixed.len() - 1;
    let sums = (0..1i64 << open).map(|bits| {
        let mut point: Vec<i64> = fixed.iter().map(|&z| i64::from(z)).collect();
        point.push(x);
        point.extend((0..open).map(|j| bits >> j & 1));
        let (z, ends) = point.split_at(first);
        summand(gates, values, z, ends.split_at(k))
    });
    sums.sum()
}
