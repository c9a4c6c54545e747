//! Jobs to time: random legal circuits of a shape, with input, coins and the honest transcript.
use std::fmt;

/// The moduli.
pub const PRIMES: [u32; 4] = [13, 65_537, 2_147_483_647, 4_294_967_291];

/// The modulus of the growth tables.
pub const LARGEST_PRIME: u32 = PRIMES[3];

/// The kinds that gates are drawn from, each as often as the others.
#[derive(Clone, Copy)]
pub struct Kinds {
    name: &'static str,
    numbers: &'static [u32],
}

/// What the gates of a circuit are where its size is what matters.
pub const SUMS_AND_PRODUCTS: Kinds = Kinds { name: "add, multiply", numbers: &[1, 2] };

/// Each kind that computes something by itself, and mixed.
pub const KINDS: [Kinds; 5] = [
    Kinds { name: "add", numbers: &[1] },
    Kinds { name: "multiply", numbers: &[2] },
    Kinds { name: "subtract", numbers: &[3] },
    SUMS_AND_PRODUCTS,
    Kinds { name: "add, multiply, subtract", numbers: &[1, 2, 3] },
];

impl fmt::Display for Kinds {
    fn fmt(&self, formatter: &mut fmt::Formatter) -> fmt::Result {
        formatter.write_str(self.name)
    }
}

/// The shape of a circuit: as many layers as its depth, the exponent of its outputs, one for all layers below them, and
/// the kinds of its gates.
#[derive(Clone, Copy)]
pub struct Shape {
    pub prime: u32,
    pub depth: usize,
    pub output_exponent: usize,
    pub exponent: usize,
    pub kinds: Kinds,
}

/// A job: what every operation needs.
pub struct Job {
    pub circuit: Vec<u32>,
    pub input: Vec<u32>,
    pub coins: Vec<u32>,
    pub outputs: Vec<u32>,
    pub messages: Vec<u32>,
    /// The words of each message.
    pub lengths: Vec<usize>,
}

/// Random numbers that are the same in every run (splitmix64).
struct Draw(u64);

impl Draw {
    fn next(&mut self) -> u64 {
        self.0 = self.0.wrapping_add(0x9e37_79b9_7f4a_7c15);
        let mut z = self.0;
        z = (z ^ (z >> 30)).wrapping_mul(0xbf58_476d_1ce4_e5b9);
        z = (z ^ (z >> 27)).wrapping_mul(0x94d0_49bb_1331_11eb);
        z ^ (z >> 31)
    }

    fn below(&mut self, bound: u32) -> u32 {
        (self.next() % u64::from(bound)) as u32
    }

    fn residues(&mut self, prime: u32, count: usize) -> Vec<u32> {
        (0..count).map(|_| self.below(prime)).collect()
    }
}

/// Gates above a layer of `next` gates. The wires of one that subtracts are in either order.
fn gates(draw: &mut Draw, kinds: Kinds, count: usize, next: u32) -> Vec<u32> {
    let mut words = Vec::with_capacity(3 * count);
    for _ in 0..count {
        let (a, b) = (draw.below(next), draw.below(next));
        let kind = kinds.numbers[draw.below(kinds.numbers.len() as u32) as usize];
        words.extend(if kind == 3 { [kind, a, b] } else { [kind, a.min(b), a.max(b)] });
    }
    words
}

fn circuit(draw: &mut Draw, shape: Shape) -> Vec<u32> {
    let width = 1 << shape.exponent;
    let mut words = vec![shape.prime, shape.depth as u32, shape.output_exponent as u32];
    words.extend(vec![shape.exponent as u32; shape.depth]);
    words.extend(gates(draw, shape.kinds, 1 << shape.output_exponent, width));
    for _ in 1..shape.depth {
        words.extend(gates(draw, shape.kinds, width as usize, width));
    }
    words
}

/// The words of each message of a shape.
fn lengths(shape: Shape) -> Vec<usize> {
    let mut layer = vec![3; 2 * shape.exponent];
    layer.push(shape.exponent + 1);
    layer.repeat(shape.depth)
}

fn job(draw: &mut Draw, shape: Shape) -> Job {
    let circuit = circuit(draw, shape);
    let input = draw.residues(shape.prime, 1 << shape.exponent);
    let lengths = lengths(shape);
    let coins = draw.residues(shape.prime, shape.output_exponent + lengths.len());
    let mut messages = vec![0; lengths.iter().sum()];
    let proof = kidlothe::prove(&circuit, &input, &coins, &mut messages).expect("the lists are legal");
    Job { circuit, input, coins, outputs: proof.outputs.to_vec(), messages, lengths }
}

/// So many jobs of a shape, so that no branch predictor learns one by heart.
pub fn jobs(shape: Shape, count: usize) -> Vec<Job> {
    let mut draw = Draw(shape.depth as u64 * 1_000_003 + shape.exponent as u64);
    (0..count).map(|_| job(&mut draw, shape)).collect()
}
