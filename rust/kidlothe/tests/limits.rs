//! The crate's limits are those of the largest circuit that the library takes.
use kidlothe::{
    evaluate, load, prove, prove_one, read, Refusal, MAX_CIRCUIT_WORDS, MAX_COINS, MAX_DEPTH, MAX_EXPONENT,
    MAX_MESSAGE_WORDS, MAX_ONE_MESSAGE, MAX_OUTPUTS, MAX_OUTPUT_EXPONENT, MAX_VALUES,
};

/// A circuit of so many layers that all have this width exponent, but for layer 0, which has its own. Each gate is an
/// addition of two words.
fn circuit(output_exponent: usize, depth: usize, exponent: usize) -> Vec<u32> {
    let gates = (1 << output_exponent) + (depth - 1) * (1 << exponent);
    let mut words = vec![13, depth as u32, output_exponent as u32];
    words.extend(std::iter::repeat_n(exponent as u32, depth));
    words.extend([1, 0, 0].iter().cycle().take(3 * gates));
    words
}

/// The greatest number up to which Load takes the circuit of each.
fn greatest(circuit: impl Fn(usize) -> Vec<u32>) -> usize {
    (0..).find(|&number| load(&circuit(number + 1)).is_err()).unwrap()
}

#[test]
fn limits_are_the_largest_circuits() {
    let output_exponent = greatest(|output_exponent| circuit(output_exponent, 1, 0));
    let depth = greatest(|depth| circuit(0, depth, 0));
    let exponent = greatest(|exponent| circuit(0, 1, exponent));
    assert_eq!((output_exponent, depth, exponent), (MAX_OUTPUT_EXPONENT, MAX_DEPTH, MAX_EXPONENT));
    let circuit = circuit(output_exponent, depth, exponent);
    let input = vec![0; 1 << exponent];
    let (mut values, mut messages) = ([0; MAX_VALUES], [0; MAX_MESSAGE_WORDS]);
    assert_eq!(circuit.len(), MAX_CIRCUIT_WORDS);
    assert_eq!(*evaluate(&circuit, &input, &mut values).unwrap(), [0; MAX_OUTPUTS]);
    assert_eq!(evaluate(&circuit, &input, &mut values[1..]), Err(Refusal::BufferShort));
    assert_eq!(prove(&circuit, &input, &[0; MAX_COINS], &mut messages).map(|proof| proof.words), Ok(MAX_MESSAGE_WORDS));
    assert_eq!(prove_one(&circuit, &input, &[0; MAX_COINS - 1], &mut messages), Ok(MAX_ONE_MESSAGE));
}

#[test]
fn refusals_name_the_limits() {
    assert_eq!(Refusal::DepthRange.to_string(), format!("refused 3: the depth is not from 1 to {MAX_DEPTH}"));
    let exponents = format!("k_0 is above {MAX_OUTPUT_EXPONENT}, or another is above {MAX_EXPONENT}");
    assert!(Refusal::ExponentRange.to_string().ends_with(&exponents));
}

#[test]
fn the_longest_circuit_is_the_largest_count() {
    for (count, expected) in [(MAX_CIRCUIT_WORDS, None), (MAX_CIRCUIT_WORDS + 1, Some(Refusal::BytesUnfit))] {
        let mut bytes = (count as u32).to_be_bytes().to_vec();
        bytes.resize(4 + 4 * count, 0);
        assert_eq!(read(&bytes, 1, &mut vec![0; count]).err(), expected);
    }
}
