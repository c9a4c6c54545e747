//! The edges, and the order of the refusals.

use super::{figures, CIRCUIT, COINS, INPUT, SENTINEL};
use crate::{check, evaluate, load, open, prove, prove_one, read, step, Progress, Session};

/// A circuit of multiply gates on wires 0 and 0.
fn circuit_of(prime: u32, exponents: &[u32]) -> Vec<u32> {
    let (_, inner) = exponents.split_last().unwrap();
    let gates = inner.iter().map(|&k| 1 << k).sum();
    let mut words = vec![prime, inner.len() as u32];
    words.extend(exponents);
    words.extend([2, 0, 0].repeat(gates));
    words
}

#[test]
fn the_head_of_the_list() {
    assert_eq!(load(&[]), Err(1));
    assert_eq!(load(&[14]), Err(1));
    assert_eq!(load(&[14, 0]), Err(1));
    assert_eq!(load(&[14, 0, 5]), Err(2));
    for prime in [13, 65_537, 2_147_483_647, 4_294_967_291] {
        assert_eq!(load(&circuit_of(prime, &[0, 1, 0])), Ok(()));
        assert_eq!(load(&circuit_of(prime + 2, &[0, 1, 0])), Err(2));
    }
}

#[test]
fn depth_12_and_13() {
    assert_eq!(load(&circuit_of(13, &[0; 13])), Ok(()));
    assert_eq!(load(&circuit_of(13, &[0; 14])), Err(3));
    assert_eq!(load(&[13, 0, 0, 2, 0, 0]), Err(3));
    assert_eq!(load(&[13, 13, 5]), Err(3));
}

#[test]
fn the_largest_circuit() {
    let circuit = circuit_of(13, &[&[4][..], &[8; 12]].concat());
    assert_eq!(circuit.len(), 8_511);
    let mut values = [SENTINEL; 3_089];
    assert_eq!(evaluate(&circuit, &[1; 256], &mut values[..3_087]), Err(10));
    assert_eq!(evaluate(&circuit, &[1; 256], &mut values), Ok(vec![1; 16]));
    assert_eq!(values[3_087..], [1, SENTINEL]);
    let mut messages = [SENTINEL; 685];
    assert_eq!(prove(&circuit, &[1; 256], &[2; 207], &mut messages), Err(11));
    assert_eq!(prove(&circuit, &[1; 256], &[2; 208], &mut messages[..683]), Err(10));
    assert_eq!(prove(&circuit, &[1; 256], &[2; 208], &mut messages), Ok((vec![1; 16], 684)));
    assert_eq!(messages[684], SENTINEL);
    assert_eq!(check(&circuit, &[1; 256], &[1; 16], &[2; 208], &messages[..684]), Ok(()));
}

#[test]
fn exponent_8_and_9() {
    assert_eq!(load(&circuit_of(13, &[0, 8])), Ok(()));
    assert_eq!(load(&circuit_of(13, &[0, 9])), Err(4));
    assert_eq!(load(&[13, 2, 0, 9]), Err(4));
    assert_eq!(load(&[13, 2, 0, 1]), Err(4));
    assert_eq!(load(&[13, 2, 0, 1, 1]), Err(5));
}

#[test]
fn gates_are_tried_one_by_one() {
    assert_eq!(load(&[13, 1, 0, 1, 4, 0, 2]), Err(6));
    assert_eq!(load(&[13, 1, 0, 1, 2, 0, 2]), Err(7));
    assert_eq!(load(&[13, 1, 0, 1, 0, 0, 1]), Err(7));
    assert_eq!(load(&[13, 1, 0, 1, 0, 1, 1]), Err(7));
    assert_eq!(load(&[13, 2, 0, 0, 0, 2, 0, 1, 4, 0, 0]), Err(7));
    assert_eq!(load(&[13, 2, 0, 0, 0, 4, 0, 1, 2, 0, 1]), Err(6));
}

#[test]
fn each_kind_has_its_own_wires() {
    let (legal, kind, wire) = (Ok(()), Err(6), Err(7));
    let wires = [[0, 0], [0, 1], [1, 0], [1, 1], [0, 2], [2, 0], [u32::MAX, 0]];
    for (of_kind, answers) in [
        (0, [legal, wire, wire, wire, wire, wire, wire]),
        (1, [legal, legal, wire, legal, wire, wire, wire]),
        (2, [legal, legal, wire, legal, wire, wire, wire]),
        (3, [legal, legal, legal, legal, wire, wire, wire]),
        (4, [kind; 7]),
        (u32::MAX, [kind; 7]),
    ] {
        for ([left, right], answer) in wires.into_iter().zip(answers) {
            assert_eq!(load(&[13, 1, 0, 1, of_kind, left, right]), answer, "{of_kind} {left} {right}");
        }
    }
}

#[test]
fn a_difference_is_left_minus_right() {
    for prime in [13, 65_537, 2_147_483_647, 4_294_967_291] {
        let difference =
            |left, right, input: [u32; 2]| evaluate(&[prime, 1, 0, 1, 3, left, right], &input, &mut [0; 3]);
        assert_eq!(difference(0, 1, [5, 3]), Ok(vec![2]));
        assert_eq!(difference(1, 0, [5, 3]), Ok(vec![prime - 2]));
        assert_eq!(difference(0, 1, [0, prime - 1]), Ok(vec![1]));
        assert_eq!(difference(1, 0, [0, prime - 1]), Ok(vec![prime - 1]));
        assert_eq!(difference(1, 1, [5, prime - 1]), Ok(vec![0]));
    }
}

#[test]
fn words_below_and_at_the_prime() {
    assert_eq!(evaluate(&CIRCUIT, &[12, 12], &mut [0; 3]), Ok(vec![1]));
    assert_eq!(evaluate(&CIRCUIT, &[12, 13], &mut [0; 3]), Err(9));
    assert_eq!(prove(&CIRCUIT, &INPUT, &[12, 12, 12], &mut [0; 8]), Ok((vec![2], 8)));
    assert_eq!(prove(&CIRCUIT, &INPUT, &[12, 12, 13], &mut [0; 8]), Err(12));
    assert_eq!(open(&CIRCUIT, &INPUT, &[12], &COINS).map(|(_, session)| figures(&session)), Ok([1, 0, 12, 1]));
    assert_eq!(open(&CIRCUIT, &INPUT, &[13], &COINS), Err(13));
    assert_eq!(check(&CIRCUIT, &INPUT, &[2], &COINS, &[12; 8]), Err(16));
    assert_eq!(check(&CIRCUIT, &INPUT, &[2], &COINS, &[13; 8]), Err(15));
}

#[test]
fn the_largest_prime_does_not_overflow() {
    let prime = 4_294_967_291;
    let mut buffer = [SENTINEL; 3];
    assert_eq!(evaluate(&[prime, 1, 0, 1, 1, 0, 1], &[prime - 1, prime - 2], &mut buffer), Ok(vec![prime - 3]));
    assert_eq!(buffer, [prime - 3, prime - 1, prime - 2]);
    assert_eq!(evaluate(&[prime, 1, 0, 1, 2, 0, 1], &[prime - 1, prime - 2], &mut buffer), Ok(vec![2]));
}

#[test]
fn buffers_exact_and_one_short() {
    let mut buffer = [SENTINEL; 8];
    assert_eq!(evaluate(&CIRCUIT, &INPUT, &mut buffer[..2]), Err(10));
    assert_eq!(prove(&CIRCUIT, &INPUT, &COINS, &mut buffer[..7]), Err(10));
    assert_eq!(prove_one(&CIRCUIT, &INPUT, &COINS[..1], &mut buffer[..2]), Err(10));
    assert_eq!(prove_one(&CIRCUIT, &INPUT, &COINS[..2], &mut buffer[..1]), Err(10));
    assert_eq!(buffer, [SENTINEL; 8]);
    assert_eq!(evaluate(&CIRCUIT, &INPUT, &mut buffer[..3]), Ok(vec![2]));
    assert_eq!(buffer[..3], [2, 3, 5]);
    assert_eq!(prove_one(&CIRCUIT, &INPUT, &COINS[..2], &mut buffer[..2]), Ok(2));
    assert_eq!(buffer[..4], [11, 4, 5, SENTINEL]);
    assert_eq!(prove(&CIRCUIT, &INPUT, &COINS, &mut buffer), Ok((vec![2], 8)));
}

#[test]
fn prefixes_of_all_but_one_and_of_all_coins() {
    let mut buffer = [SENTINEL; 3];
    assert_eq!(prove_one(&CIRCUIT, &INPUT, &COINS, &mut buffer), Err(11));
    assert_eq!(prove_one(&CIRCUIT, &INPUT, &[4, 6, 9, 0], &mut buffer), Err(11));
    assert_eq!(prove_one(&CIRCUIT, &INPUT, &[4, 13], &mut buffer), Err(12));
    assert_eq!(buffer, [SENTINEL; 3]);
    assert_eq!(prove_one(&CIRCUIT, &INPUT, &COINS[..2], &mut buffer), Ok(2));
}

#[test]
fn the_order_of_the_refusals_is_not_that_of_the_numbers() {
    assert_eq!(prove(&CIRCUIT, &INPUT, &[13, 0], &mut []), Err(11));
    assert_eq!(prove(&CIRCUIT, &INPUT, &[13, 0, 0], &mut []), Err(12));
    assert_eq!(prove(&CIRCUIT, &[13], &[13, 0], &mut []), Err(8));
    assert_eq!(check(&CIRCUIT, &INPUT, &[13], &[13], &[]), Err(13));
    assert_eq!(check(&CIRCUIT, &INPUT, &[12], &[13], &[]), Err(11));
    assert_eq!(check(&CIRCUIT, &INPUT, &[12], &[13; 3], &[]), Err(12));
    assert_eq!(check(&CIRCUIT, &INPUT, &[12], &COINS, &[13; 7]), Err(14));
    assert_eq!(check(&CIRCUIT, &INPUT, &[2], &COINS, &[2, 8, 4, 13, 5, 12, 11, 4]), Err(16));
    assert_eq!(check(&CIRCUIT, &INPUT, &[2], &COINS, &[2, 8, 3, 13, 5, 12, 12, 4]), Err(15));
}

#[test]
fn records_that_do_not_fit_are_left_alone() {
    let fitting = Session { layer: 1, round: 2, claim: 7, open: true };
    for session in [
        Session { layer: 0, ..fitting },
        Session { layer: 2, round: 0, ..fitting },
        Session { layer: u32::MAX, ..fitting },
        Session { round: 3, ..fitting },
        Session { round: u32::MAX, ..fitting },
        Session { claim: 13, ..fitting },
        Session { open: false, ..fitting },
    ] {
        let mut after = session;
        assert_eq!(step(&CIRCUIT, &INPUT, &COINS, &mut after, &[]), Err(19));
        assert_eq!(after, session);
    }
    let mut after = fitting;
    assert_eq!(step(&CIRCUIT, &INPUT, &COINS[1..], &mut after, &[]), Err(11));
    assert_eq!(after, fitting);
    assert_eq!(step(&CIRCUIT, &INPUT, &COINS, &mut after, &[]), Err(14));
    assert_eq!(after, Session { open: false, ..fitting });
}

#[test]
fn a_line_leads_to_the_next_layer() {
    let circuit = [13, 2, 0, 0, 0, 2, 0, 0, 1, 0, 0];
    let mut session = Session { layer: 1, round: 0, claim: 10, open: true };
    assert_eq!(step(&circuit, &[3], &[5, 7], &mut session, &[6]), Ok(Progress::GoOn(5)));
    assert_eq!(figures(&session), [2, 0, 6, 1]);
    assert_eq!(step(&circuit, &[3], &[5, 7], &mut session, &[3]), Ok(Progress::Accepted));
    assert_eq!(figures(&session), [2, 0, 6, 0]);
}

#[test]
fn arrays_are_read_whole_or_not_at_all() {
    let bytes = [0, 0, 0, 1, 0, 1, 2, 3, 0, 0, 0, 0, 0, 0, 0, 1, 255, 0, 0, 0];
    let mut buffer = [SENTINEL; 3];
    assert_eq!(read(&bytes, 3, &mut buffer[..1]), Err(10));
    for number in [0, 1, 2, 4, 5, u32::MAX] {
        assert_eq!(read(&bytes, number, &mut buffer), Err(20), "{number}");
    }
    for end in 0..bytes.len() {
        assert_eq!(read(&bytes[..end], 3, &mut buffer), Err(20), "cut at {end}");
    }
    assert_eq!(buffer, [SENTINEL; 3]);
    assert_eq!(read(&bytes, 3, &mut buffer), Ok([1, 0, 1, 0]));
    assert_eq!(buffer, [0x0001_0203, 0xff00_0000, SENTINEL]);
}

#[test]
fn counts_of_8_511_and_8_512() {
    for (count, answer) in [(8_511, Ok([8_511, 0, 0, 0])), (8_512, Err(20))] {
        let mut bytes = u32::to_be_bytes(count).to_vec();
        bytes.resize(4 + 4 * count as usize, 1);
        assert_eq!(read(&bytes, 1, &mut vec![0; 8_512]), answer);
    }
}
