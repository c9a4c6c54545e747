//! Lists of several outputs: their exponent, the first point, and the claim that the walk starts from.

use super::{figures, SENTINEL};
use crate::{check, evaluate, load, open, prove, prove_one, step, Progress};

/// The product and the difference of two input words.
const PAIR: [u32; 10] = [13, 1, 1, 1, 2, 0, 1, 3, 0, 1];
const PAIR_INPUT: [u32; 2] = [3, 5];
const PAIR_OUTPUTS: [u32; 2] = [2, 11];
const PAIR_COINS: [u32; 4] = [4, 6, 9, 11];

/// Four outputs over one input word: its double, its square, nothing, and its double again.
const FOUR: [u32; 16] = [13, 1, 2, 0, 1, 0, 0, 2, 0, 0, 0, 0, 0, 1, 0, 0];
const FOUR_OUTPUTS: [u32; 4] = [1, 10, 0, 1];

/// All lists of so many coins modulo 13.
fn coin_lists<const COUNT: usize>() -> impl Iterator<Item = [u32; COUNT]> {
    (0..13_u32.pow(COUNT as u32)).map(|number| std::array::from_fn(|place| number / 13_u32.pow(place as u32) % 13))
}

/// The honest messages for the pair.
fn honest_messages(coins: &[u32; 4]) -> [u32; 8] {
    let mut messages = [0; 8];
    assert_eq!(prove(&PAIR, &PAIR_INPUT, coins, &mut messages), Ok((PAIR_OUTPUTS.to_vec(), 8)));
    messages
}

/// The list with the word at the place made false.
fn with_false_word<const COUNT: usize>(mut outputs: [u32; COUNT], place: usize) -> [u32; COUNT] {
    outputs[place] = (outputs[place] + 1) % 13;
    outputs
}

#[test]
fn the_exponent_of_the_outputs() {
    assert_eq!(load(&[13, 1]), Err(1));
    assert_eq!(load(&[13, 1, 4]), Err(4));
    assert_eq!(load(&[13, 1, 4, 0]), Err(5));
    assert_eq!(load(&[13, 1, 5]), Err(4));
    assert_eq!(load(&[13, 2, 1, 0]), Err(4));
    for (exponent, answer) in [(0, Ok(())), (1, Ok(())), (4, Ok(())), (5, Err(4)), (8, Err(4))] {
        let mut circuit = vec![13, 1, exponent, 0];
        circuit.extend([2, 0, 0].repeat(1 << exponent));
        assert_eq!(load(&circuit), answer, "{exponent}");
        circuit.truncate(circuit.len() - 3);
        assert_eq!(load(&circuit), Err(answer.err().unwrap_or(5)), "{exponent}");
    }
}

#[test]
fn the_gates_of_layer_0_are_tried_in_order() {
    assert_eq!(load(&[13, 1, 1, 1, 2, 1, 0, 4, 0, 0]), Err(7));
    assert_eq!(load(&[13, 1, 1, 1, 2, 0, 1, 4, 0, 2]), Err(6));
    assert_eq!(load(&[13, 1, 1, 1, 2, 0, 1, 3, 0, 2]), Err(7));
}

#[test]
fn the_outputs_come_first_among_the_values() {
    let mut values = [SENTINEL; 6];
    assert_eq!(evaluate(&FOUR, &[7], &mut values[..4]), Err(10));
    assert_eq!(values, [SENTINEL; 6]);
    assert_eq!(evaluate(&FOUR, &[7], &mut values), Ok(FOUR_OUTPUTS.to_vec()));
    assert_eq!(values, [1, 10, 0, 1, 7, SENTINEL]);
    assert_eq!(evaluate(&PAIR, &PAIR_INPUT, &mut values), Ok(PAIR_OUTPUTS.to_vec()));
}

#[test]
fn a_true_list_is_accepted_on_all_coin_lists() {
    for coins in coin_lists::<4>() {
        let messages = honest_messages(&coins);
        assert_eq!(check(&PAIR, &PAIR_INPUT, &PAIR_OUTPUTS, &coins, &messages), Ok(()), "{coins:?}");
    }
    for coins in coin_lists::<3>() {
        assert_eq!(check(&FOUR, &[7], &FOUR_OUTPUTS, &coins, &[7]), Ok(()), "{coins:?}");
    }
}

#[test]
fn a_false_word_passes_only_where_the_first_point_gives_it_no_weight() {
    for coins in coin_lists::<4>() {
        let messages = honest_messages(&coins);
        for (place, hiding) in [(0, 1), (1, 0)] {
            let outputs = with_false_word(PAIR_OUTPUTS, place);
            let answer = if coins[0] == hiding { Ok(()) } else { Err(16) };
            assert_eq!(check(&PAIR, &PAIR_INPUT, &outputs, &coins, &messages), answer, "{place} {coins:?}");
        }
    }
}

#[test]
fn the_highest_bit_of_a_place_belongs_to_the_first_coin() {
    for coins in coin_lists::<3>() {
        for (place, hiding) in [(0, [1, 1]), (1, [1, 0]), (2, [0, 1]), (3, [0, 0])] {
            let outputs = with_false_word(FOUR_OUTPUTS, place);
            let hidden = coins[0] == hiding[0] || coins[1] == hiding[1];
            let answer = if hidden { Ok(()) } else { Err(17) };
            assert_eq!(check(&FOUR, &[7], &outputs, &coins, &[7]), answer, "{place} {coins:?}");
        }
    }
}

#[test]
fn a_list_of_another_length_comes_before_its_words_and_after_the_input() {
    let both = |input: &[u32], outputs: &[u32]| {
        let answer = check(&PAIR, input, outputs, &[], &[]);
        assert_eq!(open(&PAIR, input, outputs, &[]).err(), answer.err());
        answer
    };
    for outputs in [&[][..], &[13], &[13; 3], &[13; 4]] {
        assert_eq!(both(&PAIR_INPUT, outputs), Err(21), "{outputs:?}");
    }
    assert_eq!(both(&[3, 13], &[13]), Err(9));
    for outputs in [[13, 2], [2, 13], [u32::MAX, 2]] {
        assert_eq!(both(&PAIR_INPUT, &outputs), Err(13), "{outputs:?}");
    }
    assert_eq!(both(&PAIR_INPUT, &[12, 12]), Err(11));
}

#[test]
fn the_coins_of_the_first_point_are_counted_and_must_be_residues() {
    for (coins, answer) in [(&[4; 3][..], 11), (&[4; 5], 11), (&[13, 4, 4, 4], 12), (&[4; 4], 14)] {
        assert_eq!(check(&PAIR, &PAIR_INPUT, &PAIR_OUTPUTS, coins, &[]), Err(answer));
    }
    assert_eq!(prove(&PAIR, &PAIR_INPUT, &[4; 3], &mut [0; 8]), Err(11));
    assert_eq!(prove(&PAIR, &PAIR_INPUT, &[13, 4, 4, 4], &mut [0; 8]), Err(12));
}

#[test]
fn a_single_message_reads_the_first_point_and_the_coins_after_it() {
    let coins = [6, 11, 9];
    let mut buffer = [SENTINEL; 2];
    assert_eq!(prove_one(&FOUR, &[7], &[], &mut buffer), Err(11));
    assert_eq!(prove_one(&FOUR, &[7], &[13], &mut buffer), Err(11));
    assert_eq!(prove_one(&FOUR, &[7], &coins, &mut buffer), Err(11));
    assert_eq!(prove_one(&FOUR, &[7], &[6, 13], &mut buffer), Err(12));
    assert_eq!(prove_one(&FOUR, &[7], &coins[..2], &mut []), Err(10));
    assert_eq!(buffer, [SENTINEL; 2]);
    assert_eq!(prove_one(&FOUR, &[7], &coins[..2], &mut buffer), Ok(1));
    assert_eq!(buffer, [7, SENTINEL]);
}

#[test]
fn the_walk_starts_from_the_list_at_the_first_point() {
    let (first, session) = open(&PAIR, &PAIR_INPUT, &[2, 5], &PAIR_COINS).unwrap();
    assert_eq!(first, [4]);
    // 2 + 4 × (5 - 2) modulo 13.
    assert_eq!(figures(&session), [1, 0, 1, 1]);
}

#[test]
fn a_false_list_is_accepted_with_a_lucky_coin() {
    // The false claim is 1 instead of 12. Adding 7 + x moves the round's sum by 2, and its value at the coin 6 by 0.
    let [c0, c1, c2, rest @ ..] = honest_messages(&PAIR_COINS);
    let moved = [&[(c0 + 7) % 13, (c1 + 1) % 13, c2][..], &rest].concat();
    assert_eq!(check(&PAIR, &PAIR_INPUT, &[2, 5], &PAIR_COINS, &moved), Ok(()));
    assert_eq!(check(&PAIR, &PAIR_INPUT, &[2, 5], &[5, 6, 9, 11], &moved), Err(16));
    assert_eq!(check(&PAIR, &PAIR_INPUT, &PAIR_OUTPUTS, &PAIR_COINS, &moved), Err(16));
}

#[test]
fn steps_hand_out_the_coins_after_the_first_point() {
    let messages = honest_messages(&PAIR_COINS);
    let (_, mut session) = open(&PAIR, &PAIR_INPUT, &PAIR_OUTPUTS, &PAIR_COINS).unwrap();
    let mut go = |message: &[u32]| step(&PAIR, &PAIR_INPUT, &PAIR_COINS, &mut session, message);
    assert_eq!(go(&messages[..3]), Ok(Progress::GoOn(6)));
    assert_eq!(go(&messages[3..6]), Ok(Progress::GoOn(9)));
    assert_eq!(go(&messages[6..]), Ok(Progress::Accepted));
}

#[test]
fn opening_hands_out_as_many_coins_as_the_exponent_says() {
    for exponent in 0..=4 {
        let mut circuit = vec![13, 1, exponent, 0];
        circuit.extend([2, 0, 0].repeat(1 << exponent));
        let coins: Vec<u32> = (3..4 + exponent).collect();
        let (first, session) = open(&circuit, &[5], &vec![12; 1 << exponent], &coins).unwrap();
        assert_eq!(first, coins[..exponent as usize]);
        assert_eq!(figures(&session), [1, 0, 12, 1]);
    }
}
