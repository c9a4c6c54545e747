//! Lists of outputs and of first coins by value.
use kidlothe::{check, evaluate, prove, prove_one, Refusal, Session, MAX_MESSAGE_WORDS, MAX_OUTPUTS};

/// The product and the sum of two input words.
const CIRCUIT: [u32; 10] = [13, 1, 1, 1, 2, 0, 1, 1, 0, 1];
const INPUT: [u32; 2] = [3, 5];
const COINS: [u32; 4] = [10, 4, 6, 9];

/// The row of a list of these words.
fn row(words: &[u32]) -> [u32; MAX_OUTPUTS] {
    let mut row = [0; MAX_OUTPUTS];
    row[..words.len()].copy_from_slice(words);
    row
}

#[test]
fn the_words_past_a_list_are_zeros() {
    let outputs = evaluate(&CIRCUIT, &INPUT, &mut [0; 4]).unwrap();
    assert_eq!((&*outputs, outputs.row()), (&[2, 8][..], &row(&[2, 8])));
    assert_eq!(format!("{outputs:?}"), "[2, 8]");
    let proof = prove(&CIRCUIT, &INPUT, &COINS, &mut [0; MAX_MESSAGE_WORDS]).unwrap();
    assert_eq!((proof.outputs, proof.words), (outputs, 8));
    let coins = Session::open(&CIRCUIT, &INPUT, &[2, 8], &COINS).unwrap().coins;
    assert_eq!((&*coins, coins.row()), (&[10][..], &row(&[10])));
}

#[test]
fn a_single_output_hands_out_no_first_coin() {
    let opening = Session::open(&[13, 1, 0, 1, 2, 0, 1], &INPUT, &[2], &COINS[1..]).unwrap();
    assert_eq!((opening.coins.len(), opening.coins.row()), (0, &row(&[])));
    assert_eq!(opening.session.words(), [1, 0, 2, 1]);
}

#[test]
fn no_message_comes_before_the_first_coins() {
    let mut buffer = [0; 3];
    assert_eq!(prove_one(&CIRCUIT, &INPUT, &COINS[..0], &mut buffer), Err(Refusal::CoinCount));
    assert_eq!((prove_one(&CIRCUIT, &INPUT, &COINS[..1], &mut buffer), buffer), (Ok(3), [10, 11, 5]));
}

#[test]
fn another_number_of_outputs_is_refused_before_their_words() {
    for outputs in [&[][..], &[13], &[2, 8, 13]] {
        assert_eq!(check(&CIRCUIT, &INPUT, outputs, &[], &[]), Err(Refusal::OutputCount));
        assert_eq!(Session::open(&CIRCUIT, &INPUT, outputs, &[]), Err(Refusal::OutputCount));
    }
    assert_eq!(check(&CIRCUIT, &INPUT, &[2, 13], &[], &[]), Err(Refusal::OutputWord));
}
