//! The cases C1 to C24.

use super::{figures, CIRCUIT, COINS, INPUT, MESSAGES, SENTINEL};
use crate::{check, evaluate, load, open, prove, prove_one, step, Progress};

/// Name, output, coins, messages and answer of a case.
type Case = (&'static str, u32, [u32; 3], [u32; 8], Result<(), u32>);

/// The cases on the worked circuit.
const CHECKS: [Case; 9] = [
    ("C1", 2, COINS, MESSAGES, Ok(())),
    ("C2", 2, COINS, [2, 8, 4, 0, 5, 12, 11, 4], Err(16)),
    ("C3", 3, COINS, MESSAGES, Err(16)),
    ("C4", 2, COINS, [2, 8, 3, 0, 5, 12, 12, 4], Err(17)),
    ("C5", 2, COINS, [2, 8, 3, 0, 5, 12, 2, 9], Err(18)),
    ("C6", 2, COINS, [2, 8, 3, 0, 5, 12, 1, 8], Ok(())),
    ("C7", 3, COINS, [10, 6, 3, 0, 5, 12, 11, 4], Ok(())),
    ("C8", 3, [5, 6, 9], [10, 6, 3, 0, 5, 12, 11, 4], Err(16)),
    ("C12", 2, COINS, [15, 8, 3, 0, 5, 12, 11, 4], Err(15)),
];

/// Names of three cases on a difference; its circuit, output and messages; and the output that the second case refuses.
type Difference = ([&'static str; 3], [u32; 7], u32, [u32; 8], u32);

const DIFFERENCES: [Difference; 3] = [
    (["C13", "C14", "C15"], [13, 1, 0, 1, 3, 0, 1], 11, [11, 4, 11, 0, 2, 6, 11, 4], 2),
    (["C16", "C17", "C18"], [13, 1, 0, 1, 3, 1, 1], 0, [0, 11, 2, 0, 6, 5, 11, 4], 10),
    (["C19", "C20", "C21"], [13, 1, 0, 1, 3, 1, 0], 2, [0, 0, 2, 6, 12, 8, 11, 4], 11),
];

/// The cases whose messages are those of an honest prover.
const HONEST: [&str; 4] = ["C1", "C13", "C16", "C19"];

/// The messages with another line at their end.
fn ending(mut messages: [u32; 8], line: [u32; 2]) -> [u32; 8] {
    messages[6..].copy_from_slice(&line);
    messages
}

/// The cases of a difference: accepted, with a false output, and with a line that is right at 0 alone or at 1 alone.
fn on_difference(([honest, output, line], circuit, value, messages, wrong): Difference) -> [([u32; 7], Case); 4] {
    let cases = [
        (honest, value, COINS, messages, Ok(())),
        (output, wrong, COINS, messages, Err(16)),
        (line, value, COINS, ending(messages, [11, 5]), Err(17)),
        (line, value, COINS, ending(messages, [12, 3]), Err(17)),
    ];
    cases.map(|case| (circuit, case))
}

/// All these cases, each with its circuit.
fn cases() -> impl Iterator<Item = ([u32; 7], Case)> {
    CHECKS.into_iter().map(|case| (CIRCUIT, case)).chain(DIFFERENCES.into_iter().flat_map(on_difference))
}

#[test]
fn worked_transcripts_are_written_at_the_front() {
    for name in HONEST {
        let (circuit, (_, output, coins, messages, _)) = cases().find(|(_, case)| case.0 == name).unwrap();
        let mut buffer = [SENTINEL; 10];
        assert_eq!(prove(&circuit, &INPUT, &coins, &mut buffer), Ok((vec![output], 8)), "{name}");
        assert_eq!(buffer[..8], messages, "{name}");
        assert_eq!(buffer[8..], [SENTINEL; 2], "{name}");
    }
}

#[test]
fn single_messages_are_those_of_the_worked_transcript() {
    for (prefix, message) in [(0, &MESSAGES[..3]), (1, &MESSAGES[3..6]), (2, &MESSAGES[6..])] {
        let mut buffer = [SENTINEL; 4];
        assert_eq!(prove_one(&CIRCUIT, &INPUT, &COINS[..prefix], &mut buffer), Ok(message.len()));
        assert_eq!(buffer[..message.len()], *message);
        assert!(buffer[message.len()..].iter().all(|&word| word == SENTINEL));
    }
}

#[test]
fn whole_checks_answer_as_the_cases_say() {
    for (circuit, (name, output, coins, messages, answer)) in cases() {
        assert_eq!(check(&circuit, &INPUT, &[output], &coins, &messages), answer, "{name}");
    }
}

#[test]
fn sessions_end_as_the_whole_checks() {
    for (circuit, (name, output, coins, messages, answer)) in cases() {
        let (_, mut session) = open(&circuit, &INPUT, &[output], &coins).unwrap();
        let mut progress = Ok(Progress::GoOn(0));
        for (round, message) in messages.chunks(3).enumerate() {
            progress = step(&circuit, &INPUT, &coins, &mut session, message);
            if progress != Ok(Progress::GoOn(coins[round])) {
                break;
            }
        }
        assert_eq!(progress, answer.map(|()| Progress::Accepted), "{name}");
        assert!(!session.open, "{name}");
    }
}

#[test]
fn a_session_keeps_its_last_figures_and_then_refuses() {
    let (first, mut session) = open(&CIRCUIT, &INPUT, &[2], &COINS).unwrap();
    assert_eq!(first, []);
    assert_eq!(figures(&session), [1, 0, 2, 1]);
    let mut go = |message: &[u32]| (step(&CIRCUIT, &INPUT, &COINS, &mut session, message), figures(&session));
    assert_eq!(go(&MESSAGES[..3]), (Ok(Progress::GoOn(4)), [1, 1, 4, 1]));
    assert_eq!(go(&MESSAGES[3..6]), (Ok(Progress::GoOn(6)), [1, 2, 7, 1]));
    assert_eq!(go(&MESSAGES[6..]), (Ok(Progress::Accepted), [1, 2, 7, 0]));
    assert_eq!(go(&MESSAGES[6..]), (Err(19), [1, 2, 7, 0]));
}

#[test]
fn c7_is_accepted_on_sixteen_coin_lists() {
    let messages = [10, 6, 3, 0, 5, 12, 11, 4];
    let lists = (0..13 * 13 * 13).map(|n| [n / 169, n / 13 % 13, n % 13]);
    let accepted = lists.filter(|coins| check(&CIRCUIT, &INPUT, &[3], coins, &messages).is_ok()).count();
    assert_eq!(accepted, 16);
    assert!(accepted <= 845);
}

#[test]
fn c9_the_last_comparison_is_made_without_coordinates() {
    let circuit = [13, 1, 0, 0, 2, 0, 0];
    for coin in 0..13 {
        assert_eq!(check(&circuit, &[7], &[10], &[coin], &[6]), Err(18));
        assert_eq!(check(&circuit, &[7], &[10], &[coin], &[7]), Ok(()));
    }
}

#[test]
fn c10_an_empty_gate_gives_zero() {
    let circuit = [13, 1, 0, 0, 0, 0, 0];
    let mut values = [SENTINEL; 3];
    assert_eq!(evaluate(&circuit, &[7], &mut values), Ok(vec![0]));
    assert_eq!(values, [0, 7, SENTINEL]);
    let mut messages = [SENTINEL; 2];
    assert_eq!(prove(&circuit, &[7], &[3], &mut messages), Ok((vec![0], 1)));
    assert_eq!(messages, [7, SENTINEL]);
}

#[test]
fn c11_and_c22_to_c24_have_a_circuit_that_is_not_legal() {
    let circuits = [
        ("C11", [13, 1, 0, 1, 2, 1, 0], 7),
        ("C22", [13, 1, 0, 1, 1, 1, 0], 7),
        ("C23", [13, 1, 0, 1, 0, 1, 0], 7),
        ("C24", [13, 1, 0, 1, 4, 0, 1], 6),
    ];
    for (name, circuit, refusal) in circuits {
        assert_eq!(load(&circuit), Err(refusal), "{name}");
        assert_eq!(check(&circuit, &INPUT, &[2], &COINS, &MESSAGES), Err(refusal), "{name}");
        assert_eq!(open(&circuit, &INPUT, &[2], &COINS).err(), Some(refusal), "{name}");
    }
    assert_eq!(load(&CIRCUIT), Ok(()));
}

#[test]
fn a_line_moved_as_a_whole_is_refused_by_the_input_alone() {
    // The difference of its ends stays the same.
    for ([name, ..], circuit, output, messages, _) in DIFFERENCES {
        assert_eq!(check(&circuit, &INPUT, &[output], &COINS, &ending(messages, [12, 4])), Err(18), "{name}");
    }
}
