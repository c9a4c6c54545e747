//! The operations that are timed, each by the proved library and by the plain implementation. Each answers something of
//! its result, so that no compiler can leave the work out, and so that both can be compared.
use crate::circuits::Job;

pub struct Operation {
    pub name: &'static str,
    pub proved: fn(&Job) -> u32,
    pub plain: fn(&Job) -> u32,
    /// The words that a call reads and writes.
    pub words: fn(&Job) -> usize,
}

const EVALUATE: Operation =
    Operation { name: "evaluate", proved: evaluate_proved, plain: evaluate_plain, words: evaluate_words };
const PROVE: Operation = Operation { name: "prove", proved: prove_proved, plain: prove_plain, words: all_words };
const CHECK: Operation = Operation { name: "check", proved: check_proved, plain: check_plain, words: all_words };
const OPEN: Operation = Operation { name: "open", proved: open_proved, plain: open_plain, words: open_words };
const SESSION: Operation =
    Operation { name: "session", proved: session_proved, plain: session_plain, words: session_words };

/// The operations that are timed at every shape.
pub const OPERATIONS: [Operation; 4] = [EVALUATE, PROVE, CHECK, SESSION];

/// Those to whose time the number of outputs may matter: of a session, its opening.
pub const ON_OUTPUTS: [Operation; 4] = [EVALUATE, PROVE, CHECK, OPEN];

fn evaluate_words(job: &Job) -> usize {
    job.circuit.len() + job.input.len() + values(job)
}

/// The values of all layers.
fn values(job: &Job) -> usize {
    let gates = (job.circuit.len() - 3 - job.circuit[1] as usize) / 3;
    gates + job.input.len()
}

fn open_words(job: &Job) -> usize {
    job.circuit.len() + job.input.len() + job.outputs.len() + job.coins.len()
}

fn all_words(job: &Job) -> usize {
    open_words(job) + job.messages.len()
}

/// Every step reads circuit, input and coins again.
fn session_words(job: &Job) -> usize {
    let lists = job.circuit.len() + job.input.len() + job.coins.len();
    open_words(job) + lists * job.lengths.len() + job.messages.len()
}

fn evaluate_proved(job: &Job) -> u32 {
    let mut buffer = [0; kidlothe::MAX_VALUES];
    kidlothe::evaluate(&job.circuit, &job.input, &mut buffer).expect("the lists are legal")[job.outputs.len() - 1]
}

fn evaluate_plain(job: &Job) -> u32 {
    let mut buffer = [0; kidlothe::MAX_VALUES];
    plain::evaluate(&job.circuit, &job.input, &mut buffer).expect("the lists are legal")[job.outputs.len() - 1]
}

fn prove_proved(job: &Job) -> u32 {
    let mut messages = [0; kidlothe::MAX_MESSAGE_WORDS];
    kidlothe::prove(&job.circuit, &job.input, &job.coins, &mut messages).expect("the lists are legal");
    messages[job.messages.len() - 1]
}

fn prove_plain(job: &Job) -> u32 {
    let mut messages = [0; kidlothe::MAX_MESSAGE_WORDS];
    plain::prove(&job.circuit, &job.input, &job.coins, &mut messages).expect("the lists are legal");
    messages[job.messages.len() - 1]
}

fn check_proved(job: &Job) -> u32 {
    kidlothe::check(&job.circuit, &job.input, &job.outputs, &job.coins, &job.messages).is_ok().into()
}

fn check_plain(job: &Job) -> u32 {
    plain::check(&job.circuit, &job.input, &job.outputs, &job.coins, &job.messages).is_ok().into()
}

fn opened_proved(job: &Job) -> kidlothe::Session {
    let opening = kidlothe::Session::open(&job.circuit, &job.input, &job.outputs, &job.coins);
    opening.expect("the lists are legal").session
}

fn opened_plain(job: &Job) -> plain::Session {
    let (_, session) = plain::open(&job.circuit, &job.input, &job.outputs, &job.coins).expect("the lists are legal");
    session
}

fn open_proved(job: &Job) -> u32 {
    opened_proved(job).claim()
}

fn open_plain(job: &Job) -> u32 {
    opened_plain(job).claim
}

/// The messages of a transcript, one after another.
fn messages(job: &Job) -> impl Iterator<Item = &[u32]> {
    job.lengths.iter().scan(&job.messages[..], |rest, &length| {
        let (message, later) = rest.split_at(length);
        *rest = later;
        Some(message)
    })
}

fn session_proved(job: &Job) -> u32 {
    let mut session = opened_proved(job);
    let mut accepted = false;
    for message in messages(job) {
        let answer = session.step(&job.circuit, &job.input, &job.coins, message);
        accepted = answer == Ok(kidlothe::Progress::Accepted);
    }
    accepted.into()
}

fn session_plain(job: &Job) -> u32 {
    let mut session = opened_plain(job);
    let mut accepted = false;
    for message in messages(job) {
        let answer = plain::step(&job.circuit, &job.input, &job.coins, &mut session, message);
        accepted = answer == Ok(plain::Progress::Accepted);
    }
    accepted.into()
}
