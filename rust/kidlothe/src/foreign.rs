//! The library's functions as they are exported: c/kidlothe.h has their promises.
use crate::ShortList;

#[repr(C)]
pub struct Evaluation {
    pub refusal: u32,
    pub outputs: ShortList,
}

#[repr(C)]
pub struct Counts {
    pub refusal: u32,
    pub counts: [u32; 4],
}

#[repr(C)]
pub struct Proof {
    pub refusal: u32,
    pub outputs: ShortList,
    pub words: usize,
}

#[repr(C)]
pub struct Written {
    pub refusal: u32,
    pub words: usize,
}

#[repr(C)]
pub struct Opening {
    pub refusal: u32,
    pub coins: ShortList,
}

#[repr(C)]
pub struct StepAnswer {
    pub refusal: u32,
    pub accepted: u32,
    pub coin: u32,
}

extern "C" {
    pub fn kidlothe_load(circuit: *const u32, circuit_length: usize) -> u32;

    pub fn kidlothe_evaluate(
        circuit: *const u32,
        circuit_length: usize,
        input: *const u32,
        input_length: usize,
        buffer: *mut u32,
        buffer_length: usize,
    ) -> Evaluation;

    pub fn kidlothe_read(
        bytes: *const u8,
        bytes_length: usize,
        number: u32,
        buffer: *mut u32,
        buffer_length: usize,
    ) -> Counts;

    pub fn kidlothe_prove(
        circuit: *const u32,
        circuit_length: usize,
        input: *const u32,
        input_length: usize,
        coins: *const u32,
        coins_length: usize,
        messages: *mut u32,
        messages_length: usize,
    ) -> Proof;

    pub fn kidlothe_prove_one(
        circuit: *const u32,
        circuit_length: usize,
        input: *const u32,
        input_length: usize,
        prefix: *const u32,
        prefix_length: usize,
        buffer: *mut u32,
        buffer_length: usize,
    ) -> Written;

    pub fn kidlothe_check(
        circuit: *const u32,
        circuit_length: usize,
        input: *const u32,
        input_length: usize,
        outputs: *const u32,
        outputs_length: usize,
        coins: *const u32,
        coins_length: usize,
        messages: *const u32,
        messages_length: usize,
    ) -> u32;

    pub fn kidlothe_open(
        circuit: *const u32,
        circuit_length: usize,
        input: *const u32,
        input_length: usize,
        outputs: *const u32,
        outputs_length: usize,
        coins: *const u32,
        coins_length: usize,
        session: *mut [u32; 4],
    ) -> Opening;

    pub fn kidlothe_step(
        circuit: *const u32,
        circuit_length: usize,
        input: *const u32,
        input_length: usize,
        coins: *const u32,
        coins_length: usize,
        session: *mut [u32; 4],
        message: *const u32,
        message_length: usize,
    ) -> StepAnswer;
}
