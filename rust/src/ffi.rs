//! The functions of the library, as `include/sauskinna.h` declares them.

use crate::constants::{answer, REGISTERS};

/// What a call answers, beside the number that it returns.
pub type Answer = [u32; answer::WORDS];

extern "C" {
    pub fn sauskinna_version() -> u32;

    pub fn sauskinna_compile(
        declarations: *const i32,
        declaration_words: usize,
        nodes: *const i32,
        node_words: usize,
        pool: u64,
        code: *mut i32,
        code_words: usize,
        answer: *mut Answer,
    ) -> u32;

    pub fn sauskinna_step(
        code: *const i32,
        code_words: usize,
        memory: *mut i32,
        cells: usize,
        place: *mut u32,
        registers: *mut [i32; REGISTERS],
        answer: *mut Answer,
    ) -> u32;

    pub fn sauskinna_run(
        code: *const i32,
        code_words: usize,
        memory: *mut i32,
        cells: usize,
        place: *mut u32,
        registers: *mut [i32; REGISTERS],
        budget: u32,
        answer: *mut Answer,
    ) -> u32;

    pub fn sauskinna_listing(
        code: *const i32,
        code_words: usize,
        text: *mut u8,
        text_bytes: usize,
        answer: *mut Answer,
    ) -> u32;
}
