//! Rules of the build scope that several tests compile.

use sauskinna::declaration::VARIABLE;
use sauskinna::node::{ASSIGN, MINUS, VALUE};

/// One variable, x.
pub const X: [[i32; 2]; 1] = [[VARIABLE, 0]];

/// x := 2.
pub const SET: [[i32; 4]; 2] = [[VALUE, 2, 0, 0], [ASSIGN, 0, 0, 0]];

/// x := 9 - (5 - 2).
pub const NESTED: [[i32; 4]; 6] = [
    [VALUE, 9, 0, 0],
    [VALUE, 5, 0, 0],
    [VALUE, 2, 0, 0],
    [MINUS, 1, 2, 0],
    [MINUS, 0, 3, 0],
    [ASSIGN, 0, 4, 0],
];

/// The pool of $1 to the register given.
pub const fn pool_to(last: u32) -> u64 {
    (2 << last) - 2
}
