//! Compiling a rule.

use std::slice;

use crate::constants::{answer, room, ROWS};
use crate::ffi;
use crate::refusal::Refusal;

/// What the code of an accepted rule takes.
#[derive(Debug, Clone, Copy, PartialEq, Eq, Hash)]
pub struct Compiled {
    /// Instructions emitted.
    pub instructions: usize,
    /// Cells of memory that the declarations take.
    pub cells: usize,
    /// Registers of the pool that the rule needs.
    pub need: u32,
}

impl Compiled {
    /// Code words that hold the instructions, four each.
    pub const fn code_words(self) -> usize {
        4 * self.instructions
    }
}

/// Compiles a rule with a pool of registers, bit k for $k, and gives its code.
///
/// The code may be run on a machine whose other registers are the host's: no run of it changes them.
///
/// # Errors
///
/// Refusals 1 to 11.
pub fn compile(
    declarations: &[[i32; 2]],
    nodes: &[[i32; 4]],
    pool: u64,
) -> Result<(Vec<i32>, Compiled), Refusal> {
    let mut code = vec![0; room(nodes.len().min(ROWS))];
    let compiled = compile_into(declarations, nodes, pool, &mut code)?;
    code.truncate(compiled.code_words());
    Ok((code, compiled))
}

/// Compiles a rule into a buffer, where [`Compiled::code_words`] words then are its code; those beyond stay as they are.
///
/// [`room`] says how many words are enough.
///
/// # Errors
///
/// Refusals 1 to 12.
pub fn compile_into(
    declarations: &[[i32; 2]],
    nodes: &[[i32; 4]],
    pool: u64,
    code: &mut [i32],
) -> Result<Compiled, Refusal> {
    compile_words(words(declarations), words(nodes), pool, code)
}

/// Compiles a rule as [`compile_into`] does, with its rows handed in as words, two a declaration and four a node.
///
/// # Errors
///
/// Refusals 1 to 12.
pub fn compile_words(
    declarations: &[i32],
    nodes: &[i32],
    pool: u64,
    code: &mut [i32],
) -> Result<Compiled, Refusal> {
    let mut answer = [0; answer::WORDS];
    // SAFETY: each pointer comes with the length of its slice, and nothing overlaps what is lent to be written.
    let number = unsafe {
        ffi::sauskinna_compile(
            declarations.as_ptr(),
            declarations.len(),
            nodes.as_ptr(),
            nodes.len(),
            pool,
            code.as_mut_ptr(),
            code.len(),
            &mut answer,
        )
    };
    Refusal::unless_accepted(number, answer[answer::VALUE])?;
    Ok(Compiled {
        instructions: answer[answer::INSTRUCTIONS] as usize,
        cells: answer[answer::CELLS] as usize,
        need: answer[answer::NEED],
    })
}

/// The words of rows, one row after the other.
fn words<const N: usize>(rows: &[[i32; N]]) -> &[i32] {
    // SAFETY: an array's words lie one after the other, and so do the arrays of a slice; the words are not more than its bytes.
    unsafe { slice::from_raw_parts(rows.as_ptr().cast(), N * rows.len()) }
}
