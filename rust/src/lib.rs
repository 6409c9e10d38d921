//! Compiles station rules (IMP tables) to ASM, lists ASM, and runs it under a budget: the proved C library behind safe functions.
//!
//! A rule is two tables of words: [`declaration`] rows of two and [`node`] rows of four. [`compile`] checks them and makes
//! code that uses only the registers of a pool, bit k for $k. A [`Machine`] runs the code over memory that the caller lends, and
//! [`listing`] writes it as text. What cannot be taken is a [`Refusal`], and a refused call changes nothing.
//!
#![cfg_attr(sauskinna_linked, doc = "```")]
#![cfg_attr(not(sauskinna_linked), doc = "```no_run")]
//! use sauskinna::{compile, declaration, listing, node, Ending, Machine, Ran};
//!
//! # fn main() -> Result<(), sauskinna::Refusal> {
//! let names = [[declaration::VARIABLE, 0], [declaration::CONSTANT, 20700]];
//! let rule = [
//!     [node::IDENTIFIER, 0, 0, 0],
//!     [node::IDENTIFIER, 1, 0, 0],
//!     [node::MINUS, 0, 1, 0],
//!     [node::ASSIGN, 0, 2, 0], // x := x - offset
//! ];
//! let (code, compiled) = compile(&names, &rule, 0xff << 40)?; // the code may use $40 to $47
//! assert!(listing(&code)?.ends_with("store $41[$0] $40\nhalt\n"));
//!
//! let mut memory = vec![0; compiled.cells];
//! memory[0] = 43200;
//! let ran = Machine::default().run(&code, &mut memory, 1000)?;
//! assert_eq!(ran, Ran { ending: Ending::Halted, steps: 7 });
//! assert_eq!(memory, [22500]);
//! # Ok(())
//! # }
//! ```
//!
//! Words are signed and 32 bits wide; sums, differences and products wrap. There is no state between calls, so threads need no
//! lock. A call allocates nothing, except that [`compile`] makes the code's `Vec` and [`listing`] its `String`, and takes at most
//! [`STACK`] bytes of stack.
//!
//! The build script links the archive that the repository's `tools/archive` makes in `target/staticlib`, or the one in the folder
//! that `SAUSKINNA_LIB_DIR` names.

#![deny(missing_docs)]
#![deny(unsafe_op_in_unsafe_fn)]

#[macro_use]
mod numbered;

mod compile;
mod constants;
mod fault;
mod ffi;
mod listing;
mod machine;
mod refusal;

pub use compile::{compile, compile_into, compile_words, Compiled};
pub use constants::*;
pub use fault::Fault;
pub use listing::{listing, listing_into};
pub use machine::{Ending, Machine, Ran, Stepped};
pub use refusal::{Reason, Refusal};

/// The version of the library that is linked; [`VERSION`] is the one that this package was written for.
pub fn version() -> u32 {
    // SAFETY: the function takes nothing and has no effect.
    unsafe { ffi::sauskinna_version() }
}
