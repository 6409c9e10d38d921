//! The numbers of `include/sauskinna.h`.

/// The version of the library: 1000 times its first number, and its second.
pub const VERSION: u32 = 1001;

/// Declaration rows that a rule may have.
pub const DECLARATIONS: usize = 256;

/// Node rows that a rule may have.
pub const ROWS: usize = 1024;

/// Cells of memory, and of all declarations together.
pub const CELLS: usize = 65_536;

/// Code words that a run, a step and a listing take.
pub const CODE_WORDS: usize = 262_144;

/// Registers, $0 to $63; $0 reads as 0.
pub const REGISTERS: usize = 64;

/// Bytes of stack that any call may take.
pub const STACK: usize = 122_880;

/// Bytes of stack that a run or a step may take.
pub const STACK_RUN: usize = 512;

/// Bytes of stack that a listing may take.
pub const STACK_LISTING: usize = 69_632;

/// Bytes of the longest line that a listing can have, its newline among them.
pub const LINE: usize = 33;

/// Code words that hold any rule of so many node rows: a row gives at most four instructions, and the end one more.
pub const fn room(rows: usize) -> usize {
    16 * rows + 4
}

/// Kinds of declarations: the first word of a row, before its value. Cells are given out from address 0 in row order.
pub mod declaration {
    /// Value: the constant.
    pub const CONSTANT: i32 = 1;
    /// Value: 0. One cell.
    pub const VARIABLE: i32 = 2;
    /// Value: its cells, 1 to 65,536.
    pub const ARRAY: i32 = 3;
}

/// Kinds of nodes: the first word of a row, before three words, of which those not used are 0. A name is a declaration's row
/// number from 0, a child a lower node row. The last row is the whole rule, a command; every other row is the child of one
/// parent, once.
pub mod node {
    /// A value.
    pub const VALUE: i32 = 1;
    /// Name of a constant or variable.
    pub const IDENTIFIER: i32 = 2;
    /// Name of an array, index.
    pub const ELEMENT: i32 = 3;
    /// Left, right.
    pub const PLUS: i32 = 4;
    /// Left, right.
    pub const MINUS: i32 = 5;
    /// Left, right.
    pub const TIMES: i32 = 6;
    /// Left, right.
    pub const LESS: i32 = 7;
    /// Left, right.
    pub const EQUAL: i32 = 8;
    /// Left, right: both are worked out.
    pub const AND: i32 = 9;
    /// Left, right: both are worked out.
    pub const OR: i32 = 10;
    /// Operand.
    pub const NOT: i32 = 11;
    /// No words.
    pub const SKIP: i32 = 16;
    /// Name of a variable, value.
    pub const ASSIGN: i32 = 17;
    /// Name of an array, index, value.
    pub const ASSIGN_ELEMENT: i32 = 18;
    /// First, second.
    pub const SEQUENCE: i32 = 19;
    /// Test, then, else.
    pub const IF: i32 = 20;
    /// Test, body.
    pub const WHILE: i32 = 21;
}

/// Operations: the first word of an instruction, before three words, of which those not used are 0. A label is an
/// instruction's number, from 0; so is a place.
pub mod operation {
    /// The end.
    pub const HALT: i32 = 0;
    /// Nothing.
    pub const NOP: i32 = 1;
    /// a b c: $a = $b + $c.
    pub const ADD: i32 = 2;
    /// a N c: $a = N + $c.
    pub const ADDI: i32 = 3;
    /// a b c: $a = $b - $c.
    pub const SUB: i32 = 4;
    /// a b c: $a = $b * $c.
    pub const MUL: i32 = 5;
    /// a b i: $a = memory at $b + $i.
    pub const LOAD: i32 = 6;
    /// b i a: memory at $b + $i = $a.
    pub const STORE: i32 = 7;
    /// L: to L.
    pub const JMP: i32 = 8;
    /// a b L: to L if $a and $b differ.
    pub const BNE: i32 = 9;
    /// a b L: to L if $a and $b are equal.
    pub const BEQ: i32 = 10;
    /// a b c: $a = 1 if $b < $c, else 0.
    pub const SLT: i32 = 11;
}

/// The words of an answer in C; here they are fields.
pub mod answer {
    /// Compile, accepted: instructions emitted.
    pub const INSTRUCTIONS: usize = 0;
    /// Compile, accepted: cells that the declarations take.
    pub const CELLS: usize = 1;
    /// Compile, accepted: registers that the rule needs.
    pub const NEED: usize = 2;
    /// Listing, accepted: bytes written.
    pub const BYTES: usize = 0;
    /// Compile, listing, refused: the refusal's value.
    pub const VALUE: usize = 0;
    /// Step, run: how it ended.
    pub const ENDING: usize = 0;
    /// Step, run: the fault's number, or 0.
    pub const FAULT: usize = 1;
    /// Step, run: steps taken.
    pub const STEPS: usize = 2;
    /// The words that there are.
    pub const WORDS: usize = 3;
}

/// Endings in C: a step answers one of the first three, a run one of the last three. Here they are
/// [`Stepped`](crate::Stepped) and [`Ending`](crate::Ending).
pub mod ending {
    /// A step went on.
    pub const WENT_ON: u32 = 0;
    /// The code halted.
    pub const HALTED: u32 = 1;
    /// The code faulted.
    pub const FAULTED: u32 = 2;
    /// The budget of a run is spent.
    pub const UNFINISHED: u32 = 3;
}

/// What a call returns in C that is not refused.
pub const ACCEPTED: u32 = 0;

/// The fault's number in an answer without one.
pub const NO_FAULT: u32 = 0;
