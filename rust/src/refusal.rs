//! The refusals of a call.

use std::error::Error;
use std::fmt;

use crate::constants::ACCEPTED;

numbered! {
    /// Why a call was refused. [`Refusal::value`] says more from 4 to 12 and from 21 on: a row, an instruction, or what is needed.
    Reason {
        1 NodeWords "the node words are no multiple of 4, there is no row, or there are more than 1,024"
        2 DeclarationWords "the declaration words are odd, or there are more than 256 rows"
        3 Pool "the pool holds $0"
        4 Declaration "a declaration's kind or value is none of the listed"
        5 Cells "with this declaration the cells pass 65,536"
        6 Node "a node's kind is unknown, an unused word is not 0, or a child is no lower row"
        7 Sort "a child, or the last row, is of the wrong sort"
        8 Name "a name is no row of the declarations"
        9 NameKind "a name is of the wrong kind"
        10 Uses "a row other than the last is not used exactly once"
        11 Registers "the pool has too few registers"
        12 Room "the code buffer is too short"
        13 CodeWords "the code words are no multiple of 4, or there are more than 262,144"
        14 Memory "there are more than 65,536 cells of memory"
        21 Instruction "an operation is unknown, an unused word is not 0, a register is outside 0 to 63, or a label is outside the code"
        22 TextRoom "the text buffer is too short"
    }
}

/// A call that was refused. It changed nothing that was lent.
#[derive(Debug, Clone, Copy, PartialEq, Eq, Hash)]
pub struct Refusal {
    /// Why.
    pub reason: Reason,
    /// The row at fault (4 to 10), the registers needed (11), the instructions needed (12), the instruction at fault (21), the
    /// bytes needed (22); otherwise 0.
    pub value: u32,
}

impl Refusal {
    /// The number of its reason, from 1.
    pub const fn number(self) -> u32 {
        self.reason.number()
    }

    /// What a call says that returned this number.
    pub(crate) fn unless_accepted(number: u32, value: u32) -> Result<(), Self> {
        match number {
            ACCEPTED => Ok(()),
            _ => Err(Self {
                reason: number.into(),
                value,
            }),
        }
    }
}

impl fmt::Display for Refusal {
    fn fmt(&self, f: &mut fmt::Formatter<'_>) -> fmt::Result {
        let Self { reason, value } = self;
        write!(f, "refusal {}: {reason}", reason.number())?;
        match reason {
            Reason::Declaration | Reason::Cells => write!(f, " (declaration row {value})"),
            Reason::Node | Reason::Sort | Reason::Name | Reason::NameKind | Reason::Uses => {
                write!(f, " (node row {value})")
            }
            Reason::Registers => write!(f, " ({value} needed)"),
            Reason::Room => write!(f, " ({value} instructions needed)"),
            Reason::Instruction => write!(f, " (instruction {value})"),
            Reason::TextRoom => write!(f, " ({value} bytes needed)"),
            Reason::Other(_) => write!(f, " (value {value})"),
            _ => Ok(()),
        }
    }
}

impl Error for Refusal {}
