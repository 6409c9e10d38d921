//! Running code.

use crate::constants::{answer, ending, REGISTERS};
use crate::fault::Fault;
use crate::ffi;
use crate::refusal::Refusal;

/// How a run ended.
#[derive(Debug, Clone, Copy, PartialEq, Eq, Hash)]
pub enum Ending {
    /// The code halted. The halt counts as a step and keeps its place.
    Halted,
    /// The instruction at the place faulted.
    Faulted(Fault),
    /// The budget is spent; another run takes up where this one left off.
    Unfinished,
}

/// A run's ending and the steps that it took.
#[derive(Debug, Clone, Copy, PartialEq, Eq, Hash)]
pub struct Ran {
    /// How it ended.
    pub ending: Ending,
    /// The steps taken, at most the budget.
    pub steps: u32,
}

/// How a single step went.
#[derive(Debug, Clone, Copy, PartialEq, Eq, Hash)]
pub enum Stepped {
    /// One step was taken, to the next place.
    Went,
    /// One step was taken, a halt.
    Halted,
    /// No step was taken: the instruction at the place faulted.
    Faulted(Fault),
}

/// The place and the registers: with the memory, what a run leaves and takes up again.
///
/// The default is place 0, where a rule starts, with every register 0.
#[derive(Debug, Clone, PartialEq, Eq, Hash)]
pub struct Machine {
    /// The number of the instruction to do, from 0.
    pub place: u32,
    /// $0 to $63. $0 reads as 0 whatever the first of them holds, and that is never changed.
    pub registers: [i32; REGISTERS],
}

impl Default for Machine {
    fn default() -> Self {
        Self {
            place: 0,
            registers: [0; REGISTERS],
        }
    }
}

impl Machine {
    /// Takes steps until the code halts or faults, or the budget is spent.
    ///
    /// # Errors
    ///
    /// Refusals 13 and 14.
    pub fn run(&mut self, code: &[i32], memory: &mut [i32], budget: u32) -> Result<Ran, Refusal> {
        let mut answer = [0; answer::WORDS];
        // SAFETY: each pointer comes with the length of its slice or points to a field of that length, and nothing overlaps
        // what is lent to be written.
        let number = unsafe {
            ffi::sauskinna_run(
                code.as_ptr(),
                code.len(),
                memory.as_mut_ptr(),
                memory.len(),
                &mut self.place,
                &mut self.registers,
                budget,
                &mut answer,
            )
        };
        Refusal::unless_accepted(number, 0)?;
        Ok(Ran {
            ending: match answer[answer::ENDING] {
                ending::HALTED => Ending::Halted,
                ending::FAULTED => Ending::Faulted(answer[answer::FAULT].into()),
                _ => Ending::Unfinished, // a run answers nothing else
            },
            steps: answer[answer::STEPS],
        })
    }

    /// Takes one step.
    ///
    /// # Errors
    ///
    /// Refusals 13 and 14.
    pub fn step(&mut self, code: &[i32], memory: &mut [i32]) -> Result<Stepped, Refusal> {
        let mut answer = [0; answer::WORDS];
        // SAFETY: as in `run`.
        let number = unsafe {
            ffi::sauskinna_step(
                code.as_ptr(),
                code.len(),
                memory.as_mut_ptr(),
                memory.len(),
                &mut self.place,
                &mut self.registers,
                &mut answer,
            )
        };
        Refusal::unless_accepted(number, 0)?;
        Ok(match answer[answer::ENDING] {
            ending::HALTED => Stepped::Halted,
            ending::FAULTED => Stepped::Faulted(answer[answer::FAULT].into()),
            _ => Stepped::Went, // a step answers nothing else
        })
    }
}
