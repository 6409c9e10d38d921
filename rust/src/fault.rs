//! The faults of a step.

numbered! {
    /// Why an instruction was not done. A fault counts no step and changes nothing: the place stays at that instruction.
    Fault {
        1 Place "the place is outside the code"
        2 Instruction "the operation is unknown, an unused word is not 0, or a register's number is outside 0 to 63"
        3 Zero "a result would be written to $0"
        4 Address "a load or store is outside the memory"
        5 Label "a jump that is taken has its label outside the code"
    }
}
