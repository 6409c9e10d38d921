//! Runs code with the library.
#![cfg(sauskinna_linked)]

mod rules;

use rules::{pool_to, NESTED, SET, X};
use sauskinna::operation::{ADD, ADDI, BEQ, HALT, JMP, LOAD, STORE};
use sauskinna::{compile, Ending, Fault, Machine, Ran, Reason, Refusal, Stepped};
use sauskinna::{CELLS, CODE_WORDS, REGISTERS};

fn code_of(nodes: &[[i32; 4]], pool: u64) -> Vec<i32> {
    compile(&X, nodes, pool).unwrap().0
}

fn ran(ending: Ending, steps: u32) -> Result<Ran, Refusal> {
    Ok(Ran { ending, steps })
}

fn refused<T>(reason: Reason) -> Result<T, Refusal> {
    Err(Refusal { reason, value: 0 })
}

#[test]
fn the_budget_decides_how_far_a_rule_gets() {
    let code = code_of(&SET, pool_to(2));
    for (budget, ending, steps, x) in [
        (0, Ending::Unfinished, 0, 0),
        (2, Ending::Unfinished, 2, 0),
        (3, Ending::Unfinished, 3, 2),
        (4, Ending::Halted, 4, 2),
        (u32::MAX, Ending::Halted, 4, 2),
    ] {
        let mut memory = [0];
        let told = Machine::default().run(&code, &mut memory, budget);
        assert_eq!((told, memory), (ran(ending, steps), [x]));
    }
}

#[test]
fn a_nested_difference_is_right() {
    let code = code_of(&NESTED, pool_to(5));
    let mut memory = [0];
    let told = Machine::default().run(&code, &mut memory, 100);
    assert_eq!((told, memory), (ran(Ending::Halted, 8), [6]));
}

#[test]
fn an_unfinished_run_is_resumed() {
    let code = code_of(&NESTED, pool_to(5));
    let mut memory = [0];
    let mut machine = Machine::default();
    assert_eq!(
        machine.run(&code, &mut memory, 5),
        ran(Ending::Unfinished, 5)
    );
    assert_eq!((machine.place, memory), (5, [0]));
    assert_eq!(machine.run(&code, &mut memory, 5), ran(Ending::Halted, 3));
    assert_eq!((machine.place, memory), (7, [6]));
}

#[test]
fn single_steps_are_a_run() {
    let code = code_of(&SET, pool_to(2));
    let mut memory = [0];
    let mut machine = Machine::default();
    for place in 1..=3 {
        assert_eq!(machine.step(&code, &mut memory), Ok(Stepped::Went));
        assert_eq!(machine.place, place);
    }
    assert_eq!(memory, [2]);
    for _ in 0..2 {
        assert_eq!(machine.step(&code, &mut memory), Ok(Stepped::Halted));
        assert_eq!(machine.place, 3);
    }
}

#[test]
fn registers_outside_the_pool_are_the_hosts() {
    let code = code_of(&NESTED, pool_to(5) << 10);
    let registers: [i32; REGISTERS] = std::array::from_fn(|k| 1000 + k as i32);
    let mut machine = Machine {
        place: 0,
        registers,
    };
    assert_eq!(machine.run(&code, &mut [0], 100), ran(Ending::Halted, 8));
    for k in (0..REGISTERS).filter(|k| !(11..=15).contains(k)) {
        assert_eq!(machine.registers[k], registers[k]);
    }
}

#[test]
fn a_fault_is_no_step_and_changes_nothing() {
    for (instruction, fault) in [
        ([99, 0, 0, 0], Fault::Instruction),
        ([HALT, 1, 0, 0], Fault::Instruction),
        ([ADD, 64, 0, 0], Fault::Instruction),
        ([ADDI, 0, 2, 0], Fault::Zero),
        ([LOAD, 1, 2, 0], Fault::Address),
        ([STORE, 2, 0, 1], Fault::Address),
        ([JMP, 99, 0, 0], Fault::Label),
        ([BEQ, 0, 0, 99], Fault::Label),
    ] {
        let mut machine = Machine::default();
        machine.registers[2] = 1;
        let before = machine.clone();
        let mut memory = [7];
        assert_eq!(
            machine.run(&instruction, &mut memory, 9),
            ran(Ending::Faulted(fault), 0)
        );
        assert_eq!(
            machine.step(&instruction, &mut memory),
            Ok(Stepped::Faulted(fault))
        );
        assert_eq!((machine, memory), (before, [7]));
    }
}

#[test]
fn a_place_outside_the_code_is_a_fault() {
    for place in [0, 1, u32::MAX] {
        let mut machine = Machine {
            place,
            ..Machine::default()
        };
        assert_eq!(
            machine.run(&[], &mut [], 1),
            ran(Ending::Faulted(Fault::Place), 0)
        );
        assert_eq!(
            machine.step(&[], &mut []),
            Ok(Stepped::Faulted(Fault::Place))
        );
        assert_eq!(machine.run(&[], &mut [], 0), ran(Ending::Unfinished, 0));
    }
}

#[test]
fn a_rule_without_its_cell_faults_when_it_stores() {
    let code = code_of(&SET, pool_to(2));
    let run = |budget| Machine::default().run(&code, &mut [], budget);
    assert_eq!(run(2), ran(Ending::Unfinished, 2));
    assert_eq!(run(3), ran(Ending::Faulted(Fault::Address), 2));
}

#[test]
fn code_and_memory_of_a_wrong_size_are_refused() {
    let mut machine = Machine::default();
    let mut large = vec![0; CELLS + 1];
    for code in [vec![0; 3], vec![0; CODE_WORDS + 4]] {
        assert_eq!(
            machine.run(&code, &mut large, 1),
            refused(Reason::CodeWords)
        );
        assert_eq!(machine.step(&code, &mut large), refused(Reason::CodeWords));
    }
    let code = vec![0; CODE_WORDS];
    assert_eq!(machine.run(&code, &mut large, 1), refused(Reason::Memory));
    assert_eq!(machine.step(&code, &mut large), refused(Reason::Memory));
    assert_eq!(machine, Machine::default());
    assert_eq!(
        machine.run(&code, &mut large[1..], 1),
        ran(Ending::Halted, 1)
    );
}
