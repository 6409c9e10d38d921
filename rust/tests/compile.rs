//! Compiles rules with the library.
#![cfg(sauskinna_linked)]

mod rules;

use rules::{pool_to, NESTED, SET, X};
use sauskinna::declaration::{ARRAY, CONSTANT, VARIABLE};
use sauskinna::node::{ASSIGN, EQUAL, SKIP, VALUE};
use sauskinna::operation::{ADDI, HALT, NOP, STORE, SUB};
use sauskinna::{compile, compile_into, compile_words, room, version};
use sauskinna::{Compiled, Reason, Refusal, ROWS, VERSION};

const SKIPPED: [[i32; 4]; 1] = [[SKIP, 0, 0, 0]];

/// A word that the library is not to write.
const UNTOUCHED: i32 = 0x5a5a;

fn takes(instructions: usize, cells: usize, need: u32) -> Compiled {
    Compiled {
        instructions,
        cells,
        need,
    }
}

fn refused(reason: Reason, value: u32) -> Result<Compiled, Refusal> {
    Err(Refusal { reason, value })
}

#[test]
fn the_library_is_the_packages_version() {
    assert_eq!(version(), VERSION);
}

#[test]
fn an_assignment_is_four_instructions() {
    let (code, compiled) = compile(&X, &SET, pool_to(2)).unwrap();
    let expected = [
        [ADDI, 1, 2, 0],
        [ADDI, 2, 0, 0],
        [STORE, 2, 0, 1],
        [HALT, 0, 0, 0],
    ];
    assert_eq!(code, expected.concat());
    assert_eq!(compiled, takes(4, 1, 2));
}

#[test]
fn a_nested_difference_keeps_its_left_operand() {
    let (code, compiled) = compile(&X, &NESTED, pool_to(5)).unwrap();
    let expected = [
        [ADDI, 2, 9, 0],
        [ADDI, 4, 5, 0],
        [ADDI, 5, 2, 0],
        [SUB, 3, 4, 5],
        [SUB, 1, 2, 3],
        [ADDI, 2, 0, 0],
        [STORE, 2, 0, 1],
        [HALT, 0, 0, 0],
    ];
    assert_eq!(code, expected.concat());
    assert_eq!(compiled, takes(8, 1, 5));
}

#[test]
fn words_beyond_the_code_stay() {
    let mut code = [UNTOUCHED; room(SET.len())];
    let compiled = compile_into(&X, &SET, pool_to(2), &mut code).unwrap();
    let (emitted, beyond) = code.split_at(compiled.code_words());
    assert_eq!(emitted, compile(&X, &SET, pool_to(2)).unwrap().0);
    assert!(!beyond.is_empty() && beyond.iter().all(|word| *word == UNTOUCHED));
}

#[test]
fn a_rule_without_names_or_registers_is_accepted() {
    let (code, compiled) = compile(&[], &SKIPPED, 0).unwrap();
    assert_eq!(code, [[NOP, 0, 0, 0], [HALT, 0, 0, 0]].concat());
    assert_eq!(compiled, takes(2, 0, 0));
}

#[test]
fn tables_of_a_wrong_size_are_refused() {
    let row = SKIPPED.concat();
    let compile =
        |declarations: &[i32], nodes: &[i32]| compile_words(declarations, nodes, 0, &mut []);
    assert_eq!(compile(&[], &[]), refused(Reason::NodeWords, 0));
    assert_eq!(compile(&[], &row[..3]), refused(Reason::NodeWords, 0));
    assert_eq!(
        compile(&[], &row.repeat(ROWS + 1)),
        refused(Reason::NodeWords, 0)
    );
    assert_eq!(
        compile(&[VARIABLE], &row),
        refused(Reason::DeclarationWords, 0)
    );
    assert_eq!(
        compile(&[VARIABLE, 0].repeat(257), &row),
        refused(Reason::DeclarationWords, 0)
    );
}

#[test]
fn refusals_come_with_their_value() {
    let told = |declarations: &[[i32; 2]], nodes: &[[i32; 4]], pool| {
        compile(declarations, nodes, pool).map(|(_, compiled)| compiled)
    };
    let x = [VARIABLE, 0];
    let two = [VALUE, 2, 0, 0];
    let set = [ASSIGN, 0, 0, 0];
    let too_many = vec![[SKIP, 0, 0, 0]; ROWS + 1];
    assert_eq!(told(&X, &too_many, 6), refused(Reason::NodeWords, 0));
    assert_eq!(told(&X, &SET, 7), refused(Reason::Pool, 0));
    assert_eq!(told(&[x, [9, 0]], &SET, 6), refused(Reason::Declaration, 1));
    assert_eq!(
        told(&[[ARRAY, 65_536], x], &SET, 6),
        refused(Reason::Cells, 1)
    );
    assert_eq!(told(&X, &[two, [99, 0, 0, 0]], 6), refused(Reason::Node, 1));
    assert_eq!(told(&X, &[two], 6), refused(Reason::Sort, 0));
    assert_eq!(told(&[], &[two, set], 6), refused(Reason::Name, 1));
    assert_eq!(
        told(&[[CONSTANT, 1]], &[two, set], 6),
        refused(Reason::NameKind, 1)
    );
    assert_eq!(
        told(&X, &[two, two, [ASSIGN, 0, 1, 0]], 6),
        refused(Reason::Uses, 0)
    );
    assert_eq!(told(&X, &SET, 2), refused(Reason::Registers, 2));
    assert_eq!(told(&X, &NESTED, pool_to(4)), refused(Reason::Registers, 5));
}

#[test]
fn a_short_buffer_is_refused_and_kept() {
    let mut code = [UNTOUCHED; 15];
    let told = compile_into(&X, &SET, pool_to(2), &mut code);
    assert_eq!(told, refused(Reason::Room, 4));
    assert_eq!(code, [UNTOUCHED; 15]);
}

#[test]
fn room_holds_a_rule_of_all_rows() {
    let values = (0..512).map(|v| [VALUE, v, 0, 0]);
    let tests = (0..511).map(|k| [EQUAL, 2 * k, 2 * k + 1, 0]);
    let nodes: Vec<_> = values.chain(tests).chain([[ASSIGN, 0, 1022, 0]]).collect();
    assert_eq!(nodes.len(), ROWS);
    let (code, compiled) = compile(&X, &nodes, pool_to(19)).unwrap();
    assert_eq!(compiled, takes(512 + 4 * 511 + 2 + 1, 1, 19));
    assert_eq!(code.len(), compiled.code_words());
}
