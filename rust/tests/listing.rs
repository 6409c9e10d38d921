//! Lists code with the library.
#![cfg(sauskinna_linked)]

mod rules;

use rules::{pool_to, NESTED, SET, X};
use sauskinna::operation::{ADD, ADDI, BEQ, BNE, HALT, JMP, LOAD, MUL, NOP, SLT, STORE, SUB};
use sauskinna::{compile, listing, listing_into, Reason, Refusal, CODE_WORDS, LINE};

/// A byte that the library is not to write.
const UNTOUCHED: u8 = 0xa5;

fn refused<T>(reason: Reason, value: u32) -> Result<T, Refusal> {
    Err(Refusal { reason, value })
}

#[test]
fn a_compiled_rule_is_listed() {
    let (code, _) = compile(&X, &SET, pool_to(2)).unwrap();
    assert_eq!(
        listing(&code).unwrap(),
        "addi $1 2 $0\naddi $2 0 $0\nstore $2[$0] $1\nhalt\n"
    );
    let (code, compiled) = compile(&X, &NESTED, pool_to(5)).unwrap();
    assert_eq!(
        listing(&code).unwrap().lines().count(),
        compiled.instructions
    );
}

#[test]
fn every_operation_has_its_line() {
    let code = [
        [NOP, 0, 0, 0],
        [ADD, 1, 2, 3],
        [ADDI, 1, -2, 3],
        [ADDI, 63, i32::MIN, 63],
        [SUB, 1, 2, 3],
        [MUL, 1, 2, 3],
        [SLT, 1, 2, 3],
        [LOAD, 1, 2, 0],
        [STORE, 2, 0, 1],
        [JMP, 12, 0, 0],
        [BNE, 1, 2, 0],
        [BEQ, 1, 2, 11],
        [HALT, 0, 0, 0],
    ];
    let lines = "\
L0: nop
add $1 $2 $3
addi $1 -2 $3
addi $63 -2147483648 $63
sub $1 $2 $3
mul $1 $2 $3
slt $1 $2 $3
load $1 $2[$0]
store $2[$0] $1
jmp L12
bne $1 $2 L0
L11: beq $1 $2 L11
L12: halt
";
    assert_eq!(listing(&code.concat()).unwrap(), lines);
}

#[test]
fn no_code_is_an_empty_text() {
    assert_eq!(listing(&[]), Ok(String::new()));
    assert_eq!(listing_into(&[], &mut []), Ok(0));
}

#[test]
fn a_line_is_never_longer() {
    let last = CODE_WORDS / 4 - 1;
    let mut code = vec![[JMP, last as i32, 0, 0]; last];
    code.push([ADDI, 63, i32::MIN, 63]);
    let listed = listing(&code.concat()).unwrap();
    let line = listed.lines().last().unwrap();
    assert_eq!(line, "L65535: addi $63 -2147483648 $63");
    assert_eq!(line.len() + 1, LINE);
}

#[test]
fn bytes_beyond_the_listing_stay() {
    let mut text = [UNTOUCHED; LINE];
    assert_eq!(listing_into(&[NOP, 0, 0, 0], &mut text), Ok(4));
    let (listed, beyond) = text.split_at(4);
    assert_eq!(listed, b"nop\n");
    assert!(beyond.iter().all(|byte| *byte == UNTOUCHED));
}

#[test]
fn a_short_text_is_refused_and_kept() {
    let (code, _) = compile(&X, &SET, pool_to(2)).unwrap();
    let needed = listing(&code).unwrap().len();
    for bytes in 0..needed {
        let mut text = vec![UNTOUCHED; bytes];
        let told = listing_into(&code, &mut text);
        assert_eq!(told, refused(Reason::TextRoom, needed as u32));
        assert!(text.iter().all(|byte| *byte == UNTOUCHED));
    }
    assert_eq!(listing_into(&code, &mut vec![0; needed]), Ok(needed));
}

#[test]
fn what_is_no_code_is_refused() {
    for code in [vec![0; 3], vec![0; CODE_WORDS + 4]] {
        assert_eq!(listing(&code), refused(Reason::CodeWords, 0));
    }
    for instruction in [
        [99, 0, 0, 0],
        [HALT, 0, 0, 1],
        [ADD, 1, 64, 0],
        [JMP, 2, 0, 0],
        [BNE, 0, 0, -1],
    ] {
        let code = [[NOP, 0, 0, 0], instruction].concat();
        assert_eq!(listing(&code), refused(Reason::Instruction, 1));
        assert_eq!(
            listing_into(&code, &mut []),
            refused(Reason::Instruction, 1)
        );
    }
}
