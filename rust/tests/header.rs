//! Holds the package's constants to include/sauskinna.h. Nothing of the library is called.

use sauskinna::*;

/// Every constant of the header, without its prefix, and the package's value for it.
const KNOWN: &[(&str, i64)] = &[
    ("VERSION", VERSION as i64),
    ("DECLARATIONS", DECLARATIONS as i64),
    ("ROWS", ROWS as i64),
    ("CELLS", CELLS as i64),
    ("CODE_WORDS", CODE_WORDS as i64),
    ("REGISTERS", REGISTERS as i64),
    ("STACK", STACK as i64),
    ("STACK_RUN", STACK_RUN as i64),
    ("STACK_LISTING", STACK_LISTING as i64),
    ("LINE", LINE as i64),
    ("CONSTANT", declaration::CONSTANT as i64),
    ("VARIABLE", declaration::VARIABLE as i64),
    ("ARRAY", declaration::ARRAY as i64),
    ("VALUE", node::VALUE as i64),
    ("IDENTIFIER", node::IDENTIFIER as i64),
    ("ELEMENT", node::ELEMENT as i64),
    ("PLUS", node::PLUS as i64),
    ("MINUS", node::MINUS as i64),
    ("TIMES", node::TIMES as i64),
    ("LESS", node::LESS as i64),
    ("EQUAL", node::EQUAL as i64),
    ("AND", node::AND as i64),
    ("OR", node::OR as i64),
    ("NOT", node::NOT as i64),
    ("SKIP", node::SKIP as i64),
    ("ASSIGN", node::ASSIGN as i64),
    ("ASSIGN_ELEMENT", node::ASSIGN_ELEMENT as i64),
    ("SEQUENCE", node::SEQUENCE as i64),
    ("IF", node::IF as i64),
    ("WHILE", node::WHILE as i64),
    ("HALT", operation::HALT as i64),
    ("NOP", operation::NOP as i64),
    ("ADD", operation::ADD as i64),
    ("ADDI", operation::ADDI as i64),
    ("SUB", operation::SUB as i64),
    ("MUL", operation::MUL as i64),
    ("LOAD", operation::LOAD as i64),
    ("STORE", operation::STORE as i64),
    ("JMP", operation::JMP as i64),
    ("BNE", operation::BNE as i64),
    ("BEQ", operation::BEQ as i64),
    ("SLT", operation::SLT as i64),
    ("WENT_ON", ending::WENT_ON as i64),
    ("HALTED", ending::HALTED as i64),
    ("FAULTED", ending::FAULTED as i64),
    ("UNFINISHED", ending::UNFINISHED as i64),
    ("ACCEPTED", ACCEPTED as i64),
    ("REFUSED_NODE_WORDS", Reason::NodeWords.number() as i64),
    (
        "REFUSED_DECLARATION_WORDS",
        Reason::DeclarationWords.number() as i64,
    ),
    ("REFUSED_POOL", Reason::Pool.number() as i64),
    ("REFUSED_DECLARATION", Reason::Declaration.number() as i64),
    ("REFUSED_CELLS", Reason::Cells.number() as i64),
    ("REFUSED_NODE", Reason::Node.number() as i64),
    ("REFUSED_SORT", Reason::Sort.number() as i64),
    ("REFUSED_NAME", Reason::Name.number() as i64),
    ("REFUSED_NAME_KIND", Reason::NameKind.number() as i64),
    ("REFUSED_USES", Reason::Uses.number() as i64),
    ("REFUSED_REGISTERS", Reason::Registers.number() as i64),
    ("REFUSED_ROOM", Reason::Room.number() as i64),
    ("REFUSED_CODE_WORDS", Reason::CodeWords.number() as i64),
    ("REFUSED_MEMORY", Reason::Memory.number() as i64),
    ("REFUSED_INSTRUCTION", Reason::Instruction.number() as i64),
    ("REFUSED_TEXT_ROOM", Reason::TextRoom.number() as i64),
    ("NO_FAULT", NO_FAULT as i64),
    ("FAULT_PLACE", Fault::Place.number() as i64),
    ("FAULT_INSTRUCTION", Fault::Instruction.number() as i64),
    ("FAULT_ZERO", Fault::Zero.number() as i64),
    ("FAULT_ADDRESS", Fault::Address.number() as i64),
    ("FAULT_LABEL", Fault::Label.number() as i64),
    ("ANSWER_INSTRUCTIONS", answer::INSTRUCTIONS as i64),
    ("ANSWER_CELLS", answer::CELLS as i64),
    ("ANSWER_NEED", answer::NEED as i64),
    ("ANSWER_BYTES", answer::BYTES as i64),
    ("ANSWER_VALUE", answer::VALUE as i64),
    ("ANSWER_ENDING", answer::ENDING as i64),
    ("ANSWER_FAULT", answer::FAULT as i64),
    ("ANSWER_STEPS", answer::STEPS as i64),
    ("ANSWER_WORDS", answer::WORDS as i64),
];

const PREFIX: &str = "SAUSKINNA_";

/// Names of the header that are no constants: its guard, and a macro with an argument.
const NO_NUMBERS: [&str; 2] = ["H", "ROOM"];

fn header() -> String {
    let path = concat!(env!("CARGO_MANIFEST_DIR"), "/../include/sauskinna.h");
    std::fs::read_to_string(path).expect("the header stands in the repository")
}

/// The header without its comments.
fn declared() -> String {
    let header = header();
    let mut parts = header.split("/*");
    let before = parts.next().unwrap_or("");
    let after = parts.filter_map(|part| part.split_once("*/"));
    after.fold(before.to_string(), |text, (_, code)| text + code)
}

/// Each name with the prefix, where it stands, and the number behind it, if there is one.
fn names(declared: &str) -> Vec<(&str, Option<i64>)> {
    let words: Vec<&str> = declared
        .split(|c: char| !c.is_alphanumeric() && c != '_')
        .filter(|word| !word.is_empty())
        .collect();
    let pairs = words.windows(2);
    pairs
        .filter_map(|pair| Some((pair[0].strip_prefix(PREFIX)?, pair[1].parse().ok())))
        .collect()
}

#[test]
fn every_constant_of_the_header_is_the_packages() {
    let declared = declared();
    let names = names(&declared);
    assert!(names.len() > 40, "only {} names were found", names.len());
    for (name, _) in &names {
        if NO_NUMBERS.contains(name) {
            continue;
        }
        let known = KNOWN.iter().find(|(known, _)| known == name);
        let (_, value) = known.unwrap_or_else(|| panic!("{PREFIX}{name} is unknown here"));
        let defined = names.iter().filter(|(other, _)| other == name);
        let defined: Vec<i64> = defined.filter_map(|(_, number)| *number).collect();
        assert_eq!(defined, [*value], "{PREFIX}{name}");
    }
}

#[test]
fn room_is_the_headers() {
    let defined = "#define SAUSKINNA_ROOM(rows) (16 * (size_t)(rows) + 4)";
    assert!(declared().contains(defined));
    assert_eq!(room(0), 4);
    assert_eq!(room(ROWS), 16_388);
}
