//! What refusals and faults say. Nothing of the library is called.

use sauskinna::{Fault, Reason, Refusal};

/// The numbers of the reasons that there are.
const REASONS: [u32; 16] = [1, 2, 3, 4, 5, 6, 7, 8, 9, 10, 11, 12, 13, 14, 21, 22];

/// A number that is none of them.
const UNKNOWN: u32 = 99;

fn refusal(number: u32, value: u32) -> Refusal {
    Refusal {
        reason: Reason::from(number),
        value,
    }
}

#[test]
fn every_number_is_a_case_and_comes_back() {
    for number in (0..100).chain([u32::MAX]) {
        let reason = Reason::from(number);
        let fault = Fault::from(number);
        assert_eq!(reason.number(), number);
        assert_eq!(fault.number(), number);
        assert_eq!(refusal(number, 7).number(), number);
        assert_eq!(
            matches!(reason, Reason::Other(_)),
            !REASONS.contains(&number)
        );
        assert_eq!(matches!(fault, Fault::Other(_)), !(1..=5).contains(&number));
    }
}

#[test]
fn a_refusal_says_its_number_its_words_and_its_value() {
    for number in REASONS.into_iter().chain([UNKNOWN]) {
        let value = match number {
            4 | 5 => " (declaration row 7)",
            6..=10 => " (node row 7)",
            11 => " (7 needed)",
            12 => " (7 instructions needed)",
            21 => " (instruction 7)",
            22 => " (7 bytes needed)",
            UNKNOWN => " (value 7)",
            _ => "",
        };
        let words = Reason::from(number);
        let said = format!("refusal {number}: {words}{value}");
        assert_eq!(refusal(number, 7).to_string(), said);
    }
}

#[test]
fn words_differ() {
    let reasons = REASONS.into_iter().chain([UNKNOWN]);
    let mut said: Vec<String> = reasons.map(|n| Reason::from(n).to_string()).collect();
    said.extend((1..=5).map(|n| Fault::from(n).to_string()));
    let spoken = said.len();
    said.sort();
    said.dedup();
    assert_eq!(said.len(), spoken);
}

#[test]
fn a_refusal_is_an_error() {
    let error: Box<dyn std::error::Error + Send + Sync> = Box::new(refusal(11, 5));
    assert_eq!(
        error.to_string(),
        "refusal 11: the pool has too few registers (5 needed)"
    );
}
