//! Violations and the bytes of a report.

use crate::bundle::{Name, Refusal, OUTPUT_TOO_SMALL};

pub const OUTPUT_LIMIT: usize = 65_536;

#[derive(Clone, Debug, PartialEq, Eq)]
pub struct Violation {
    /// 1 to 8.
    pub kind: u8,
    pub definition: usize,
    pub name: Name,
    pub path: Vec<Name>,
    pub chain: Vec<Name>,
}

pub fn report_bytes(violations: &[Violation]) -> Vec<u8> {
    let mut bytes = vec![0x70];
    push_word(&mut bytes, violations.len());
    for violation in violations {
        bytes.push(0x70 + violation.kind);
        push_word(&mut bytes, violation.definition);
        push_word(&mut bytes, violation.name as usize);
        bytes.push(violation.path.len() as u8);
        for place in 0..4 {
            let name = violation.path.get(place).copied().unwrap_or(0);
            push_word(&mut bytes, name as usize);
        }
        push_word(&mut bytes, violation.chain.len());
        for name in &violation.chain {
            bytes.push(0x7F);
            push_word(&mut bytes, *name as usize);
        }
    }
    bytes
}

fn push_word(bytes: &mut Vec<u8>, value: usize) {
    bytes.extend_from_slice(&(value as u16).to_le_bytes());
}

/// What the program writes for a report or a refusal.
pub fn program_bytes(outcome: Result<Vec<u8>, Refusal>) -> Vec<u8> {
    match outcome {
        Ok(report) if report.len() <= OUTPUT_LIMIT => report,
        Ok(_) => vec![0x7E, OUTPUT_TOO_SMALL],
        Err(refusal) => vec![0x7E, refusal],
    }
}
