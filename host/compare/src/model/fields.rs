//! Fields that name labels: which architecture knows them, how far they reach, and what is written into them.

use crate::AARCH64;

pub const REL32: u32 = 0;
pub const REL8: u32 = 1;
/// The code that number 6 names.
pub const LDR12: u32 = 15;
const BRANCH14: u32 = 9;
const BRANCH19: u32 = 10;
const BRANCH26: u32 = 11;
const LDR19: u32 = 12;
const ADR21: u32 = 13;
const ADRP21: u32 = 14;
const ADD_LO12: u32 = 16;

/// A code of the architecture.
pub fn is_known(code: u32, arch: u32) -> bool {
    if arch == AARCH64 {
        matches!(code, BRANCH14..=ADRP21 | ADD_LO12)
    } else {
        matches!(code, REL32 | REL8)
    }
}

/// Codes 9, 10 and 11.
pub fn is_branch(code: u32) -> bool {
    matches!(code, BRANCH14..=BRANCH26)
}

pub fn size(code: u32) -> usize {
    if code == REL8 { 1 } else { 4 }
}

/// A target `distance` bytes after the field's first byte can be encoded.
pub fn reaches(code: u32, distance: i64) -> bool {
    let words = |power: i64| distance % 4 == 0 && (-power..=power - 4).contains(&distance);
    match code {
        REL32 => i32::try_from(distance - 4).is_ok(),
        REL8 => i8::try_from(distance - 1).is_ok(),
        BRANCH14 => words(1 << 15),
        BRANCH19 | LDR19 => words(1 << 20),
        BRANCH26 => words(1 << 27),
        ADR21 => (-(1 << 20)..1 << 20).contains(&distance),
        // Pages: every label of a recording is in reach.
        _ => true,
    }
}

/// What a use adds to its label: the value in its field, for code 0.
pub fn held_addend(code: u32, field: &[u8]) -> i64 {
    match (code, field.try_into()) {
        (REL32, Ok(bytes)) => i32::from_le_bytes(bytes).into(),
        _ => 0,
    }
}

/// Makes the field at `offset` name `target`.
pub fn patch(code: u32, field: &mut [u8], offset: i64, target: i64) {
    let distance = target - offset;
    if code == REL8 {
        field[0] = (distance - 1) as u8;
        return;
    }
    let held = u32::from_le_bytes(field.try_into().expect("the field has four bytes"));
    let pages = (target >> 12) - (offset >> 12);
    let word = match code {
        REL32 => (distance - 4) as u32,
        BRANCH14 => insert(held, 5, 14, distance >> 2),
        BRANCH19 | LDR19 => insert(held, 5, 19, distance >> 2),
        BRANCH26 => insert(held, 0, 26, distance >> 2),
        ADR21 => insert_adr(held, distance),
        ADRP21 => insert_adr(held, pages),
        // "Code 16 now clears bits 10 to 21 before writing."
        _ => insert(held, 10, 12, target),
    };
    field.copy_from_slice(&word.to_le_bytes());
}

/// The word with the low bits of a value in its field.
pub fn insert(word: u32, position: u32, width: u32, value: i64) -> u32 {
    let mask = ((1u32 << width) - 1) << position;
    (word & !mask) | (((value as u32) << position) & mask)
}

/// immlo stands in bits 29 and 30, immhi in bits 5 to 23.
fn insert_adr(word: u32, value: i64) -> u32 {
    insert(insert(word, 29, 2, value), 5, 19, value >> 2)
}
