//! Made by `bin/rust_crate` from `crates/glob_set/src/needs.rt`, where its contracts are: sha256 4b5727940ba541e9.
//!
//! What a text needs for a pattern to match it.

use crate::proved::glob_pattern::{literal_at, tokens_len, Pattern};
use crate::proved::glob_set::pairs::{class_bit, pair_class, Need};

/// For each pattern, what all texts that it matches have.
pub fn needs_of(patterns: &[Pattern]) -> Vec<Need> {
    let mut needs = Vec::new();
    for pattern in patterns {
        needs.push(need_of(pattern));
    }
    needs
}

/// What all texts matched by the pattern have. For `src/*.rs` these are the pairs of neighbours in `src/` and `.rs`,
/// `s` at the start and `rs` at the end.
fn need_of(pattern: &Pattern) -> Need {
    let mut bits = 0;
    let mut class = None;
    for number in 0..tokens_len(pattern) {
        class = pair_at(pattern, number);
        bits = with_class(bits, class);
    }
    Need { bits, class }
}

/// The bits, plus the bit of the class if there is one.
fn with_class(bits: u128, class: Option<u8>) -> u128 {
    match class {
        Some(class) => bits | class_bit(class),
        None => bits,
    }
}

/// The class of the byte of token `number` and the byte before it, if both are known.
fn pair_at(pattern: &Pattern, number: usize) -> Option<u8> {
    let byte = byte_at(pattern, number)?;
    if number == 0 {
        return Some(pair_class(0, byte));
    }
    let before = byte_at(pattern, number - 1)?;
    Some(pair_class(before, byte))
}

/// The byte of token `number`, if that is an ASCII literal.
pub fn byte_at(pattern: &Pattern, number: usize) -> Option<u8> {
    match literal_at(pattern, number) {
        Some(c) if c.is_ascii() => Some(c as u8),
        _ => None,
    }
}
