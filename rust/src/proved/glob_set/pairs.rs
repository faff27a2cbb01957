//! Made by `bin/rust_crate` from `crates/glob_set/src/pairs.rt`, where its contracts are: sha256 36d023a9b8464bf6.
//!
//! Pairs of neighbouring bytes, as bits of one word.

/// What all texts matched by a pattern have.
#[derive(Clone, Copy)]
pub struct Need {
    /// The bits of neighbouring bytes.
    pub bits: u128,
    /// The class of the last two bytes, if the pattern ends in two ASCII literals or is a single one.
    pub class: Option<u8>,
}

/// The class of two neighbouring bytes, below 128. `.o` and `.O` have the same.
#[inline(always)]
pub fn pair_class(a: u8, b: u8) -> u8 {
    ((u32::from(a % 32) * 13 + u32::from(b % 32) * 3) % 128) as u8
}

/// The bit that a class has in a word.
#[inline(always)]
pub fn class_bit(class: u8) -> u128 {
    1 << class
}

/// The class of a text's last two bytes, as if a byte 0 preceded the text.
#[inline(always)]
pub fn text_class(bytes: &[u8]) -> u8 {
    match bytes {
        [] => 0,
        [last] => pair_class(0, *last),
        [.., before, last] => pair_class(*before, *last),
    }
}

/// The bits of all neighbouring bytes of a text, as if a byte 0 preceded it.
#[inline(always)]
pub fn text_bits(bytes: &[u8]) -> u128 {
    let mut bits = 0;
    let mut last = 0;
    for byte in bytes {
        bits |= class_bit(pair_class(last, *byte));
        last = *byte;
    }
    bits
}
