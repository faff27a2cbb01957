//! Made by `bin/rust_crate` from `crates/glob_captures/src/steps.rt`, where its contracts are: sha256 5d80bce63d119ddf.
//!
//! What captures and reach share: the bound on the work, what a token's piece may be, and places in bytes.

use crate::proved::glob_pattern::{opens, token_kind, token_takes, tokens_len, MatchOptions, Pattern, TokenKind};

/// The greatest product of pattern tokens and text bytes that a call accepts. A pattern of 8 tokens may have a text of
/// 8 MiB.
pub const MOST_STEPS: usize = 1 << 26;

/// Whether the tokens times the bytes are more than [`MOST_STEPS`].
pub fn is_too_large(pattern: &Pattern, text: &str) -> bool {
    match tokens_len(pattern).checked_mul(text.len()) {
        Some(steps) => steps > MOST_STEPS,
        None => true,
    }
}

/// Which pieces a token may have.
#[derive(Clone, Copy)]
pub struct Form {
    /// They may have any number of characters, rather than exactly one.
    pub grows: bool,
    /// A nonempty one ends in `/`.
    pub closes: bool,
}

/// Which pieces token `token` may have.
pub fn form_of(pattern: &Pattern, token: usize) -> Form {
    match token_kind(pattern, token) {
        TokenKind::AnySequence => Form { grows: true, closes: false },
        TokenKind::Recursive => Form { grows: true, closes: token < tokens_len(pattern) - 1 },
        TokenKind::Literal | TokenKind::AnyChar | TokenKind::OneOf | TokenKind::NoneOf => {
            Form { grows: false, closes: false }
        }
    }
}

/// Whether token `token` takes the character at `place`. `may`: whether it may take one there at all.
#[inline(always)]
pub fn takes_if(
    pattern: &Pattern,
    token: usize,
    options: MatchOptions,
    text: &[char],
    place: usize,
    may: bool,
) -> bool {
    may && token_takes(pattern, token, options, opens(text, place), text[place])
}

/// The length of the characters, in bytes.
pub fn bytes_of(characters: &[char]) -> usize {
    let mut bytes = 0;
    for c in characters {
        bytes += c.len_utf8();
    }
    bytes
}
