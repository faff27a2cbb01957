//! Made by `bin/rust_crate` from `crates/glob_set/src/braces/counting.rt`, where its contracts are: sha256 d07e8b23291168aa.
//!
//! The number of alternatives of lexemes, and whether their braces are balanced.

use crate::proved::glob_set::braces::error::BraceError;
use crate::proved::glob_set::braces::lexemes::Lexeme;

/// A `{` that is still open. Numbers of alternatives stop at `usize::MAX`.
#[derive(Clone, Copy)]
pub struct Opened {
    /// Its place, in characters from 0.
    pub place: usize,
    /// The number of alternatives before it.
    pub before: usize,
    /// The number of alternatives between it and its last comma.
    pub found: usize,
}

/// The number of alternatives of the lexemes, which stops at `usize::MAX`. The error is the first unbalanced brace from
/// the left.
pub fn count_of(lexemes: &[Lexeme]) -> Result<usize, BraceError> {
    let mut opened = Vec::new();
    let mut count: usize = 1;
    for (place, lexeme) in lexemes.iter().enumerate() {
        count = count_lexeme(&mut opened, count, place, *lexeme)?;
    }
    match opened.first() {
        Some(first) => Err(BraceError::Unclosed(first.place)),
        None => Ok(count),
    }
}

/// Reads one more lexeme. `count` is the number of alternatives of the current branch, which began after the innermost
/// open `{` or its last comma. Returns the new count.
fn count_lexeme(opened: &mut Vec<Opened>, count: usize, place: usize, lexeme: Lexeme) -> Result<usize, BraceError> {
    match lexeme {
        Lexeme::Literal(_) => Ok(count),
        Lexeme::Open => {
            opened.push(Opened { place, before: count, found: 0 });
            Ok(1)
        }
        Lexeme::Comma => match opened.pop() {
            Some(last) => {
                opened.push(Opened { found: last.found.saturating_add(count), ..last });
                Ok(1)
            }
            None => Ok(count),
        },
        Lexeme::Close => match opened.pop() {
            Some(last) => Ok(last.before.saturating_mul(last.found.saturating_add(count))),
            None => Err(BraceError::Unmatched(place)),
        },
    }
}
