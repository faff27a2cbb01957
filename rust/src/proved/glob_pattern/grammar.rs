//! Made by `bin/rust_crate` from `crates/glob_pattern/src/grammar.rt`, where its contracts are: sha256 b0a9d3e364693408.
//! `Vec::with_capacity` and `resize` are there `vec![x; n]`: memory that is asked for as zeros is never what was freed
//! last, and costs more.
//!
//! Reads the units of a pattern, or its first fault.

use crate::proved::glob_pattern::error::{PatternError, PatternErrorKind};
use crate::proved::glob_pattern::token::bracket::Bracket;
use crate::proved::glob_pattern::token::Token;

/// The initial capacity of a token list. Most patterns never need more.
const FEW: usize = 128;

/// Reads the tokens of a pattern. The error is the first fault of a text that is not accepted.
pub fn read_tokens(pattern: &str) -> Result<Vec<Token<Bracket>>, PatternError> {
    let text = characters_of(pattern);
    read_text(text.as_slice())
}

/// The characters of a text: `a` and `é` for `aé`.
pub fn characters_of(text: &str) -> Vec<char> {
    let mut characters = Vec::with_capacity(text.len());
    characters.resize(text.len(), '\0');
    if widen(text.as_bytes(), characters.as_mut_slice()) {
        return characters;
    }
    characters.clear();
    characters.extend(text.chars());
    characters
}

/// Writes each byte as a character. Returns whether all are ASCII: only then are they the characters of the text. The
/// loop has no early exit, so that the compiler handles sixteen bytes at a time.
fn widen(bytes: &[u8], characters: &mut [char]) -> bool {
    let mut ascii = true;
    for n in 0..bytes.len() {
        ascii &= bytes[n].is_ascii();
        characters[n] = bytes[n] as char;
    }
    ascii
}

/// [`read_tokens`] for a list of characters.
fn read_text(text: &[char]) -> Result<Vec<Token<Bracket>>, PatternError> {
    let mut tokens = Vec::with_capacity(text.len().min(FEW));
    let mut place = 0;
    while place < text.len() {
        match text[place] {
            '?' => {
                tokens.push(Token::AnyChar);
                place += 1;
            }
            '*' => {
                let (token, end) = stars_at(text, place)?;
                push_stars(&mut tokens, token);
                place = end;
            }
            '[' => {
                let (token, end) = bracket_at(text, place)?;
                tokens.push(token);
                place = end;
            }
            c => {
                tokens.push(Token::Literal(c));
                place += 1;
            }
        }
    }
    Ok(tokens)
}

/// Appends the token that stars stand for. Neighbouring recursive wildcards become one.
fn push_stars(tokens: &mut Vec<Token<Bracket>>, token: Token<Bracket>) {
    if token.is_recursive() && ends_recursive(tokens.as_slice()) {
        return;
    }
    tokens.push(token);
}

/// Whether the last token is `**`.
fn ends_recursive(tokens: &[Token<Bracket>]) -> bool {
    match tokens {
        [.., last] => last.is_recursive(),
        [] => false,
    }
}

/// The unit of the stars at `place`: its token, and the place after it.
fn stars_at(text: &[char], place: usize) -> Result<(Token<Bracket>, usize), PatternError> {
    if !has(text, place + 1, '*') {
        Ok((Token::AnySequence, place + 1))
    } else if has(text, place + 2, '*') {
        Err(fault(place + 2, PatternErrorKind::Wildcards))
    } else if !opens(text, place) {
        Err(fault(place - 1, PatternErrorKind::Recursive))
    } else if has(text, place + 2, '/') {
        Ok((Token::Recursive, place + 3))
    } else if place + 2 == text.len() {
        Ok((Token::Recursive, place + 2))
    } else {
        Err(fault(place + 2, PatternErrorKind::Recursive))
    }
}

/// The unit of the bracket at `place`: its token, and the place after it. A `]` right after `[` or `[!` does not close
/// it.
fn bracket_at(text: &[char], place: usize) -> Result<(Token<Bracket>, usize), PatternError> {
    let is_inverted = has(text, place + 1, '!');
    let start = if is_inverted { place + 2 } else { place + 1 };
    let close = close_from(text, start + 1).ok_or(fault(place, PatternErrorKind::Range))?;
    let bracket = Bracket::read(&text[start..close]);
    let token = if is_inverted { Token::NoneOf(bracket) } else { Token::OneOf(bracket) };
    Ok((token, close + 1))
}

/// The place of the first `]` from `start` on, or `None`. Both are in characters from 0: in `[]-]` it is 3 from 2 on.
/// `start` may be at most two past the end.
pub fn close_from(text: &[char], start: usize) -> Option<usize> {
    for place in start..text.len() {
        if text[place] == ']' {
            return Some(place);
        }
    }
    None
}

/// The error for a fault at `pos`, in characters from 0.
fn fault(pos: usize, kind: PatternErrorKind) -> PatternError {
    PatternError { pos, msg: kind.message() }
}

/// Whether the character at `place` is `c`; false past the end.
fn has(text: &[char], place: usize, c: char) -> bool {
    place < text.len() && text[place] == c
}

/// Whether a component starts at `place`, in characters from 0: at the start, and right after a `/`. In `a/b`
/// components start at 0 and 2. `place` must not be past the end.
#[inline(always)]
pub fn opens(text: &[char], place: usize) -> bool {
    place == 0 || text[place - 1] == '/'
}
