//! Made by `bin/rust_crate` from `crates/glob_set/src/braces/lexemes.rt`, where its contracts are: sha256 119168075c61b2fc.
//!
//! What each character of a text means to braces.

use crate::proved::glob_pattern::close_from;

/// What a character means to braces.
#[derive(Clone, Copy)]
pub enum Lexeme {
    /// A character that is not a brace or a comma, or is in a bracket.
    Literal(char),
    /// `{`
    Open,
    /// `,`
    Comma,
    /// `}`
    Close,
}

/// The lexemes of a text, one per character.
pub fn lexemes_of(text: &str) -> Vec<Lexeme> {
    let mut characters = Vec::new();
    characters.extend(text.chars());
    lexemes_in(characters.as_slice())
}

/// The lexemes of the characters.
fn lexemes_in(text: &[char]) -> Vec<Lexeme> {
    let mut found = Vec::new();
    let mut end = 0;
    for (place, c) in text.iter().enumerate() {
        end = end_at(text, place, end);
        found.push(lexeme_at(place, end, *c));
    }
    found
}

/// The end of the bracket that contains `place`, or `place` if none does. `last` is the end of the last bracket that
/// begins before it.
fn end_at(text: &[char], place: usize, last: usize) -> usize {
    if place < last {
        last
    } else {
        bracket_end(text, place)
    }
}

/// What the character at `place` means, if a bracket goes up to `end`.
fn lexeme_at(place: usize, end: usize, c: char) -> Lexeme {
    if place < end {
        Lexeme::Literal(c)
    } else {
        lexeme_of(c)
    }
}

/// What the character means outside brackets.
fn lexeme_of(c: char) -> Lexeme {
    match c {
        '{' => Lexeme::Open,
        ',' => Lexeme::Comma,
        '}' => Lexeme::Close,
        _ => Lexeme::Literal(c),
    }
}

/// The place after the bracket that begins at `place`, or `place` if none does.
fn bracket_end(text: &[char], place: usize) -> usize {
    if text[place] != '[' {
        return place;
    }
    let content = match text.get(place + 1) {
        Some('!') => place + 2,
        _ => place + 1,
    };
    match close_from(text, content + 1) {
        Some(close) => close + 1,
        None => place,
    }
}
