//! Made by `bin/rust_crate` from `crates/glob_set/src/braces/expanding.rt`, where its contracts are: sha256 0f089fe3645677bb.
//!
//! The alternatives of lexemes.

use crate::proved::glob_set::braces::lexemes::Lexeme;
use std::mem;

/// A `{` that is still open.
pub struct Group {
    /// The alternatives of the text before it.
    pub before: Vec<String>,
    /// The alternatives between it and its last comma.
    pub found: Vec<String>,
}

/// The alternatives of balanced lexemes.
pub fn expand_all(lexemes: &[Lexeme]) -> Vec<String> {
    let mut texts = empty_text();
    let mut groups = Vec::new();
    for lexeme in lexemes {
        step(&mut texts, &mut groups, *lexeme);
    }
    texts
}

/// The alternatives of no lexemes: an empty text.
fn empty_text() -> Vec<String> {
    let mut texts = Vec::new();
    texts.push(String::new());
    texts
}

/// Reads a lexeme. `texts` are the alternatives since the last open `{` or its last comma.
fn step(texts: &mut Vec<String>, groups: &mut Vec<Group>, lexeme: Lexeme) {
    match lexeme {
        Lexeme::Literal(c) => push_to_each(texts, c),
        Lexeme::Open => {
            let before = mem::replace(texts, empty_text());
            groups.push(Group { before, found: Vec::new() });
        }
        Lexeme::Comma => match groups.pop() {
            Some(mut group) => {
                group.found.append(texts);
                texts.push(String::new());
                groups.push(group);
            }
            None => push_to_each(texts, ','),
        },
        Lexeme::Close => match groups.pop() {
            Some(mut group) => {
                group.found.append(texts);
                *texts = joined(group.before.as_slice(), group.found.as_slice());
            }
            None => {}
        },
    }
}

/// Appends a character to each text.
fn push_to_each(texts: &mut Vec<String>, c: char) {
    for text in texts.iter_mut() {
        text.push(c);
    }
}

/// Each of the first texts followed by each of the second ones, in the order of the first.
fn joined(firsts: &[String], seconds: &[String]) -> Vec<String> {
    let mut texts = Vec::new();
    for first in firsts {
        push_joined(first.as_str(), seconds, &mut texts);
    }
    texts
}

/// Appends to `texts` the first text followed by each of the second ones.
fn push_joined(first: &str, seconds: &[String], texts: &mut Vec<String>) {
    for second in seconds {
        let mut text = String::from(first);
        text.push_str(second.as_str());
        texts.push(text);
    }
}
