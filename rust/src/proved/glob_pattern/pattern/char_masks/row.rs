//! Made by `bin/rust_crate` from `crates/glob_pattern/src/pattern/char_masks/row.rt`, where its contracts are: sha256 4e2909c7637d3e24.
//!
//! A row of masks: for each class of characters, which of 63 neighbouring tokens take them.

use crate::proved::glob_pattern::matcher::{with_bit, WORD};
use crate::proved::glob_pattern::pattern::classes::{are_letters, Classes};
use crate::proved::glob_pattern::token::bracket::{Bracket, Entry};
use crate::proved::glob_pattern::token::Token;

/// The class of a `/` that the separator rule excludes from wildcards.
pub const SEPARATOR: usize = 0;

/// The class of a `.` that the dot rule excludes from wildcards.
pub const DOT: usize = 1;

/// Some kinds of tokens, among 63 neighbouring ones.
#[derive(Clone, Copy)]
struct Kinds {
    /// Tokens that take all characters except those they list: wildcards and `[!..]`.
    others: u64,
    /// Brackets.
    brackets: u64,
    /// Recursive wildcards.
    recursive: u64,
}

impl Kinds {
    /// No tokens.
    const NONE: Kinds = Kinds { others: 0, brackets: 0, recursive: 0 };
}

/// Turns two rows of zeros into the case-sensitive and the case-insensitive row of the tokens from `start` on.
pub fn fill(plain: &mut [u64], folded: &mut [u64], classes: Classes<'_>, tokens: &[Token<Bracket>], start: usize) {
    let mut kinds = Kinds::NONE;
    for n in start..tokens.len().min(start.saturating_add(WORD)) {
        kinds = list_token(plain, folded, classes, kinds, n - start, &tokens[n]);
    }
    finish(plain, classes, kinds);
    finish(folded, classes, kinds);
}

/// Turns the masks of tokens that list a character into those of tokens that take it.
#[inline(always)]
fn finish(row: &mut [u64], classes: Classes<'_>, kinds: Kinds) {
    let separator = (row[classes.class('/')] & !kinds.brackets) | kinds.recursive;
    let dot = row[classes.class('.')] & !kinds.brackets;
    invert(row, kinds.others);
    row[SEPARATOR] = separator;
    row[DOT] = dot;
}

/// Inverts these bits in all masks.
fn invert(row: &mut [u64], bits: u64) {
    for mask in row.iter_mut() {
        *mask ^= bits;
    }
}

/// Lists a token: sets its bit in the masks of the characters that it lists, and in the masks of its kinds. Returns the
/// kinds.
#[inline(always)]
fn list_token(
    plain: &mut [u64],
    folded: &mut [u64],
    classes: Classes<'_>,
    kinds: Kinds,
    bit: usize,
    token: &Token<Bracket>,
) -> Kinds {
    match token {
        Token::Literal(c) => {
            list_cases(plain, folded, classes, bit, *c, *c);
            kinds
        }
        Token::AnyChar | Token::AnySequence => Kinds { others: with_bit(kinds.others, bit), ..kinds },
        Token::Recursive => {
            Kinds { others: with_bit(kinds.others, bit), recursive: with_bit(kinds.recursive, bit), ..kinds }
        }
        Token::OneOf(bracket) => {
            list_all(plain, folded, classes, bit, bracket.entries());
            Kinds { brackets: with_bit(kinds.brackets, bit), ..kinds }
        }
        Token::NoneOf(bracket) => {
            list_all(plain, folded, classes, bit, bracket.entries());
            Kinds { others: with_bit(kinds.others, bit), brackets: with_bit(kinds.brackets, bit), ..kinds }
        }
    }
}

/// Sets the bit in the masks of the characters that an entry holds.
fn list_all(plain: &mut [u64], folded: &mut [u64], classes: Classes<'_>, bit: usize, entries: &[Entry]) {
    for entry in entries {
        let (first, last) = entry.ends();
        list_cases(plain, folded, classes, bit, first, last);
    }
}

/// Sets the bit in the masks of the characters from `first` to `last`. If both are letters, also sets it in the
/// case-insensitive masks of the same letters in the other case.
#[inline(always)]
fn list_cases(plain: &mut [u64], folded: &mut [u64], classes: Classes<'_>, bit: usize, first: char, last: char) {
    list_both(plain, folded, classes, bit, first, last);
    if !are_letters(first, last) {
        return;
    }
    let (lower, last_lower) = (first.to_ascii_lowercase(), last.to_ascii_lowercase());
    list_interval(folded, classes, bit, lower, last_lower);
    let (upper, last_upper) = (first.to_ascii_uppercase(), last.to_ascii_uppercase());
    list_interval(folded, classes, bit, upper, last_upper);
}

/// Sets the bit in the masks of the characters from `first` to `last`, in both rows.
#[inline(always)]
fn list_both(plain: &mut [u64], folded: &mut [u64], classes: Classes<'_>, bit: usize, first: char, last: char) {
    if first <= last {
        let (from, to) = classes_of(classes, first, last);
        paint(plain, bit, from, to);
        paint(folded, bit, from, to);
    }
}

/// The classes of both characters. If they are equal, it is looked up once.
#[inline(always)]
fn classes_of(classes: Classes<'_>, first: char, last: char) -> (usize, usize) {
    let from = classes.class(first);
    if first == last {
        return (from, from);
    }
    (from, classes.class(last))
}

/// Sets the bit in the masks of the characters from `first` to `last`.
#[inline(always)]
fn list_interval(row: &mut [u64], classes: Classes<'_>, bit: usize, first: char, last: char) {
    if first <= last {
        paint(row, bit, classes.class(first), classes.class(last));
    }
}

/// Sets the bit in the masks from `first` to `last`.
#[inline(always)]
fn paint(row: &mut [u64], bit: usize, first: usize, last: usize) {
    for class in first..last + 1 {
        list_class(row, bit, class);
    }
}

/// Sets the bit in the mask of the class.
#[inline(always)]
fn list_class(row: &mut [u64], bit: usize, class: usize) {
    row[class] = with_bit(row[class], bit);
}
