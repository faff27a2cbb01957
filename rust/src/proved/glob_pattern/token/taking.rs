//! Made by `bin/rust_crate` from `crates/glob_pattern/src/token/taking.rt`, where its contracts are: sha256 5de340984db807fc.
//!
//! Which characters a token takes under the options.

use crate::proved::glob_pattern::options::MatchOptions;
use crate::proved::glob_pattern::token::bracket::{self, Bracket};
use crate::proved::glob_pattern::token::Token;

/// Whether the token takes the character. `opening`: a component starts at its place.
#[inline(always)]
pub fn takes(token: &Token<Bracket>, options: MatchOptions, opening: bool, c: char) -> bool {
    match token {
        Token::Literal(x) => bracket::is_same(options.case_sensitive, c, *x),
        Token::AnyChar => is_free(options, opening, c),
        _ => {
            // The call needs the options in memory. Copying them only on this path keeps the caller's in registers.
            let copy = MatchOptions { ..options };
            takes_other(token, copy, opening, c)
        }
    }
}

/// Whether the token is a `?` and no rule is set, so that it takes any character.
#[inline(always)]
pub fn takes_any(token: &Token<Bracket>, options: MatchOptions) -> bool {
    !has_rules(options) && matches!(token, Token::AnyChar)
}

/// [`takes`] out of line, for tokens other than literals and `?`.
#[inline(never)]
fn takes_other(token: &Token<Bracket>, options: MatchOptions, opening: bool, c: char) -> bool {
    match token {
        Token::Literal(x) => bracket::is_same(options.case_sensitive, c, *x),
        Token::AnyChar | Token::AnySequence => is_free(options, opening, c),
        Token::Recursive => !is_excluded_dot(options, opening, c),
        Token::OneOf(bracket) => is_free(options, opening, c) && bracket.holds(c, options.case_sensitive),
        Token::NoneOf(bracket) => is_free(options, opening, c) && !bracket.holds(c, options.case_sensitive),
    }
}

/// Whether no rule excludes the character from wildcards.
#[inline(always)]
fn is_free(options: MatchOptions, opening: bool, c: char) -> bool {
    !is_excluded_separator(options, c) && !is_excluded_dot(options, opening, c)
}

/// Whether the separator rule excludes the character from wildcards: the rule is set, and the character is a `/`.
#[inline(always)]
pub fn is_excluded_separator(options: MatchOptions, c: char) -> bool {
    c == '/' && options.require_literal_separator
}

/// Whether the dot rule excludes the character from wildcards: the rule is set, and the character is a `.` at a
/// component start.
#[inline(always)]
pub fn is_excluded_dot(options: MatchOptions, opening: bool, c: char) -> bool {
    c == '.' && opening && options.require_literal_leading_dot
}

/// Whether `**` may take the name of a component: any name, except under the dot rule one with a leading dot, as
/// `.git`.
pub fn is_open(options: MatchOptions, name: &str) -> bool {
    match name.as_bytes() {
        [] => true,
        [first, ..] => !is_excluded_dot(options, true, *first as char),
    }
}

/// Whether a rule is set, which may exclude characters from wildcards.
#[inline(always)]
pub fn has_rules(options: MatchOptions) -> bool {
    // One test per character, where `||` would be two branches.
    options.require_literal_separator | options.require_literal_leading_dot
}
