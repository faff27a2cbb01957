//! Made by `bin/rust_crate` from `crates/glob_pattern/src/pattern/tokens.rt`, where its contracts are: sha256 42afb1b4274e7c11.
//!
//! The tokens of a pattern one by one: their number, their kinds, and what each takes.

use crate::proved::glob_pattern::options::MatchOptions;
use crate::proved::glob_pattern::pattern::Pattern;
use crate::proved::glob_pattern::token::bracket::Bracket;
use crate::proved::glob_pattern::token::taking::takes;
use crate::proved::glob_pattern::token::Token;

/// The kind of a token: the pattern `?` has one token, of the kind `AnyChar`.
///
/// ```
/// use cadmiumdove::captures::{tokens, TokenKind};
/// use cadmiumdove::Pattern;
///
/// let kinds: Vec<_> = tokens(&Pattern::new("**/[!.]?*")?).into_iter().map(|token| token.kind).collect();
/// assert_eq!(kinds, [TokenKind::Recursive, TokenKind::NoneOf, TokenKind::AnyChar, TokenKind::AnySequence]);
/// # Ok::<(), cadmiumdove::PatternError>(())
/// ```
#[derive(Clone, Copy, Debug, PartialEq, Eq)]
pub enum TokenKind {
    /// A character.
    Literal,
    /// `?`, any one character.
    AnyChar,
    /// `*`, any number of characters.
    AnySequence,
    /// `**`, any number of whole components. Neighbouring ones are one token.
    Recursive,
    /// `[..]`, a character in the bracket.
    OneOf,
    /// `[!..]`, a character that is not in the bracket.
    NoneOf,
}

/// The number of tokens of a pattern, at most one per character: two for `[a-z]*`.
#[inline(always)]
pub fn tokens_len(pattern: &Pattern) -> usize {
    tokens_in(pattern).len()
}

/// The tokens of a pattern.
#[inline(always)]
fn tokens_in(pattern: &Pattern) -> &[Token<Bracket>] {
    pattern.compiled.tokens()
}

/// The kind of a token, counted from 0: token 1 of `a*` is an `AnySequence`. There must be such a token.
#[inline(always)]
pub fn token_kind(pattern: &Pattern, token: usize) -> TokenKind {
    match &tokens_in(pattern)[token] {
        Token::Literal(_) => TokenKind::Literal,
        Token::AnyChar => TokenKind::AnyChar,
        Token::AnySequence => TokenKind::AnySequence,
        Token::Recursive => TokenKind::Recursive,
        Token::OneOf(_) => TokenKind::OneOf,
        Token::NoneOf(_) => TokenKind::NoneOf,
    }
}

/// Whether a token, counted from 0, takes the character. There must be such a token. `opening`: a component starts at
/// the character's place. With no rule set, token 1 of `a*` takes any character.
#[inline(always)]
pub fn token_takes(pattern: &Pattern, token: usize, options: MatchOptions, opening: bool, c: char) -> bool {
    takes(&tokens_in(pattern)[token], options, opening, c)
}
