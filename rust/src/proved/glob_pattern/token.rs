//! Made by `bin/rust_crate` from `crates/glob_pattern/src/token.rt`, where its contracts are: sha256 fd8023933bbbcd65.
//!
//! The tokens of a pattern.

pub mod bracket;
pub mod taking;

use crate::proved::glob_pattern::matcher::{Shape, Shaped};
use bracket::Bracket;

/// A token: what a unit of a pattern means. `C` is the content of a bracket. `AnySequence` has the shape `Run`,
/// `Recursive` has `Deep`, and every other token has `One`.
#[derive(Clone)]
pub enum Token<C> {
    /// A character.
    Literal(char),
    /// `?`, any one character.
    AnyChar,
    /// `*`, any number of characters.
    AnySequence,
    /// `**`, the recursive wildcard: any number of whole path components.
    Recursive,
    /// `[..]`, a character in the bracket.
    OneOf(C),
    /// `[!..]`, a character that is not in the bracket.
    NoneOf(C),
}

impl Token<Bracket> {
    /// Whether it is `**`.
    pub fn is_recursive(&self) -> bool {
        matches!(self, Token::Recursive)
    }
}

impl Shaped for Token<Bracket> {
    fn shape(&self) -> Shape {
        match self {
            Token::Literal(_) | Token::AnyChar | Token::OneOf(_) | Token::NoneOf(_) => Shape::One,
            Token::AnySequence => Shape::Run,
            Token::Recursive => Shape::Deep,
        }
    }
}
