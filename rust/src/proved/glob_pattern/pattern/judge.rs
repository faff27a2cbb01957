//! Made by `bin/rust_crate` from `crates/glob_pattern/src/pattern/judge.rt`, where its contracts are: sha256 f844c8a1e60f5095.
//!
//! The judge of a text's characters and a pattern's tokens.

mod mask_judge;

use crate::proved::glob_pattern::matcher::Judge;
use crate::proved::glob_pattern::options::MatchOptions;
use crate::proved::glob_pattern::token::bracket::Bracket;
use crate::proved::glob_pattern::token::taking::takes;
use crate::proved::glob_pattern::token::Token;
pub use mask_judge::MaskJudge;
use std::str::Chars;

/// A judge of a text's characters and a pattern's tokens. It asks the tokens one by one.
pub struct TextJudge<'a> {
    tokens: &'a [Token<Bracket>],
    options: MatchOptions,
    rest: Chars<'a>,
    // the last character stepped over and the one before it; if a component starts at the start of the text, the text
    // counts as preceded by `/`
    current: char,
    before: char,
    count: u128,
}

impl<'a> TextJudge<'a> {
    /// A judge at the start of a text, with no questions asked. `opening`: a component starts there, as at the start of
    /// a whole text, or of `b/c` in `a/b/c`.
    #[inline(always)]
    pub fn new(tokens: &'a [Token<Bracket>], text: &'a str, opening: bool, options: MatchOptions) -> Self {
        TextJudge {
            tokens,
            options,
            rest: text.chars(),
            current: if opening { '/' } else { '\0' },
            before: '/',
            count: 0,
        }
    }

    /// Steps over the next character. Returns whether there was one.
    #[inline(always)]
    fn advance(&mut self) -> bool {
        // Named for the proof: the rest is UTF-8.
        let Some(c) = self.rest.next() else {
            return false;
        };
        self.before = self.current;
        self.current = c;
        true
    }

    /// Whether the token takes the last character stepped over.
    #[inline(always)]
    fn is_taken(&self, token: usize) -> bool {
        takes(&self.tokens[token], self.options, self.before == '/', self.current)
    }
}

impl Judge for TextJudge<'_> {
    #[inline(always)]
    fn step(&mut self) -> bool {
        self.advance()
    }

    #[inline(always)]
    fn opens(&self) -> bool {
        self.current == '/'
    }

    #[inline(always)]
    fn takes(&mut self, token: usize) -> bool {
        self.count += 1;
        self.is_taken(token)
    }

    #[inline(always)]
    fn asked(&self) -> u128 {
        self.count
    }
}
