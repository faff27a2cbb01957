//! Made by `bin/rust_crate` from `crates/glob_pattern/src/pattern/ends.rt`, where its contracts are: sha256 b2439c0b97f2c688.
//!
//! What a text needs at its ends: the literals with which a pattern begins and ends, compared as bytes, and the
//! characters that other one-character tokens take there.

use crate::proved::glob_pattern::matcher::{Shape, Shaped};
use crate::proved::glob_pattern::options::MatchOptions;
use crate::proved::glob_pattern::token::bracket::Bracket;
use crate::proved::glob_pattern::token::taking::{takes, takes_any};
use crate::proved::glob_pattern::token::Token;

/// The one-character tokens at both ends, and the literals among them.
#[derive(Clone, Copy)]
pub struct Ends {
    /// The number of one-character tokens at the start.
    pub lead: usize,
    /// The number of one-character tokens at the end, without those at the start.
    pub trail: usize,
    /// The literals with which the leading tokens begin.
    pub prefix: Literals,
    /// The literals with which the trailing tokens end.
    pub suffix: Literals,
}

/// Neighbouring literals.
#[derive(Clone, Copy)]
pub struct Literals {
    /// Their number.
    pub count: usize,
    /// Their length in UTF-8, in bytes.
    pub bytes: usize,
}

/// What the ends leave of a text.
#[derive(Clone, Copy)]
pub struct Part<'a> {
    /// The characters that are left.
    pub text: &'a str,
    /// Whether a component starts at its first character.
    pub opening: bool,
}

impl Literals {
    /// No literals.
    const NONE: Literals = Literals { count: 0, bytes: 0 };

    /// One literal more. `None`: there are more bytes than a `usize` can count.
    fn with(self, c: char) -> Option<Literals> {
        Some(Literals { count: self.count.checked_add(1)?, bytes: self.bytes.checked_add(c.len_utf8())? })
    }
}

impl Ends {
    /// The ends of no tokens.
    pub const NONE: Ends = Ends { lead: 0, trail: 0, prefix: Literals::NONE, suffix: Literals::NONE };

    /// The ends of the tokens: for `src/*.rs`, four literals at the start and three at the end.
    pub fn of(tokens: &[Token<Bracket>]) -> Self {
        let lead = leading_ones(tokens);
        let trail = trailing_ones(tokens, lead);
        Ends {
            lead,
            trail,
            prefix: leading_literals(&tokens[..lead]),
            suffix: trailing_literals(&tokens[tokens.len() - trail..]),
        }
    }

    /// Whether the bytes begin and end with the pattern's literals. They need not be UTF-8.
    #[inline(always)]
    pub fn have_literals(&self, pattern: &str, bytes: &[u8], options: MatchOptions) -> bool {
        let literals = pattern.as_bytes();
        let prefix = &literals[..self.prefix.bytes];
        let suffix = &literals[literals.len() - self.suffix.bytes..];
        has_ends(bytes, prefix, suffix, options)
    }

    /// Whether the length, the first byte or the last byte of the text rejects it. This is cheap enough to inline into
    /// callers.
    #[inline(always)]
    pub fn reject(&self, tokens: &[Token<Bracket>], pattern: &str, text: &str, options: MatchOptions) -> bool {
        let (bytes, literals) = (text.as_bytes(), pattern.as_bytes());
        if bytes.len() < self.prefix.bytes + self.suffix.bytes {
            return true;
        }
        if self.prefix.bytes > 0 {
            if !are_same(&bytes[..1], &literals[..1], options) {
                return true;
            }
            // Literals alone match only texts of their length.
            if self.prefix.count == tokens.len() && bytes.len() != self.prefix.bytes {
                return true;
            }
        }
        self.suffix.bytes > 0 && !are_same(&bytes[bytes.len() - 1..], &literals[literals.len() - 1..], options)
    }

    /// Strips the ends off a text: for `src/*.rs`, what is left of `src/main.rs` is `main`. `None`: the text does not
    /// match.
    #[inline(always)]
    pub fn strip<'a>(
        &self,
        tokens: &[Token<Bracket>],
        pattern: &str,
        text: &'a str,
        options: MatchOptions,
    ) -> Option<Part<'a>> {
        let part = self.strip_literals(pattern, text, options)?;
        if self.prefix.count == self.lead && self.suffix.count == self.trail {
            return Some(part);
        }
        let left = self.take_first(tokens, part, options)?;
        self.take_last(tokens, left, options)
    }

    /// Strips the literals off the ends of a text. `None`: the text does not match.
    #[inline(always)]
    fn strip_literals<'a>(&self, pattern: &str, text: &'a str, options: MatchOptions) -> Option<Part<'a>> {
        if self.prefix.count == 0 && self.suffix.count == 0 {
            return Some(Part { text, opening: true });
        }
        if !self.have_literals(pattern, text.as_bytes(), options) {
            return None;
        }
        let (start, end) = (self.prefix.bytes, text.len() - self.suffix.bytes);
        let before = &text[..start];
        let left = &text[start..end];
        Some(Part { text: left, opening: opens_after(before, true) })
    }

    /// Strips off the characters that the leading tokens after the literals take, one each. `None`: the text does not
    /// match.
    #[inline(always)]
    fn take_first<'a>(&self, tokens: &[Token<Bracket>], part: Part<'a>, options: MatchOptions) -> Option<Part<'a>> {
        let mut rest = part.text.chars();
        let mut opening = part.opening;
        let mut count = self.prefix.count;
        let ones = &tokens[..self.lead];
        // Tokens that take any character only need to be counted.
        while count < ones.len() && takes_any(&ones[count], options) {
            opening = rest.next()? == '/';
            count += 1;
        }
        while count < ones.len() {
            let c = rest.next()?;
            if !takes(&ones[count], options, opening, c) {
                return None;
            }
            opening = c == '/';
            count += 1;
        }
        Some(Part { text: rest.as_str(), opening })
    }

    /// Strips off the characters that the trailing tokens before the literals take, one each. `None`: the text does not
    /// match.
    #[inline(always)]
    fn take_last<'a>(&self, tokens: &[Token<Bracket>], part: Part<'a>, options: MatchOptions) -> Option<Part<'a>> {
        let mut rest = part.text.chars();
        let mut text = part.text;
        let start = tokens.len() - self.trail;
        let mut end = tokens.len() - self.suffix.count;
        while start < end && takes_any(&tokens[end - 1], options) {
            rest.next_back()?;
            text = rest.as_str();
            end -= 1;
        }
        while start < end {
            let c = rest.next_back()?;
            text = rest.as_str();
            end -= 1;
            let opening = opens_after(text, part.opening);
            if !takes(&tokens[end], options, opening, c) {
                return None;
            }
        }
        Some(Part { text, opening: part.opening })
    }
}

/// Whether the bytes begin with the prefix and end with the suffix, which must not overlap. The options say whether
/// ASCII case counts.
#[inline(always)]
fn has_ends(bytes: &[u8], prefix: &[u8], suffix: &[u8], options: MatchOptions) -> bool {
    bytes.len() >= prefix.len()
        && bytes.len() - prefix.len() >= suffix.len()
        && are_same(&bytes[bytes.len() - suffix.len()..], suffix, options)
        && are_same(&bytes[..prefix.len()], prefix, options)
}

/// Whether two texts of the same length are equal. The options say whether ASCII case counts.
#[inline(always)]
fn are_same(bytes: &[u8], other: &[u8], options: MatchOptions) -> bool {
    // Saves a call that would compare no bytes.
    if other.is_empty() {
        return true;
    }
    if options.case_sensitive {
        bytes == other
    } else {
        bytes.eq_ignore_ascii_case(other)
    }
}

/// Whether a component starts after the text: after a `/`, or after no characters if one starts before them.
#[inline(always)]
fn opens_after(text: &str, opening: bool) -> bool {
    match text.as_bytes() {
        [] => opening,
        [.., last] => *last == b'/',
    }
}

/// The number of one-character tokens before the first other token: four for `src/*.rs`.
fn leading_ones(tokens: &[Token<Bracket>]) -> usize {
    let mut lead = 0;
    while lead < tokens.len() && tokens[lead].shape() == Shape::One {
        lead += 1;
    }
    lead
}

/// The number of one-character tokens at the end, without the first `lead` tokens: three for `src/*.rs`, none for
/// `main.rs`.
fn trailing_ones(tokens: &[Token<Bracket>], lead: usize) -> usize {
    let mut trail = 0;
    while lead + trail < tokens.len() && tokens[tokens.len() - 1 - trail].shape() == Shape::One {
        trail += 1;
    }
    trail
}

/// The literals at the start of the tokens.
fn leading_literals(tokens: &[Token<Bracket>]) -> Literals {
    let mut literals = Literals::NONE;
    while let Some(Token::Literal(c)) = tokens.get(literals.count) {
        let Some(more) = literals.with(*c) else {
            break;
        };
        literals = more;
    }
    literals
}

/// The literals at the end of the tokens.
fn trailing_literals(tokens: &[Token<Bracket>]) -> Literals {
    let mut literals = Literals::NONE;
    while literals.count < tokens.len() {
        let Token::Literal(c) = &tokens[tokens.len() - 1 - literals.count] else {
            break;
        };
        let Some(more) = literals.with(*c) else {
            break;
        };
        literals = more;
    }
    literals
}
