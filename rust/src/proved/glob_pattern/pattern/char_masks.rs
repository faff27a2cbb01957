//! Made by `bin/rust_crate` from `crates/glob_pattern/src/pattern/char_masks.rt`, where its contracts are: sha256 0fde3d82a406d039.
//! `Vec::with_capacity` and `resize` are there `vec![x; n]`: memory that is asked for as zeros is never what was freed
//! last, and costs more.
//!
//! Masks: for each class of characters, which of 63 neighbouring tokens take them.

mod row;

use crate::proved::glob_pattern::matcher::WORD;
use crate::proved::glob_pattern::options::MatchOptions;
use crate::proved::glob_pattern::pattern::classes::{counts_of, Boundaries, Classes, ASCII};
use crate::proved::glob_pattern::token::bracket::Bracket;
use crate::proved::glob_pattern::token::taking::{has_rules, is_excluded_dot, is_excluded_separator};
use crate::proved::glob_pattern::token::Token;
use row::{fill, DOT, SEPARATOR};

/// For each class of characters, which tokens take them.
pub enum CharMasks {
    /// At most 63 tokens that list no character: a mask for each of the two rules, and one for all other characters.
    Plain([u64; 3]),
    /// More tokens that list no character: two rows of three such masks for each word.
    PlainWords(Vec<u64>),
    /// Tokens some of which list characters.
    Listed(Box<Listed>),
}

/// The masks of tokens, some of which list characters.
pub struct Listed {
    /// The class of each ASCII character.
    ascii: [u8; ASCII],
    /// Where the classes beyond ASCII begin, and for some characters how many have begun.
    beyond: Vec<u32>,
    begun: Vec<u8>,
    /// Two rows for each word of tokens, case-sensitive and case-insensitive, with a mask for each class.
    masks: Vec<u64>,
}

/// The masks of case-sensitive or of case-insensitive matching.
#[derive(Clone, Copy)]
pub struct Rows<'a> {
    classes: Classes<'a>,
    /// The masks, from the first row for this case-sensitivity on. Every second row is for it.
    masks: &'a [u64],
    /// The number of masks in a row.
    columns: usize,
}

impl CharMasks {
    /// The masks of the tokens, in `words` words. The last word may have no token.
    pub fn new(tokens: &[Token<Bracket>], words: usize) -> Self {
        if !are_plain(tokens) {
            let listed = Listed::new(tokens, words);
            return CharMasks::Listed(Box::new(listed));
        }
        if words > 1 {
            let masks = rows_of(tokens, words, Classes::NONE);
            return CharMasks::PlainWords(masks);
        }
        let (mut masks, mut folded) = ([0; 3], [0; 3]);
        fill(&mut masks, &mut folded, Classes::NONE, tokens, 0);
        CharMasks::Plain(masks)
    }
}

impl Clone for CharMasks {
    fn clone(&self) -> Self {
        match self {
            CharMasks::Plain(masks) => CharMasks::Plain(*masks),
            CharMasks::PlainWords(masks) => CharMasks::PlainWords(masks.clone()),
            CharMasks::Listed(listed) => {
                let copy = listed.as_ref().clone();
                CharMasks::Listed(Box::new(copy))
            }
        }
    }
}

impl CharMasks {
    /// The masks of case-sensitive or of case-insensitive matching.
    #[inline(always)]
    pub fn rows(&self, case_sensitive: bool) -> Rows<'_> {
        match self {
            CharMasks::Plain(masks) => Rows { classes: Classes::NONE, masks, columns: 3 },
            CharMasks::PlainWords(masks) => Rows::of(Classes::NONE, masks.as_slice(), case_sensitive),
            CharMasks::Listed(listed) => {
                let classes =
                    Classes { ascii: &listed.ascii, beyond: listed.beyond.as_slice(), begun: listed.begun.as_slice() };
                Rows::of(classes, listed.masks.as_slice(), case_sensitive)
            }
        }
    }
}

impl Listed {
    /// The masks of the tokens, in `words` words.
    fn new(tokens: &[Token<Bracket>], words: usize) -> Self {
        let boundaries = Boundaries::of(tokens);
        let ascii = boundaries.ascii_classes();
        let begun = counts_of(boundaries.beyond.as_slice());
        let classes = Classes { ascii: &ascii, beyond: boundaries.beyond.as_slice(), begun: begun.as_slice() };
        let masks = rows_of(tokens, words, classes);
        Listed { ascii, beyond: boundaries.beyond, begun, masks }
    }
}

impl Clone for Listed {
    fn clone(&self) -> Self {
        Listed { ascii: self.ascii, beyond: self.beyond.clone(), begun: self.begun.clone(), masks: self.masks.clone() }
    }
}

impl<'a> Rows<'a> {
    /// Picks the case-sensitive or the case-insensitive masks.
    #[inline(always)]
    fn of(classes: Classes<'a>, masks: &'a [u64], case_sensitive: bool) -> Self {
        let columns = classes.count();
        let start = if case_sensitive { 0 } else { columns };
        Rows { classes, masks: &masks[start.min(masks.len())..], columns }
    }
}

impl Rows<'_> {
    /// The word's tokens that take the characters of the class.
    #[inline(always)]
    pub fn taking(self, word: usize, class: usize) -> u64 {
        self.masks[2 * word * self.columns + class]
    }

    /// The class of a character under the options. `opening`: a component starts at its place.
    #[inline(always)]
    pub fn class_of(self, options: MatchOptions, opening: bool, c: char) -> usize {
        // Rules exclude no other characters.
        if has_rules(options) && (c == '.' || c == '/') {
            if is_excluded_separator(options, c) {
                return SEPARATOR;
            }
            if is_excluded_dot(options, opening, c) {
                return DOT;
            }
        }
        self.classes.class(c)
    }
}

/// The rows of masks of `words` words of tokens.
fn rows_of(tokens: &[Token<Bracket>], words: usize, classes: Classes<'_>) -> Vec<u64> {
    let rows = 2 * words;
    let mut masks = Vec::with_capacity(rows.saturating_mul(classes.count()));
    masks.resize(rows.saturating_mul(classes.count()), 0);
    fill_rows(masks.as_mut_slice(), classes, tokens, words);
    masks
}

/// Turns zeros into two rows of masks for each word.
fn fill_rows(masks: &mut [u64], classes: Classes<'_>, tokens: &[Token<Bracket>], words: usize) {
    let columns = classes.count();
    for word in 0..words {
        let long = 2 * columns;
        let at = word * long;
        let rows = &mut masks[at..at + long];
        fill_word(rows, classes, tokens, WORD * word);
    }
}

/// Turns two rows of zeros into those of the word of tokens from `start` on.
fn fill_word(rows: &mut [u64], classes: Classes<'_>, tokens: &[Token<Bracket>], start: usize) {
    let (plain, folded) = rows.split_at_mut(classes.count());
    fill(plain, folded, classes, tokens, start);
}

/// Whether no token lists a character.
fn are_plain(tokens: &[Token<Bracket>]) -> bool {
    tokens.iter().all(is_plain)
}

/// Whether the token lists no character: it is a wildcard.
fn is_plain(token: &Token<Bracket>) -> bool {
    matches!(token, Token::AnyChar | Token::AnySequence | Token::Recursive)
}
