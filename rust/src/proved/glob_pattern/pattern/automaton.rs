//! Made by `bin/rust_crate` from `crates/glob_pattern/src/pattern/automaton.rt`, where its contracts are: sha256 0f467fbc4a6405ef.
//!
//! The automaton of the tokens between a pattern's ends: their shapes as words of bits, and the characters they take.

use crate::proved::glob_pattern::matcher::{decide, shape_words, Judge, Shape, ShapeWord, Shaped, Span, WORD};
use crate::proved::glob_pattern::options::MatchOptions;
use crate::proved::glob_pattern::pattern::char_masks::CharMasks;
use crate::proved::glob_pattern::pattern::judge::{MaskJudge, TextJudge};
use crate::proved::glob_pattern::token::bracket::Bracket;
use crate::proved::glob_pattern::token::taking::has_rules;
use crate::proved::glob_pattern::token::Token;
use std::slice;

/// What a run over tokens needs beside the tokens.
pub struct Automaton {
    // the shapes as bits: of the first 63 tokens, and of all tokens if there are more
    first: ShapeWord,
    words: Vec<ShapeWord>,
    // the bit of the last token in its word, if it is a wildcard whose pieces may end anywhere
    accepting: u64,
    masks: CharMasks,
}

impl Automaton {
    /// The automaton of the tokens before `end`. Later tokens matter only to a last `**`: if there are none, it may end
    /// anywhere.
    pub fn new(tokens: &[Token<Bracket>], end: usize) -> Self {
        let words = if end <= WORD { Vec::new() } else { shape_words(tokens, end) };
        let masks = CharMasks::new(&tokens[..end], end.div_ceil(WORD));
        Automaton { first: ShapeWord::new(tokens, end, 0), words, accepting: free_end(tokens, end), masks }
    }

    /// The automaton of no tokens.
    pub fn empty() -> Self {
        Automaton { first: ShapeWord::NONE, words: Vec::new(), accepting: 0, masks: CharMasks::Plain([0; 3]) }
    }

    /// Whether the tokens before `end` split the text, and how many questions that took. `opening`: a component starts
    /// at the start of the text.
    #[inline(always)]
    pub fn matches(
        &self,
        tokens: &[Token<Bracket>],
        end: usize,
        text: &str,
        opening: bool,
        options: MatchOptions,
    ) -> (bool, u128) {
        if has_rules(options) {
            return self.run(tokens, end, text, opening, options);
        }
        // The same options, written so that the compiler sees that no rule is set and leaves the tests for rules out of
        // this loop.
        let free = MatchOptions { require_literal_separator: false, require_literal_leading_dot: false, ..options };
        self.run(tokens, end, text, opening, free)
    }

    /// [`matches`](Self::matches), inlined once for options with a rule and once for those without.
    #[inline(always)]
    fn run(
        &self,
        tokens: &[Token<Bracket>],
        end: usize,
        text: &str,
        opening: bool,
        options: MatchOptions,
    ) -> (bool, u128) {
        let accepting = self.accepting(options);
        // The only token takes everything.
        if end == 1 && accepting != 0 {
            return (true, 0);
        }
        let span = Span { end, accepting };
        let one_by_one = TextJudge::new(&tokens[..end], text, opening, options);
        let mut judge = MaskJudge::new(one_by_one, &self.masks);
        let answer = decide(self.words(end), span, &mut judge);
        (answer, judge.asked())
    }

    /// The shapes as bits.
    #[inline(always)]
    fn words(&self, end: usize) -> &[ShapeWord] {
        if end <= WORD {
            slice::from_ref(&self.first)
        } else {
            self.words.as_slice()
        }
    }

    /// The bit of the last token in its word, if it takes all that is left of any text: once it is alive, the tokens
    /// match.
    #[inline(always)]
    fn accepting(&self, options: MatchOptions) -> u64 {
        if has_rules(options) {
            0
        } else {
            self.accepting
        }
    }
}

/// The bit of the last token before `end` in its word, if it is a wildcard whose pieces may end anywhere, or else 0.
fn free_end(tokens: &[Token<Bracket>], end: usize) -> u64 {
    if end == 0 {
        return 0;
    }
    let last = 1 << ((end - 1) % WORD);
    match tokens[end - 1].shape() {
        Shape::Run => last,
        Shape::Deep if end == tokens.len() => last,
        Shape::One | Shape::Deep => 0,
    }
}

impl Clone for Automaton {
    fn clone(&self) -> Self {
        Automaton { first: self.first, words: self.words.clone(), accepting: self.accepting, masks: self.masks.clone() }
    }
}
