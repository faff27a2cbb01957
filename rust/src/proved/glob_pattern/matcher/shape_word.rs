//! Made by `bin/rust_crate` from `crates/glob_pattern/src/matcher/shape_word.rt`, where its contracts are: sha256 9355d7a4b45a8ac1.
//!
//! Shapes of neighbouring tokens as bits, and a step of a position set over them.

use super::{Shape, Shaped, WORD};

/// The shapes of up to 63 neighbouring tokens: bit n is of the nth.
#[derive(Clone, Copy)]
pub struct ShapeWord {
    /// The bits that have a token.
    pub tokens: u64,
    /// Wildcards: their pieces may have any length.
    pub wildcards: u64,
    /// Recursive wildcards before other tokens: a piece is empty or ends where a component starts.
    pub recursive: u64,
}

/// The shape words of the tokens before `end`, at least one word.
pub fn shape_words<T: Shaped>(tokens: &[T], end: usize) -> Vec<ShapeWord> {
    let count = end.div_ceil(WORD).max(1);
    let mut words = Vec::with_capacity(count);
    for n in 0..count {
        words.push(ShapeWord::new(tokens, end, WORD * n));
    }
    words
}

impl ShapeWord {
    /// The shapes of no tokens.
    pub const NONE: ShapeWord = ShapeWord { tokens: 0, wildcards: 0, recursive: 0 };

    /// The shapes of the tokens from `start` up to `end`, or of the first 63 of them.
    pub fn new<T: Shaped>(tokens: &[T], end: usize, start: usize) -> Self {
        let mut word = ShapeWord::NONE;
        for n in start..end.min(start.saturating_add(WORD)) {
            word = word.with(n - start, tokens[n].shape(), n + 1 < tokens.len());
        }
        word
    }

    /// These shapes and one more. `followed`: other shapes come after it.
    fn with(self, bit: usize, shape: Shape, followed: bool) -> Self {
        let mut word = self;
        word.tokens = with_bit(self.tokens, bit);
        match shape {
            Shape::One => {}
            Shape::Run => word.wildcards = with_bit(self.wildcards, bit),
            Shape::Deep => {
                word.wildcards = with_bit(self.wildcards, bit);
                if followed {
                    word.recursive = with_bit(self.recursive, bit);
                }
            }
        }
        word
    }

    /// The positions alive after a character, given the tokens that took it. `opens`: a component starts after the
    /// character. `whole`: the shapes before this word split the characters up to there.
    #[inline(always)]
    pub fn step(self, took: u64, opens: bool, whole: bool) -> u64 {
        // Where a piece ends, the next token begins. A wildcard may be empty, so that the token after it begins too:
        // adding the mask of wildcards carries a bit through neighbouring ones.
        let ending = self.ending(took, opens);
        let begun = (ending << 1) | u64::from(whole);
        let sum = (begun & self.wildcards).wrapping_add(self.wildcards);
        let closed = begun | (sum ^ self.wildcards);
        (took & self.wildcards) | closed
    }

    /// Whether pieces may end anywhere and no two wildcards are neighbours, as in `*a?b*`, but not in `**/*`.
    pub fn is_flat(self) -> bool {
        self.recursive == 0 && self.wildcards & (self.wildcards << 1) == 0
    }

    /// [`step`](Self::step) for the only word, after a character. With `flat` shapes a piece that ends lets at most one
    /// wildcard begin, so that a shift replaces the sum.
    #[inline(always)]
    pub fn step_by(self, flat: bool, took: u64, opens: bool) -> u64 {
        if !flat {
            return self.step(took, opens, false);
        }
        let begun = took << 1;
        let growing = took & self.wildcards;
        growing | (begun | ((begun & self.wildcards) << 1))
    }

    /// The tokens among those that took a character whose pieces may end after it.
    #[inline(always)]
    fn ending(self, took: u64, opens: bool) -> u64 {
        if opens {
            took
        } else {
            took & !self.recursive
        }
    }
}

/// The word with one more bit set.
#[inline(always)]
pub fn with_bit(word: u64, bit: usize) -> u64 {
    word | (1 << bit)
}
