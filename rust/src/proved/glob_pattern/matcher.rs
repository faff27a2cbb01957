//! Made by `bin/rust_crate` from `crates/glob_pattern/src/matcher.rt`, where its contracts are: sha256 8714e95cc9437163.
//!
//! Matching over any alphabet: a judge says which tokens take each character, and a run says whether the characters
//! split into pieces that the tokens allow.

mod positions;
mod shape_word;

pub use positions::{decide, Span};
pub use shape_word::{shape_words, with_bit, ShapeWord};

/// The number of tokens in a word of 64 bits. Bit 63 is the position after them, which is bit 0 of the next word.
pub const WORD: usize = 63;

/// Which pieces of a text a token can match. The shapes of `**/*a` are `Deep`, `Run` and `One`.
#[derive(Clone, Copy, Debug, PartialEq, Eq)]
pub enum Shape {
    /// One character.
    One,
    /// Any number of characters.
    Run,
    /// Any number of characters. If shapes follow, the piece is empty or ends where a component starts.
    Deep,
}

/// Something with a shape: a shape itself, or a token.
pub trait Shaped {
    /// Its shape.
    fn shape(&self) -> Shape;
}

impl Shaped for Shape {
    fn shape(&self) -> Shape {
        *self
    }
}

/// Answers which token takes which character, for a list of characters and a list of tokens, both numbered from 0. A
/// judge has a place, which is the number of characters it has stepped over, and a count of its questions.
///
/// A new judge for the text `ab` and the tokens of `a*` returns true for `step()`, `takes(0)` and `takes(1)`. After
/// another `step()` it returns false for `takes(0)` and true for `takes(1)`. Then `asked()` is 4, and `step()` returns
/// false.
pub trait Judge {
    /// Steps over the next character. Returns whether there was one.
    fn step(&mut self) -> bool;

    /// Whether a component starts at the judge's place. In the text `a/b` components start at the places 0 and 2.
    fn opens(&self) -> bool;

    /// Whether the token takes the last character stepped over. Adds one to the count. There must be such a character
    /// and such a token, and the count must be below `u128::MAX`.
    fn takes(&mut self, token: usize) -> bool;

    /// Which of up to 63 tokens take the last character stepped over. Bit n of `asked` asks token 63 · `word` + n, and
    /// bit n of the result is its answer: `takes_each(1, 0b101)` asks tokens 63 and 65. Adds one to the count for each
    /// bit of `asked`. There must be such a character, each bit must be below 63 and have a token, and the count must
    /// have room.
    ///
    /// This body calls [`takes`](Self::takes) for one token after another. A judge that knows many answers at once may
    /// have a body of its own.
    #[inline]
    fn takes_each(&mut self, word: usize, asked: u64) -> u64 {
        let mut left = asked;
        let mut took = 0u64;
        while left != 0 {
            let bit = left.trailing_zeros();
            if self.takes(WORD * word + bit as usize) {
                took |= 1 << bit;
            }
            left &= left - 1;
        }
        took
    }

    /// The count: how many questions were asked.
    fn asked(&self) -> u128;
}
