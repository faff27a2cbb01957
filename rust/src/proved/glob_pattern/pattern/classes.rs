//! Made by `bin/rust_crate` from `crates/glob_pattern/src/pattern/classes.rt`, where its contracts are: sha256 a7b9dadedac9835d.
//!
//! Classes of characters: all characters of a class are taken by the same tokens.
//!
//! Tokens list intervals of characters. No token tells apart the characters between two neighbouring boundaries of
//! intervals, so these are one class. The tokens of `*[a-z]x` have one class for `a` to `w`, one for `x`, one for `y`
//! and `z`, the same three in upper case, and one each for what is before, between and after these.

use crate::proved::glob_pattern::token::bracket::{Bracket, Entry};
use crate::proved::glob_pattern::token::Token;

/// The class of the first characters, up to the first boundary.
pub const FIRST: u8 = 2;

/// The number of ASCII characters.
pub const ASCII: usize = 128;

/// The length of a table of how many boundaries there are up to a character, which begins at the first boundary beyond
/// ASCII.
const COUNTED: usize = 128;

/// The class of each character.
#[derive(Clone, Copy)]
pub struct Classes<'a> {
    /// The class of each ASCII character.
    pub ascii: &'a [u8; ASCII],
    /// The boundaries beyond ASCII, ascending. Each begins the class with the next number.
    pub beyond: &'a [u32],
    /// How many of these boundaries there are up to a character, for the first characters from the first boundary on.
    pub begun: &'a [u8],
}

impl Classes<'_> {
    /// All characters in the class `FIRST`.
    pub const NONE: Classes<'static> = Classes { ascii: &[FIRST; ASCII], beyond: &[], begun: &[] };

    /// The number of classes. Every class is below it.
    #[inline(always)]
    pub fn count(self) -> usize {
        usize::from(self.ascii[ASCII - 1]) + 1 + self.beyond.len()
    }

    /// The class of a character, without regard to the rules.
    #[inline(always)]
    pub fn class(self, c: char) -> usize {
        let ascii = self.ascii;
        match ascii.get(c as usize) {
            Some(class) => usize::from(*class),
            None if self.beyond.is_empty() => usize::from(ascii[ASCII - 1]),
            None => usize::from(ascii[ASCII - 1]) + begun_at(self.beyond, self.begun, c),
        }
    }
}

/// The number of boundaries up to `c`.
#[inline(always)]
fn begun_at(boundaries: &[u32], counts: &[u8], c: char) -> usize {
    let c = c as u32;
    let Some(base) = boundaries.first() else {
        return 0;
    };
    if c < *base {
        return 0;
    }
    match counts.get((c - *base) as usize) {
        Some(count) => usize::from(*count),
        None => begun_by_search(boundaries, c),
    }
}

/// The boundaries of character intervals.
pub struct Boundaries {
    /// Whether an interval begins at this ASCII character or ends right before it.
    ascii: [bool; ASCII],
    /// The boundaries beyond ASCII.
    pub beyond: Vec<u32>,
}

impl Boundaries {
    /// The boundaries of the intervals of all literals and brackets, in both cases.
    pub fn of(tokens: &[Token<Bracket>]) -> Self {
        let mut boundaries = Boundaries { ascii: [false; ASCII], beyond: Vec::new() };
        for token in tokens {
            boundaries.mark_token(token);
        }
        boundaries.sort();
        boundaries
    }

    /// Adds the token's intervals.
    fn mark_token(&mut self, token: &Token<Bracket>) {
        match token {
            Token::Literal(c) => self.mark_cases(*c, *c),
            Token::AnyChar | Token::AnySequence | Token::Recursive => {}
            Token::OneOf(bracket) | Token::NoneOf(bracket) => self.mark_all(bracket.entries()),
        }
    }

    /// Adds the intervals of the entries.
    fn mark_all(&mut self, entries: &[Entry]) {
        for entry in entries {
            let (first, last) = entry.ends();
            self.mark_cases(first, last);
        }
    }

    /// Adds the characters from `first` to `last`, in both cases if both are letters.
    fn mark_cases(&mut self, first: char, last: char) {
        self.mark(first, last);
        if !are_letters(first, last) {
            return;
        }
        self.mark(first.to_ascii_lowercase(), last.to_ascii_lowercase());
        self.mark(first.to_ascii_uppercase(), last.to_ascii_uppercase());
    }

    /// Adds the characters from `first` to `last`.
    fn mark(&mut self, first: char, last: char) {
        self.begin(first as u32);
        self.begin(last as u32 + 1);
    }

    /// Adds a boundary.
    #[inline(always)]
    fn begin(&mut self, c: u32) {
        if c < ASCII as u32 {
            self.ascii[c as usize] = true;
        } else {
            self.beyond.push(c);
        }
    }

    /// Sorts the boundaries beyond ASCII and removes duplicates.
    fn sort(&mut self) {
        self.beyond.sort_unstable();
        self.beyond.dedup();
    }

    /// The class of each ASCII character. Each boundary raises it by one.
    pub fn ascii_classes(&self) -> [u8; ASCII] {
        let mut classes = [FIRST; ASCII];
        let mut class = FIRST;
        for n in 0..ASCII / 8 {
            class = self.number(&mut classes, 8 * n, class);
        }
        classes
    }

    /// Writes the classes of eight characters, given the class before them. Returns the class of the last one.
    #[inline(always)]
    fn number(&self, classes: &mut [u8; ASCII], start: usize, last: u8) -> u8 {
        if self.has_none(start) {
            keep(classes, start, last);
            return last;
        }
        let mut class = last;
        for c in start..start + 8 {
            class += u8::from(self.ascii[c]);
            classes[c] = class;
        }
        class
    }

    /// Whether none of eight characters has a boundary, by one comparison.
    #[inline(always)]
    fn has_none(&self, start: usize) -> bool {
        let eight = &self.ascii[start..start + 8];
        let none: &[bool] = &[false; 8];
        eight == none
    }
}

/// Gives eight characters the same class.
#[inline(always)]
fn keep(classes: &mut [u8; ASCII], start: usize, class: u8) {
    for c in start..start + 8 {
        classes[c] = class;
    }
}

/// The number of boundaries up to `c`, by binary search.
#[inline(never)]
fn begun_by_search(boundaries: &[u32], c: u32) -> usize {
    boundaries.partition_point(|first: &u32| -> bool { *first <= c })
}

/// The number of boundaries up to each of `COUNTED` characters, from the first boundary on: most alphabets then need no
/// search. The list is empty if there is no boundary, or if there are too many for a byte.
pub fn counts_of(boundaries: &[u32]) -> Vec<u8> {
    match boundaries.first() {
        Some(base) if boundaries.len() < 256 => counts_from(boundaries, *base),
        _ => Vec::new(),
    }
}

/// The number of boundaries up to each of `COUNTED` characters, from `base` on, which is the first boundary. It is `n`
/// for those before boundary `n` and not before an earlier one.
fn counts_from(boundaries: &[u32], base: u32) -> Vec<u8> {
    let mut counts = Vec::with_capacity(COUNTED);
    for n in 0..boundaries.len() {
        let end = (boundaries[n] - base) as usize;
        counts.resize(end.min(COUNTED), n as u8);
    }
    counts.resize(COUNTED, boundaries.len() as u8);
    counts
}

/// Whether both are ASCII letters.
pub fn are_letters(x: char, y: char) -> bool {
    x.is_ascii_alphabetic() && y.is_ascii_alphabetic()
}
