//! Made by `bin/rust_crate` from `crates/glob_set/src/set/asking.rt`, where its contracts are: sha256 863175843aa74ec7.
//!
//! Asking the patterns of a set that may match a text.

use crate::proved::glob_set::found::Found;
use crate::proved::glob_set::pairs::{text_bits, text_class, Need};
use crate::proved::glob_set::set::PatternSet;

/// How many patterns there must be to ask before the bits of a text are computed. Fewer are asked faster without them.
const FEWEST_WITH_BITS: usize = 3;

impl PatternSet {
    /// The patterns without a key that may match the text. Those with a key go into `found`.
    #[inline(always)]
    pub(crate) fn listed_for(&self, text: &str, found: &mut Found) -> &[usize] {
        let bytes = text.as_bytes();
        self.keyed.find_in(bytes, found);
        self.buckets.of_class(text_class(bytes))
    }

    /// The first of these numbers whose pattern matches the text.
    #[inline(always)]
    pub(crate) fn first_of(&self, numbers: &[usize], text: &str, bits: Option<u128>) -> Option<usize> {
        for number in numbers {
            if self.matches_at(*number, text, bits) {
                return Some(*number);
            }
        }
        None
    }

    /// The last of these numbers whose pattern matches the text.
    #[inline(always)]
    pub(crate) fn last_of(&self, numbers: &[usize], text: &str, bits: Option<u128>) -> Option<usize> {
        let mut left = numbers.len();
        while left > 0 {
            left -= 1;
            if self.matches_at(numbers[left], text, bits) {
                return Some(numbers[left]);
            }
        }
        None
    }

    /// Replaces the content of `numbers` with the numbers of all patterns that match the text, in any order.
    pub(crate) fn find_matches(&self, text: &str, numbers: &mut Vec<usize>) {
        numbers.clear();
        self.push_matches(text, numbers)
    }

    /// Adds the numbers of all patterns that match the text, in any order.
    fn push_matches(&self, text: &str, numbers: &mut Vec<usize>) {
        let mut found = Found::new();
        let listed = self.listed_for(text, &mut found);
        let bits = bits_for(text, listed, found.numbers());
        self.push_of(listed, text, bits, numbers);
        self.push_of(found.numbers(), text, bits, numbers)
    }

    /// Adds the asked numbers whose patterns match the text.
    fn push_of(&self, asked: &[usize], text: &str, bits: Option<u128>, numbers: &mut Vec<usize>) {
        for number in asked {
            if self.matches_at(*number, text, bits) {
                numbers.push(*number);
            }
        }
    }

    /// Whether pattern `number` matches the text. `bits` are the bits of the text, if they are known.
    #[inline(always)]
    fn matches_at(&self, number: usize, text: &str, bits: Option<u128>) -> bool {
        if lacks(&self.needs[number], bits) {
            return false;
        }
        self.patterns[number].matches_with(text, self.options)
    }
}

/// Whether a text with these bits, if they are known, lacks one that is needed.
#[inline(always)]
fn lacks(need: &Need, bits: Option<u128>) -> bool {
    match bits {
        Some(known) => need.bits | known != known,
        None => false,
    }
}

/// The bits of the text, unless only few patterns are asked about it.
#[inline(always)]
pub(crate) fn bits_for(text: &str, listed: &[usize], found: &[usize]) -> Option<u128> {
    if listed.len() < FEWEST_WITH_BITS && found.len() < FEWEST_WITH_BITS {
        return None;
    }
    Some(text_bits(text.as_bytes()))
}

/// The lower of two numbers, or the only one, or none.
pub(crate) fn earlier(one: Option<usize>, other: Option<usize>) -> Option<usize> {
    match (one, other) {
        (Some(one), Some(other)) => Some(one.min(other)),
        (one, None) => one,
        (None, other) => other,
    }
}

/// The higher of two numbers, or the only one, or none.
pub(crate) fn later(one: Option<usize>, other: Option<usize>) -> Option<usize> {
    match (one, other) {
        (Some(one), Some(other)) => Some(one.max(other)),
        (one, None) => one,
        (None, other) => other,
    }
}
