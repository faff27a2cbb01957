//! Made by `bin/rust_crate` from `crates/glob_set/src/error.rt`, where its contracts are: sha256 0c933c189e4b72c2.
//! Not derived there: `SetRefusal`, `BraceSetRefusal`.
//! `BraceSetRefusal` is not `#[non_exhaustive]` there.
//!
//! Why texts are refused as a set.

use crate::proved::glob_pattern::PatternError;
use crate::proved::glob_set::braces::BraceError;
use std::fmt;

/// Why [`PatternSet::from_texts`](crate::proved::glob_set::PatternSet::from_texts) refused texts. `*.o` and `[a` are
/// refused with `Syntax`, the number 1 and the place 0, which prints as `pattern 1: Pattern syntax error near position
/// 0: invalid range pattern`.
///
/// ```
/// use cadmiumdove::set::PatternSet;
/// use cadmiumdove::MatchOptions;
///
/// let refusal = PatternSet::from_texts(["*.o", "["], MatchOptions::new()).unwrap_err();
/// assert_eq!(refusal.number(), 1);
/// ```
#[derive(Debug, Clone, PartialEq, Eq)]
pub enum SetRefusal {
    /// The number of the first text that is not accepted, counted from 0, and its first fault from the left.
    Syntax(usize, PatternError),
}

impl fmt::Display for SetRefusal {
    fn fmt(&self, f: &mut fmt::Formatter<'_>) -> fmt::Result {
        match self {
            SetRefusal::Syntax(number, error) => {
                write!(f, "pattern {number}: ")?;
                error.fmt(f)
            }
        }
    }
}

/// Why [`PatternSet::from_braces`](crate::proved::glob_set::PatternSet::from_braces) refused texts. Numbers count from
/// 0.
///
/// ```
/// use cadmiumdove::set::{BraceSetRefusal, PatternSet};
/// use cadmiumdove::MatchOptions;
///
/// let refusal = PatternSet::from_braces(["a", "{b,[}"], MatchOptions::new()).unwrap_err();
/// assert!(matches!(refusal, BraceSetRefusal::Pattern(1, 1, _)));
/// ```
#[derive(Debug, Clone, PartialEq, Eq)]
#[non_exhaustive]
pub enum BraceSetRefusal {
    /// The number of the first text with a fault, and the fault of its braces: for `*.o` and `{a`, 1 and `Unclosed(0)`.
    Braces(usize, BraceError),
    /// The number of the first text with a fault, the number of its first alternative that is not accepted, and the
    /// first fault of that alternative from the left: for `*.o` and `{a,[}`, 1, 1 and the place 0 in `[`.
    Pattern(usize, usize, PatternError),
}

impl fmt::Display for BraceSetRefusal {
    fn fmt(&self, f: &mut fmt::Formatter<'_>) -> fmt::Result {
        match self {
            BraceSetRefusal::Braces(number, error) => {
                write!(f, "pattern {number}: ")?;
                error.fmt(f)
            }
            BraceSetRefusal::Pattern(number, alternative, error) => {
                write!(f, "pattern {number}, alternative {alternative}: ")?;
                error.fmt(f)
            }
        }
    }
}
