//! Made by `bin/rust_crate` from `crates/glob_set/src/braces/error.rt`, where its contracts are: sha256 4c01964cb044563c.
//! `BraceError` is not `#[non_exhaustive]` there.
//!
//! Why braces are refused.

use std::error::Error;
use std::fmt;

/// What is wrong with the braces of a text. Places are in characters from 0: `a{b` has the error `Unclosed(1)`.
///
/// ```
/// use cadmiumdove::set::braces::{expand, BraceError};
///
/// assert_eq!(expand("a{b"), Err(BraceError::Unclosed(1)));
/// assert_eq!(expand(&"{a,b}".repeat(40)), Err(BraceError::TooMany));
/// ```
#[derive(Clone, Copy, Debug, PartialEq, Eq)]
#[non_exhaustive]
pub enum BraceError {
    /// The first `}` that closes no `{`.
    Unmatched(usize),
    /// The first `{` that is never closed.
    Unclosed(usize),
    /// More than [`MOST_ALTERNATIVES`](crate::proved::glob_set::braces::MOST_ALTERNATIVES) alternatives.
    TooMany,
}

impl fmt::Display for BraceError {
    fn fmt(&self, f: &mut fmt::Formatter<'_>) -> fmt::Result {
        match self {
            BraceError::Unmatched(place) => write!(f, "no `{{` before the `}}` at position {place}"),
            BraceError::Unclosed(place) => write!(f, "no `}}` after the `{{` at position {place}"),
            BraceError::TooMany => f.write_str("more than 1000 alternatives"),
        }
    }
}

impl Error for BraceError {}
