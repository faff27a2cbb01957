//! Made by `bin/rust_crate` from `crates/glob_captures/src/error.rt`, where its contracts are: sha256 02ad26a60eba6e9c.
//! Not derived there: `CapturesError`.
//! `CapturesError` is not `#[non_exhaustive]` there.
//!
//! The errors of `captures` and `reach`.

use std::error::Error;
use std::fmt;

/// Why [`captures`](crate::proved::glob_captures::captures) or [`reach`](crate::proved::glob_captures::reach) failed.
///
/// ```
/// use cadmiumdove::captures::{captures, CapturesError};
/// use cadmiumdove::{MatchOptions, Pattern};
///
/// let (pattern, text) = (Pattern::new("*a*")?, "b".repeat(70_000_000));
/// assert_eq!(captures(&pattern, &text, MatchOptions::new()).unwrap_err(), CapturesError::TooLarge);
/// # Ok::<(), cadmiumdove::PatternError>(())
/// ```
#[derive(Debug, Clone, PartialEq, Eq)]
#[non_exhaustive]
pub enum CapturesError {
    /// The pattern's tokens times the text's bytes are more than
    /// [`MOST_STEPS`](crate::proved::glob_captures::MOST_STEPS). Nothing was done.
    TooLarge,
}

impl fmt::Display for CapturesError {
    fn fmt(&self, f: &mut fmt::Formatter<'_>) -> fmt::Result {
        f.write_str(match self {
            CapturesError::TooLarge => "the pattern's tokens times the text's bytes are more than 67108864",
        })
    }
}

impl Error for CapturesError {}
