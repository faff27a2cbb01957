//! Made by `bin/rust_crate` from `crates/glob_pattern/src/error.rt`, where its contracts are: sha256 0c9156a40543a0b5.
//! Public there: `kind`. A trait of a user may have a function of such a name.
//! Not derived there: `PatternError`.
//! `PatternErrorKind` is not `#[non_exhaustive]` there.
//!
//! Why a text is refused as a pattern.

use std::fmt;

/// What is wrong with a text that is not accepted as a pattern.
///
/// ```
/// use cadmiumdove::{Pattern, PatternErrorKind};
///
/// assert_eq!(PatternErrorKind::of(&Pattern::new("***").unwrap_err()), PatternErrorKind::Wildcards);
/// ```
#[derive(Clone, Copy, Debug, PartialEq, Eq)]
#[non_exhaustive]
pub enum PatternErrorKind {
    /// Three or more stars, as in `a/***`.
    Wildcards,
    /// Two stars that are not a whole component, as in `a**`.
    Recursive,
    /// A `[` that no `]` closes, as in `[a` and `[]`.
    Range,
}

impl PatternErrorKind {
    /// The message for errors of this kind: `invalid range pattern` for `Range`.
    ///
    /// <details><summary>Contract</summary>
    ///
    /// ```text
    /// ensures text { result.now ≡ message_of self }
    /// ensures kind { kind_of result.now ≡ self }
    /// ```
    ///
    /// </details>
    #[must_use]
    pub fn message(self) -> &'static str {
        match self {
            PatternErrorKind::Wildcards => "wildcards are either regular `*` or recursive `**`",
            PatternErrorKind::Recursive => "recursive wildcards must form a single path component",
            PatternErrorKind::Range => "invalid range pattern",
        }
    }

    /// The fixed number of the kind: 0 for `Wildcards`, 1 for `Recursive`, 2 for `Range`.
    ///
    /// <details><summary>Contract</summary>
    ///
    /// ```text
    /// ensures { result ≡ number_of self }
    /// ```
    ///
    /// </details>
    #[must_use]
    pub fn number(self) -> u32 {
        match self {
            PatternErrorKind::Wildcards => 0,
            PatternErrorKind::Recursive => 1,
            PatternErrorKind::Range => 2,
        }
    }
}

/// Where a pattern is wrong, and why. The error for `a**` has the place 0 and the message `recursive wildcards must
/// form a single path component`. It prints as `Pattern syntax error near position 0: ` and the message.
///
/// ```
/// let error = cadmiumdove::Pattern::new("a[").unwrap_err();
/// assert_eq!((error.pos, error.msg), (1, "invalid range pattern"));
/// ```
#[derive(Debug, Clone, PartialEq, Eq)]
pub struct PatternError {
    /// The place, in characters from 0.
    pub pos: usize,
    /// The message: what is wrong there.
    pub msg: &'static str,
}

impl PatternError {
    /// The kind of the error: `Recursive` for `a**`. An error made by hand has the kind that its message belongs to, or
    /// else `Range`.
    pub(crate) fn kind(&self) -> PatternErrorKind {
        if self.msg == PatternErrorKind::Wildcards.message() {
            PatternErrorKind::Wildcards
        } else if self.msg == PatternErrorKind::Recursive.message() {
            PatternErrorKind::Recursive
        } else {
            PatternErrorKind::Range
        }
    }
}

impl fmt::Display for PatternError {
    fn fmt(&self, f: &mut fmt::Formatter<'_>) -> fmt::Result {
        let pos = self.pos;
        let msg = self.msg;
        write!(f, "Pattern syntax error near position {pos}: {msg}")
    }
}
