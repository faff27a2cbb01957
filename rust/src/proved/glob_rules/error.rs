//! Made by `bin/rust_crate` from `crates/glob_rules/src/error.rt`, where its contracts are: sha256 a82e737e5a73cdbb.
//! Not derived there: `RuleRefusal`.
//! `Reason` is not `#[non_exhaustive]` there.
//!
//! Why a text is refused as an ignore list.

use std::error::Error;
use std::fmt;

/// Why a line is refused: it has no exact translation, or git contradicts gitignore(5) on it.
///
/// ```
/// use cadmiumdove::ignore::IgnoreList;
///
/// let refusal = IgnoreList::new("[[:word:]]\n").unwrap_err();
/// assert_eq!(refusal.to_string(), "line 1: a bracket has an unknown class of characters");
/// ```
#[derive(Clone, Copy, Debug, PartialEq, Eq)]
#[non_exhaustive]
pub enum Reason {
    /// A bracket has a non-ASCII character, as in `[é]`: git matches each of its bytes by itself.
    BeyondAscii,
    /// A bracket has a class that git does not know, as in `[[:word:]]`: in git such a rule matches nothing.
    UnknownClass,
    /// Two or more stars end a component that begins with other characters, and all that comes before them is literal,
    /// as in `a**/b`: git contradicts its manual here.
    StarsBehindText,
    /// The line contains a NUL, and git stops reading there.
    Nul,
    /// The translation is not a valid pattern. No line is known to cause this.
    Pattern,
}

impl fmt::Display for Reason {
    fn fmt(&self, f: &mut fmt::Formatter<'_>) -> fmt::Result {
        f.write_str(match self {
            Reason::BeyondAscii => "a bracket names a character beyond ASCII",
            Reason::UnknownClass => "a bracket has an unknown class of characters",
            Reason::StarsBehindText => "`**` is not a whole component",
            Reason::Nul => "the line has a NUL",
            Reason::Pattern => "the translation is no pattern",
        })
    }
}

/// Why [`IgnoreList::new`](crate::proved::glob_rules::IgnoreList::new) refused a text. The text `[é]` is refused with
/// `Line(1, Reason::BeyondAscii)`, which prints as `line 1: a bracket names a character beyond ASCII`.
///
/// ```
/// use cadmiumdove::ignore::{IgnoreList, RuleRefusal};
///
/// let RuleRefusal::Line(number, reason) = IgnoreList::new("*.o\n[é]\n").unwrap_err();
/// assert_eq!((number, reason.to_string().as_str()), (2, "a bracket names a character beyond ASCII"));
/// ```
#[derive(Debug, Clone, PartialEq, Eq)]
pub enum RuleRefusal {
    /// The number of the first refused line, counted from 1, and the reason.
    Line(usize, Reason),
}

impl fmt::Display for RuleRefusal {
    fn fmt(&self, f: &mut fmt::Formatter<'_>) -> fmt::Result {
        match self {
            RuleRefusal::Line(line, reason) => {
                write!(f, "line {line}: ")?;
                reason.fmt(f)
            }
        }
    }
}

impl Error for RuleRefusal {}
