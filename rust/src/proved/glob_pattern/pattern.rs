//! Made by `bin/rust_crate` from `crates/glob_pattern/src/pattern.rt`, where its contracts are: sha256 b1f688299d873d93.
//! Public there: `matches_counted`. A trait of a user may have a function of such a name.
//!
//! Patterns: parsing them, and matching texts.

mod automaton;
mod char_masks;
mod classes;
mod compare;
mod compiled;
mod ends;
mod escape;
mod judge;
mod needle;
mod tokens;

use crate::proved::glob_pattern::error::PatternError;
use crate::proved::glob_pattern::grammar;
use crate::proved::glob_pattern::options::MatchOptions;
use compiled::Compiled;
pub use tokens::{token_kind, token_takes, tokens_len, TokenKind};

/// A parsed pattern.
///
/// | In a pattern | Matches |
/// |---|---|
/// | `?` | any one character |
/// | `*` | any number of characters |
/// | `**` | any number of whole components; it must be a whole component itself |
/// | `[abc]`, `[a-z]` | one character that is listed or in a range |
/// | `[!abc]` | one character that is not listed |
/// | any other character | itself |
///
/// ```
/// use cadmiumdove::Pattern;
///
/// let pattern = Pattern::new("src/**/*.rs")?;
/// assert!(pattern.matches("src/walk/main.rs") && !pattern.matches("src/walk/main.c"));
/// # Ok::<(), cadmiumdove::PatternError>(())
/// ```
pub struct Pattern {
    text: String,
    compiled: Compiled,
}

impl Pattern {
    /// The text that the pattern was parsed from, such as `a/*.rs`. It is accepted: parsing it again gives an equal
    /// pattern.
    ///
    /// ```
    /// # use cadmiumdove::Pattern;
    /// assert_eq!(Pattern::new("a/*.rs")?.as_str(), "a/*.rs");
    /// # Ok::<(), Box<dyn std::error::Error>>(())
    /// ```
    ///
    /// <details><summary>Contract</summary>
    ///
    /// ```text
    /// ensures text { result.now ≡ self.now }
    /// ensures accepted { IsAccepted (chars self.now) }
    /// ```
    ///
    /// </details>
    #[must_use]
    pub fn as_str(&self) -> &str {
        self.text.as_str()
    }

    /// Parses a pattern. `src/**/*.rs` is accepted, and `src/**.rs` is not.
    ///
    /// ```
    /// # use cadmiumdove::Pattern;
    /// let pattern = Pattern::new("src/**/*.rs")?;
    /// assert!(pattern.matches("src/walk/main.rs"));
    /// # Ok::<(), Box<dyn std::error::Error>>(())
    /// ```
    ///
    /// # Errors
    ///
    /// The error is [`PatternError`] with the first fault from the left, its place in characters from 0, if the text is
    /// not accepted.
    ///
    /// <details><summary>Contract</summary>
    ///
    /// ```text
    /// ensures accepted { IfOk result (λ _. IsAccepted (chars pattern.now)) }
    /// ensures text { IfOk result (λ p. p ≡ pattern.now) }
    /// ensures refused { IfErr result (Refuses (chars pattern.now)) }
    /// ```
    ///
    /// </details>
    pub fn new(pattern: &str) -> Result<Self, PatternError> {
        let tokens = grammar::read_tokens(pattern)?;
        let compiled = Compiled::new(tokens);
        let text = String::from(pattern);
        Ok(Pattern { text, compiled })
    }

    /// Whether the pattern matches the whole text, case-sensitively, with neither the separator rule nor the dot rule.
    /// This is [`matches_with`](Self::matches_with) under `MatchOptions::new()`: `*.rs` matches `main.rs` and
    /// `src/main.rs`.
    ///
    /// ```
    /// # use cadmiumdove::Pattern;
    /// let pattern = Pattern::new("*.rs")?;
    /// assert!(pattern.matches("src/main.rs"));
    /// assert!(!pattern.matches("src/main.c"));
    /// # Ok::<(), Box<dyn std::error::Error>>(())
    /// ```
    ///
    /// <details><summary>Contract</summary>
    ///
    /// ```text
    /// ensures answer { IfOk result
    ///     (λ yes. IsTrue yes ↔ Matches new_options (chars self.now) (chars str.now)) }
    /// ```
    ///
    /// </details>
    #[inline(always)]
    #[must_use]
    pub fn matches(&self, str: &str) -> bool {
        self.matches_with(str, MatchOptions::new())
    }

    /// Whether the pattern matches the whole text: whether the text splits into one allowed piece per token. `*.rs`
    /// matches `src/main.rs`, but not under the separator rule.
    ///
    /// ```
    /// # use cadmiumdove::MatchOptions;
    /// # use cadmiumdove::Pattern;
    /// let options = MatchOptions {
    ///     require_literal_separator: true,
    ///     ..MatchOptions::new()
    /// };
    /// assert!(!Pattern::new("*.rs")?.matches_with("src/main.rs", options));
    /// # Ok::<(), Box<dyn std::error::Error>>(())
    /// ```
    ///
    /// <details><summary>Contract</summary>
    ///
    /// ```text
    /// ensures answer { IfOk result
    ///     (λ yes. IsTrue yes ↔ Matches options (chars self.now) (chars str.now)) }
    /// ```
    ///
    /// </details>
    #[inline(always)]
    #[must_use]
    pub fn matches_with(&self, str: &str, options: MatchOptions) -> bool {
        self.compiled.matches(self.text.as_str(), str, options)
    }
}

/// The character of token `number`, counted from 0, if that is a literal: `.` for token 2 of `a*.rs`. `None` if it is a
/// wildcard or a bracket, or if there is no such token.
pub fn literal_at(pattern: &Pattern, number: usize) -> Option<char> {
    pattern.compiled.literal_at(number)
}

impl std::str::FromStr for Pattern {
    type Err = PatternError;

    /// [`new`](Self::new) by the name that the trait `FromStr` uses, with the same errors. `from_str("*.rs")` equals
    /// `new("*.rs")`.
    fn from_str(s: &str) -> Result<Self, PatternError> {
        Self::new(s)
    }
}

impl Default for Pattern {
    /// The empty pattern, which matches only the empty text: `""`, not `"a"`.
    fn default() -> Self {
        Pattern { text: String::new(), compiled: Compiled::empty() }
    }
}

impl Clone for Pattern {
    fn clone(&self) -> Self {
        Pattern { text: self.text.clone(), compiled: self.compiled.clone() }
    }
}
