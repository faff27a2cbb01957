//! Made by `bin/rust_crate` from `crates/glob_pattern/src/options.rt`, where its contracts are: sha256 ad41d2b9e3399dd9.
//! Public there: `with_letter`, `from_letters`, `from_bits`. A trait of a user may have a function of such a name.
//!
//! The options of a match.

/// How patterns match. Under `MatchOptions::new()`, `*.rs` matches `src/.x.rs`; with `require_literal_separator` it
/// does not.
///
/// ```
/// use cadmiumdove::{MatchOptions, Pattern};
///
/// let options = MatchOptions { case_sensitive: false, ..MatchOptions::new() };
/// assert!(Pattern::new("*.RS")?.matches_with("main.rs", options));
/// # Ok::<(), cadmiumdove::PatternError>(())
/// ```
#[derive(Clone, Copy, Debug, PartialEq, Eq, PartialOrd, Ord, Hash)]
pub struct MatchOptions {
    /// Whether upper and lower case differ. If not, ASCII letters match in either case, also in brackets, but not by
    /// every range: `[A-_]` matches `A` and not `a`. All other characters are compared exactly.
    pub case_sensitive: bool,
    /// The separator rule: only `/` outside brackets and `**` match a `/`.
    pub require_literal_separator: bool,
    /// The dot rule: only `.` outside brackets matches a `.` at the start of the text or right after a `/`.
    pub require_literal_leading_dot: bool,
}

impl MatchOptions {
    /// Case-sensitive, with neither rule: `*` matches `a/b`, and `A*` does not.
    ///
    /// ```
    /// # use cadmiumdove::MatchOptions;
    /// assert!(MatchOptions::new().case_sensitive);
    /// assert!(!MatchOptions::new().require_literal_separator);
    /// ```
    ///
    /// <details><summary>Contract</summary>
    ///
    /// ```text
    /// ensures { result ≡ new_options }
    /// ```
    ///
    /// </details>
    #[must_use]
    pub const fn new() -> Self {
        MatchOptions { case_sensitive: true, require_literal_separator: false, require_literal_leading_dot: false }
    }
}

impl Default for MatchOptions {
    /// Case-insensitive, with neither rule: `A*` matches `a/b`.
    fn default() -> Self {
        MatchOptions { case_sensitive: false, ..MatchOptions::new() }
    }
}
