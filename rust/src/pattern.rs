//! What Rust's paths and traits need besides the proved sources.

use std::error::Error;
use std::fmt;
use std::path::Path;

use crate::{MatchOptions, Pattern, PatternError, PatternErrorKind};

impl Pattern {
    /// [`matches`](Self::matches) on the path's text: `src/*` matches the path `src/a.rs`. A path that is not UTF-8 is
    /// never matched.
    ///
    /// ```
    /// use cadmiumdove::Pattern;
    /// use std::path::Path;
    ///
    /// assert!(Pattern::new("src/*")?.matches_path(Path::new("src").join("a.rs").as_path()));
    /// # Ok::<(), cadmiumdove::PatternError>(())
    /// ```
    ///
    /// <details><summary>Tested</summary>
    ///
    /// `patterns` in `tests/api.rs`, `a_path_that_is_no_text_never_matches` in `tests/glob.rs`.
    ///
    /// </details>
    pub fn matches_path(&self, path: &Path) -> bool {
        self.matches_path_with(path, MatchOptions::new())
    }

    /// [`matches_with`](Self::matches_with) on the path's text: under the dot rule `src/*` does not match the path
    /// `src/.git`. A path that is not UTF-8 is never matched.
    ///
    /// ```
    /// use cadmiumdove::{MatchOptions, Pattern};
    /// use std::path::Path;
    ///
    /// let dots = MatchOptions { require_literal_leading_dot: true, ..MatchOptions::new() };
    /// assert!(!Pattern::new("src/*")?.matches_path_with(Path::new("src/.git"), dots));
    /// # Ok::<(), cadmiumdove::PatternError>(())
    /// ```
    ///
    /// <details><summary>Tested</summary>
    ///
    /// `patterns` in `tests/api.rs`, `a_path_that_is_no_text_never_matches` in `tests/glob.rs`.
    ///
    /// </details>
    pub fn matches_path_with(&self, path: &Path, options: MatchOptions) -> bool {
        path.to_str().is_some_and(|text| self.matches_with(text, options))
    }
}

impl Error for PatternError {
    fn description(&self) -> &str {
        self.msg
    }
}

/// The pattern's text, with the format's width and precision.
impl fmt::Display for Pattern {
    fn fmt(&self, f: &mut fmt::Formatter<'_>) -> fmt::Result {
        f.pad(self.as_str())
    }
}

/// The pattern's text, with its name.
impl fmt::Debug for Pattern {
    fn fmt(&self, f: &mut fmt::Formatter<'_>) -> fmt::Result {
        f.debug_struct("Pattern").field("original", &self.as_str()).finish_non_exhaustive()
    }
}

impl PatternErrorKind {
    /// What is wrong with a text that is not a pattern.
    ///
    /// ```
    /// use cadmiumdove::{Pattern, PatternErrorKind};
    ///
    /// let error = Pattern::new("src/**.rs").unwrap_err();
    /// assert_eq!(PatternErrorKind::of(&error), PatternErrorKind::Recursive);
    /// ```
    ///
    /// <details><summary>Contract</summary>
    ///
    /// The contract of a method in the sources, whose `self` is the error.
    ///
    /// ```text
    /// ensures kind { result ≡ kind_of self.now.msg.now }
    /// ensures message { (text : List ℕ) → Refuses text (Syntax self.now)
    ///     → message_of result ≡ self.now.msg.now }
    /// ```
    ///
    /// </details>
    pub fn of(error: &PatternError) -> Self {
        error.kind()
    }
}
