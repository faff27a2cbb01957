//! Sets of patterns: which of many match a text, asking only a few of them.
//!
//! ```
//! use cadmiumdove::set::PatternSet;
//! use cadmiumdove::MatchOptions;
//!
//! let set = PatternSet::from_texts(["**/*.o", "**/target/**"], MatchOptions::new())?;
//! assert_eq!(set.first_match("src/a.o"), Some(0));
//! assert!(!set.is_match("src/a.rs"));
//! assert_eq!(set.matches("target/a.o"), [0, 1]);
//! # Ok::<(), cadmiumdove::set::SetRefusal>(())
//! ```
//!
//! Asking a set never changes it, so threads share one by a reference or an `Arc`. A clone costs less than making the
//! set again, since nothing is parsed:
//!
//! ```
//! use cadmiumdove::set::PatternSet;
//! use cadmiumdove::MatchOptions;
//!
//! let set = PatternSet::from_texts(["*.o", "*.a"], MatchOptions::new())?;
//! let copy = set.clone();
//! assert!(std::thread::spawn(move || copy.is_match("x.a")).join().unwrap());
//! assert!(set.is_match("x.o"));
//! # Ok::<(), cadmiumdove::set::SetRefusal>(())
//! ```
//!
//! [`Search::exclude`](crate::search::Search::exclude) leaves out what a set matches. To leave out a directory with
//! everything below it, use `**/target`, not `**/target/**`.
//!
//! Braces are an abbreviation for their alternatives:
//!
//! ```
//! use cadmiumdove::set::{PatternSet, braces};
//! use cadmiumdove::MatchOptions;
//!
//! let set = PatternSet::from_braces(["src/*.{c,h}", "README"], MatchOptions::new()).unwrap();
//! assert!(set.is_match("src/a.h"));
//! assert_eq!(set.first_match("README"), Some(2));
//! assert_eq!(braces::expand("a{,b{1,2}}[{]"), Ok(vec!["a[{]".into(), "ab1[{]".into(), "ab2[{]".into()]));
//! assert_eq!(braces::escape("a{b}*"), "a[{]b[}][*]");
//! assert_eq!(braces::expand("a}"), Err(braces::BraceError::Unmatched(1)));
//! ```

use std::path::Path;

/// Braces in patterns: `src/*.{c,h}` is short for `src/*.c` and `src/*.h`.
///
pub use crate::proved::glob_set::braces;
pub use crate::proved::glob_set::{BraceSetRefusal, PatternSet, SetRefusal};
use crate::MatchOptions;

impl PatternSet {
    /// Parses the texts, and makes a set of the patterns, in this order. The texts may be an array, a `&[String]`, the
    /// lines of a file, or anything else that gives `&str` or `String`. Each text is a pattern as it is: an empty text
    /// is a pattern that matches only the empty text, `#` and `!` are ordinary characters, and spaces are kept.
    ///
    /// ```
    /// use cadmiumdove::set::PatternSet;
    /// use cadmiumdove::MatchOptions;
    ///
    /// let file = "*.o\ntarget/[a\n";
    /// let refusal = PatternSet::from_texts(file.lines(), MatchOptions::new()).unwrap_err();
    /// assert_eq!(refusal.number(), 1);
    /// assert_eq!(refusal.to_string(), "pattern 1: Pattern syntax error near position 7: invalid range pattern");
    ///
    /// let texts: Vec<String> = vec!["*.o".into(), "target/**".into()];
    /// assert_eq!(PatternSet::from_texts(&texts, MatchOptions::new())?.len(), 2);
    /// # Ok::<(), cadmiumdove::set::SetRefusal>(())
    /// ```
    ///
    /// # Errors
    ///
    /// The error is [`Syntax`](SetRefusal::Syntax) with the number, counted from 0, and the fault of the first text
    /// that is not a pattern.
    ///
    /// <details><summary>Contract</summary>
    ///
    /// ```text
    /// ensures set { IfOk result
    ///     (λ set. set ≡ record { patterns = map (λ t. t.now) texts.now; options = options }) }
    /// ensures accepted { IfOk result (λ _. AreAccepted (map (λ t. t.now) texts.now)) }
    /// ensures refused { IfErr result (RefusesTexts (map (λ t. t.now) texts.now)) }
    /// ```
    ///
    /// </details>
    pub fn from_texts<I, T>(texts: I, options: MatchOptions) -> Result<Self, SetRefusal>
    where
        I: IntoIterator<Item = T>,
        T: AsRef<str>,
    {
        let texts: Vec<T> = texts.into_iter().collect();
        Self::of_texts(&strs_of(&texts), options)
    }

    /// Parses all alternatives of all texts, and makes a set of the patterns: text by text, each in the order of
    /// [`expand`](braces::expand). It takes the same lists as [`from_texts`](Self::from_texts), and reads the texts in
    /// the same way, except for braces. Numbers of patterns count alternatives; numbers in errors count texts.
    ///
    /// ```
    /// use cadmiumdove::set::PatternSet;
    /// use cadmiumdove::MatchOptions;
    ///
    /// let set = PatternSet::from_braces(["src/*.{c,h}", "README"], MatchOptions::new())?;
    /// assert_eq!(set.first_match("README"), Some(2));
    ///
    /// let refusal = PatternSet::from_braces(["README", "src/*.{c,h"], MatchOptions::new()).unwrap_err();
    /// assert_eq!(refusal.number(), 1);
    /// # Ok::<(), cadmiumdove::set::BraceSetRefusal>(())
    /// ```
    ///
    /// # Errors
    ///
    /// The error is about the first text that has a fault: [`Braces`](BraceSetRefusal::Braces) if its braces are not
    /// closed or stand for more than [`MOST_ALTERNATIVES`](braces::MOST_ALTERNATIVES), and
    /// [`Pattern`](BraceSetRefusal::Pattern) if one of its alternatives is not a pattern.
    ///
    /// <details><summary>Contract</summary>
    ///
    /// ```text
    /// ensures alternatives { IfOk result
    ///     (λ set. AreAlternativesOf (map (λ t. t.now) texts.now) set.patterns) }
    /// ensures options { IfOk result (λ set. set.options ≡ options) }
    /// ensures matches { IfOk result (λ set. (text : List ℕ) → AnyMatch options set.patterns text
    ///     ↔ AnyAlternativeMatches options (map (λ t. t.now) texts.now) text) }
    /// ensures refused { IfErr result (RefusesBraceTexts (map (λ t. t.now) texts.now)) }
    /// ```
    ///
    /// </details>
    pub fn from_braces<I, T>(texts: I, options: MatchOptions) -> Result<Self, BraceSetRefusal>
    where
        I: IntoIterator<Item = T>,
        T: AsRef<str>,
    {
        let texts: Vec<T> = texts.into_iter().collect();
        Self::of_braces(&strs_of(&texts), options)
    }

    /// The numbers of all patterns that match the text, in order. For many texts, [`matches_into`](Self::matches_into)
    /// fills one list again and again.
    ///
    /// ```
    /// use cadmiumdove::set::PatternSet;
    /// use cadmiumdove::MatchOptions;
    ///
    /// let set = PatternSet::from_texts(["*.rs", "*.c", "a*"], MatchOptions::new())?;
    /// assert_eq!(set.matches("a.rs"), [0, 2]);
    /// assert!(set.matches("b.h").is_empty());
    /// # Ok::<(), cadmiumdove::set::SetRefusal>(())
    /// ```
    ///
    /// <details><summary>Tested</summary>
    ///
    /// `sets` in `tests/sets.rs`, with the proved calls.
    ///
    /// </details>
    pub fn matches(&self, text: &str) -> Vec<usize> {
        let mut numbers = Vec::new();
        self.matches_into(text, &mut numbers);
        numbers
    }

    /// [`is_match`](Self::is_match) for the path's text. A path that is not UTF-8 is never matched.
    ///
    /// <details><summary>Tested</summary>
    ///
    /// `sets` and `a_set_matches_no_path_that_is_no_text` in `tests/sets.rs`.
    ///
    /// </details>
    pub fn is_match_path(&self, path: impl AsRef<Path>) -> bool {
        path.as_ref().to_str().is_some_and(|text| self.is_match(text))
    }

    /// [`first_match`](Self::first_match) for the path's text. A path that is not UTF-8 is never matched.
    ///
    /// <details><summary>Tested</summary>
    ///
    /// `sets` and `a_set_matches_no_path_that_is_no_text` in `tests/sets.rs`.
    ///
    /// </details>
    pub fn first_match_path(&self, path: impl AsRef<Path>) -> Option<usize> {
        self.first_match(path.as_ref().to_str()?)
    }

    /// [`last_match`](Self::last_match) for the path's text. A path that is not UTF-8 is never matched.
    ///
    /// <details><summary>Tested</summary>
    ///
    /// `sets` and `a_set_matches_no_path_that_is_no_text` in `tests/sets.rs`.
    ///
    /// </details>
    pub fn last_match_path(&self, path: impl AsRef<Path>) -> Option<usize> {
        self.last_match(path.as_ref().to_str()?)
    }

    /// [`matches`](Self::matches) for the path's text. A path that is not UTF-8 is never matched.
    ///
    /// ```
    /// use cadmiumdove::set::PatternSet;
    /// use cadmiumdove::MatchOptions;
    /// use std::path::PathBuf;
    ///
    /// let set = PatternSet::from_texts(["src/*", "*.rs"], MatchOptions::new())?;
    /// assert_eq!(set.matches_path(PathBuf::from("src/lib.rs")), [0, 1]);
    /// # Ok::<(), cadmiumdove::set::SetRefusal>(())
    /// ```
    ///
    /// <details><summary>Tested</summary>
    ///
    /// `sets` and `a_set_matches_no_path_that_is_no_text` in `tests/sets.rs`.
    ///
    /// </details>
    pub fn matches_path(&self, path: impl AsRef<Path>) -> Vec<usize> {
        path.as_ref().to_str().map(|text| self.matches(text)).unwrap_or_default()
    }

    /// [`matches_into`](Self::matches_into) for the path's text. A path that is not UTF-8 is never matched.
    ///
    /// <details><summary>Tested</summary>
    ///
    /// `sets` and `a_set_matches_no_path_that_is_no_text` in `tests/sets.rs`.
    ///
    /// </details>
    pub fn matches_path_into(&self, path: impl AsRef<Path>, numbers: &mut Vec<usize>) {
        numbers.clear();
        if let Some(text) = path.as_ref().to_str() {
            self.matches_into(text, numbers);
        }
    }
}

/// No patterns, under [`MatchOptions::new`]: nothing is matched.
///
/// ```
/// assert!(!cadmiumdove::set::PatternSet::default().is_match(""));
/// ```
impl Default for PatternSet {
    fn default() -> Self {
        PatternSet::new(Vec::new(), MatchOptions::new())
    }
}

impl SetRefusal {
    /// The number of the text that is not a pattern, counted from 0. [`source`](std::error::Error::source) has the
    /// fault without the number.
    ///
    /// ```
    /// use cadmiumdove::set::PatternSet;
    /// use cadmiumdove::MatchOptions;
    ///
    /// assert_eq!(PatternSet::from_texts(["a", "[", "***"], MatchOptions::new()).unwrap_err().number(), 1);
    /// ```
    ///
    /// <details><summary>Tested</summary>
    ///
    /// `lists_of_texts` in `tests/sets.rs`.
    ///
    /// </details>
    pub fn number(&self) -> usize {
        let SetRefusal::Syntax(number, _) = self;
        *number
    }
}

impl BraceSetRefusal {
    /// The number of the text that is refused, counted from 0. Alternatives are not counted.
    /// [`source`](std::error::Error::source) has the fault without the number.
    ///
    /// ```
    /// use cadmiumdove::set::PatternSet;
    /// use cadmiumdove::MatchOptions;
    ///
    /// assert_eq!(PatternSet::from_braces(["{a,b}", "{c,[}"], MatchOptions::new()).unwrap_err().number(), 1);
    /// ```
    ///
    /// <details><summary>Tested</summary>
    ///
    /// `lists_of_texts` in `tests/sets.rs`.
    ///
    /// </details>
    pub fn number(&self) -> usize {
        match self {
            BraceSetRefusal::Braces(number, _) | BraceSetRefusal::Pattern(number, _, _) => *number,
        }
    }
}

/// The texts, borrowed.
pub(crate) fn strs_of<T: AsRef<str>>(texts: &[T]) -> Vec<&str> {
    texts.iter().map(AsRef::as_ref).collect()
}
