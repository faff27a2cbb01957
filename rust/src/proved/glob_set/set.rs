//! Made by `bin/rust_crate` from `crates/glob_set/src/set.rt`, where its contracts are: sha256 f7aab1bfe8aa2df1.
//! Not derived there: `PatternSet`.
//! `of_texts` is there `from_texts`: by hand it takes all kinds of lists.
//! `of_braces` is there `from_braces`: by hand it takes all kinds of lists.
//!
//! Sets of patterns: which of them match a text.

mod asking;

use crate::proved::glob_pattern::{MatchOptions, Pattern};
use crate::proved::glob_set::buckets::Buckets;
use crate::proved::glob_set::error::{BraceSetRefusal, SetRefusal};
use crate::proved::glob_set::found::Found;
use crate::proved::glob_set::keyed::{slots_for, Keyed};
use crate::proved::glob_set::needs::needs_of;
use crate::proved::glob_set::pairs::Need;
use crate::proved::glob_set::rarest::keys_of;
use crate::proved::glob_set::reading::{read_braces, read_patterns};
use asking::{bits_for, earlier, later};

/// A list of patterns and the options that they match by. The set reports patterns by their **numbers**, counted from
/// 0. It rejects most patterns without trying them, because the text lacks bytes that every match has. A large set
/// looks up the text's components, their beginnings and the text's ending in a table, and so finds the patterns in
/// which one of these is rare. No clause says how many patterns are tried.
///
/// ```text
/// let ignored = PatternSet::from_texts(&["**/*.o", "**/target/**"], options)?;
/// ignored.first_match("src/a.o")    // Some(0)
/// ignored.is_match("src/a.rs")      // false
/// ```
///
/// ```
/// use cadmiumdove::set::PatternSet;
/// use cadmiumdove::MatchOptions;
///
/// let set = PatternSet::from_texts(["*.o", "target/**", "*.a"], MatchOptions::new())?;
/// assert!(set.is_match("src/a.o") && !set.is_match("src/a.rs"));
/// assert_eq!(set.matches("target/lib.a"), [1, 2]);
/// # Ok::<(), cadmiumdove::set::SetRefusal>(())
/// ```
#[derive(Clone)]
pub struct PatternSet {
    patterns: Vec<Pattern>,
    // for each pattern, what all texts have that it matches
    needs: Vec<Need>,
    // the patterns that are found by a key
    keyed: Keyed,
    // the numbers of the other patterns, by the class of the texts that they may match
    buckets: Buckets,

    options: MatchOptions,
}

impl PatternSet {
    /// The patterns in order, number 0 first.
    ///
    /// <details><summary>Contract</summary>
    ///
    /// ```text
    /// ensures { result.now ≡ self.now.patterns }
    /// ```
    ///
    /// </details>
    #[must_use]
    pub fn patterns(&self) -> &[Pattern] {
        self.patterns.as_slice()
    }

    /// The options that the patterns match by.
    ///
    /// <details><summary>Contract</summary>
    ///
    /// ```text
    /// ensures { result ≡ self.now.options }
    /// ```
    ///
    /// </details>
    #[must_use]
    pub fn options(&self) -> MatchOptions {
        self.options
    }

    /// The number of patterns: 2 for `*.o` and `target/**`.
    ///
    /// <details><summary>Contract</summary>
    ///
    /// ```text
    /// ensures { result ≡ length self.now.patterns }
    /// ```
    ///
    /// </details>
    #[must_use]
    pub fn len(&self) -> usize {
        self.patterns.len()
    }

    /// Whether the set has no patterns, and so matches nothing.
    ///
    /// <details><summary>Contract</summary>
    ///
    /// ```text
    /// ensures { IsTrue result ↔ (length self.now.patterns ≡ 0) }
    /// ```
    ///
    /// </details>
    #[must_use]
    pub fn is_empty(&self) -> bool {
        self.patterns.len() == 0
    }

    /// A set of these patterns, numbered in this order.
    ///
    /// ```
    /// use cadmiumdove::set::PatternSet;
    /// use cadmiumdove::{MatchOptions, Pattern};
    ///
    /// let set = PatternSet::new(vec![Pattern::new("*.o")?, Pattern::new("*.a")?], MatchOptions::new());
    /// assert_eq!(set.len(), 2);
    /// # Ok::<(), cadmiumdove::PatternError>(())
    /// ```
    ///
    /// <details><summary>Contract</summary>
    ///
    /// ```text
    /// ensures { IfOk result
    ///     (λ set. set ≡ record { patterns = patterns.items; options = options }) }
    /// ```
    ///
    /// </details>
    #[must_use]
    pub fn new(patterns: Vec<Pattern>, options: MatchOptions) -> Self {
        let needs = needs_of(patterns.as_slice());
        let keys = keys_of(patterns.as_slice());
        let buckets = Buckets::new(needs.as_slice(), keys.as_slice());
        let keyed = Keyed::new(keys, slots_for(patterns.len()));
        PatternSet { patterns, needs, keyed, buckets, options }
    }

    /// Parses the texts, such as `*.o` and `target/**`, and makes a set of the patterns, in this order.
    ///
    /// The error is [`Syntax`](SetRefusal::Syntax) with the number and the fault of the first text that is not
    /// accepted.
    pub(crate) fn of_texts(texts: &[&str], options: MatchOptions) -> Result<Self, SetRefusal> {
        let patterns = read_patterns(texts)?;
        Ok(Self::new(patterns, options))
    }

    /// Parses all alternatives of all texts, such as `src/*.{c,h}`, and makes a set of the patterns: text by text, each
    /// in the order of [`expand`](crate::proved::glob_set::braces::expand). The set matches a text exactly when an
    /// alternative of one of the texts does.
    ///
    /// The error is [`Braces`](BraceSetRefusal::Braces) or [`Pattern`](BraceSetRefusal::Pattern) for the first text
    /// with a fault.
    pub(crate) fn of_braces(texts: &[&str], options: MatchOptions) -> Result<Self, BraceSetRefusal> {
        let patterns = read_braces(texts)?;
        Ok(Self::new(patterns, options))
    }

    /// Whether a pattern of the set matches the text: for `*.o` and `target/**`, `a.o` is matched, and `a.rs` is not.
    ///
    /// ```
    /// use cadmiumdove::set::PatternSet;
    /// use cadmiumdove::MatchOptions;
    ///
    /// let set = PatternSet::from_texts(["*.o", "target/**"], MatchOptions::new())?;
    /// assert!(set.is_match("a.o") && set.is_match("target/x") && !set.is_match("a.rs"));
    /// # Ok::<(), cadmiumdove::set::SetRefusal>(())
    /// ```
    ///
    /// <details><summary>Contract</summary>
    ///
    /// ```text
    /// ensures answer { IfOk result
    ///     (λ yes. IsTrue yes ↔ AnyMatch self.now.options self.now.patterns text.now) }
    /// ```
    ///
    /// </details>
    #[must_use]
    pub fn is_match(&self, text: &str) -> bool {
        self.first_match(text).is_some()
    }

    /// The number of the first pattern that matches the text, or `None`. For `a*` and `*b` it is 0 for `ab` and 1 for
    /// `b`.
    ///
    /// ```
    /// use cadmiumdove::set::PatternSet;
    /// use cadmiumdove::MatchOptions;
    ///
    /// let set = PatternSet::from_texts(["*.rs", "src/*"], MatchOptions::new())?;
    /// assert_eq!((set.first_match("src/a.rs"), set.last_match("src/a.rs")), (Some(0), Some(1)));
    /// assert_eq!(set.first_match("a.c"), None);
    /// # Ok::<(), cadmiumdove::set::SetRefusal>(())
    /// ```
    ///
    /// <details><summary>Contract</summary>
    ///
    /// ```text
    /// ensures answer { IfOk result
    ///     (FirstMatch self.now.options self.now.patterns text.now) }
    /// ```
    ///
    /// </details>
    #[must_use]
    pub fn first_match(&self, text: &str) -> Option<usize> {
        let mut found = Found::new();
        let listed = self.listed_for(text, &mut found);
        let bits = bits_for(text, listed, found.numbers());
        let listed = self.first_of(listed, text, bits);
        let found = self.first_of(found.numbers(), text, bits);
        earlier(listed, found)
    }

    /// The number of the last pattern that matches the text, or `None`. For `a*` and `*b` it is 1 for `ab` and 0 for
    /// `a`.
    ///
    /// <details><summary>Contract</summary>
    ///
    /// ```text
    /// ensures answer { IfOk result
    ///     (LastMatch self.now.options self.now.patterns text.now) }
    /// ```
    ///
    /// </details>
    #[must_use]
    pub fn last_match(&self, text: &str) -> Option<usize> {
        let mut found = Found::new();
        let listed = self.listed_for(text, &mut found);
        let bits = bits_for(text, listed, found.numbers());
        let listed = self.last_of(listed, text, bits);
        let found = self.last_of(found.numbers(), text, bits);
        later(listed, found)
    }

    /// Replaces the content of `numbers` with the numbers of all patterns that match the text, in ascending order. For
    /// `a*` and `*b` these are 0 and 1 for `ab`, and none for `c`.
    ///
    /// ```
    /// use cadmiumdove::set::PatternSet;
    /// use cadmiumdove::MatchOptions;
    ///
    /// let set = PatternSet::from_texts(["*.rs", "src/*"], MatchOptions::new())?;
    /// let mut numbers = Vec::new();
    /// for (text, matched) in [("src/a.rs", &[0, 1][..]), ("a.rs", &[0]), ("a.c", &[])] {
    ///     set.matches_into(text, &mut numbers);
    ///     assert_eq!(numbers, matched);
    /// }
    /// # Ok::<(), cadmiumdove::set::SetRefusal>(())
    /// ```
    ///
    /// <details><summary>Contract</summary>
    ///
    /// ```text
    /// ensures all { OnOk result
    ///     (numbers.new.items ≡ all_matches self.now.options self.now.patterns text.now) }
    /// ```
    ///
    /// </details>
    pub fn matches_into(&self, text: &str, numbers: &mut Vec<usize>) {
        self.find_matches(text, numbers);

        // Patterns with a key come after the others, and twice if all patterns were asked.
        numbers.as_mut_slice().sort_unstable();
        numbers.dedup();
    }
}
