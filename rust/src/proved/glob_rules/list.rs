//! Made by `bin/rust_crate` from `crates/glob_rules/src/list.rt`, where its contracts are: sha256 f01ad781cc544f1d.
//! Not derived there: `IgnoreList`.
//!
//! Ignore lists: which paths they ignore, and by which rule.

use crate::proved::glob_pattern::MatchOptions;
use crate::proved::glob_rules::error::RuleRefusal;
use crate::proved::glob_rules::rule::Rule;
use crate::proved::glob_rules::rules::Rules;
use crate::proved::glob_set::PatternSet;

/// The rules of one ignore file, as gitignore(5) has them, for the paths below its directory.
///
/// ```text
/// let list = IgnoreList::new("*.o\ntarget/\n!keep.o\n")?;
/// list.is_ignored("src/a.o", false)         // true
/// list.is_ignored("src/keep.o", false)      // false
/// list.is_ignored("target", false)          // false
/// list.is_ignored("target/keep.o", false)   // true
/// ```
///
/// Paths are relative to the list's directory. They have `/` between names, and none at the start or the end.
///
/// ```
/// use cadmiumdove::ignore::IgnoreList;
///
/// let list = IgnoreList::new("*.o\n!keep.o\n/target/\n")?;
/// assert!(list.is_ignored("src/a.o", false) && !list.is_ignored("keep.o", false));
/// assert!(list.is_ignored("target/debug/a.rs", false) && !list.is_ignored("src/target", true));
/// # Ok::<(), cadmiumdove::ignore::RuleRefusal>(())
/// ```
#[derive(Clone)]
pub struct IgnoreList {
    rules: Vec<Rule>,
    // the patterns of the rules, in their order
    set: PatternSet,
}

impl IgnoreList {
    /// Parses a text, with one rule per line. Comments, blank lines and lines that can match nothing give no rule.
    ///
    /// ```
    /// use cadmiumdove::ignore::{IgnoreList, Reason, RuleRefusal};
    ///
    /// assert!(IgnoreList::new("# nothing\n\n*.o\n").is_ok());
    /// assert_eq!(IgnoreList::new("*.o\n[é]\n").unwrap_err(), RuleRefusal::Line(2, Reason::BeyondAscii));
    /// ```
    ///
    /// # Errors
    ///
    /// The error is [`Line`](RuleRefusal::Line) for the first refused line.
    ///
    /// <details><summary>Contract</summary>
    ///
    /// ```text
    /// ensures rules { IfOk result (λ list. list ≡ rules_of text.now) }
    /// ensures taken { IfOk result (λ _. AreTaken text.now) }
    /// ensures refused { IfErr result (RefusesText text.now) }
    /// ```
    ///
    /// </details>
    pub fn new(text: &str) -> Result<Self, RuleRefusal> {
        let (list, refusals) = Self::lenient(text);
        match refusals.into_iter().next() {
            Some(refusal) => Err(refusal),
            None => Ok(list),
        }
    }

    /// Parses a text that somebody else wrote: skips the refused lines, and returns why each was refused. The other
    /// lines keep their numbers: in `*.o`, `[é]` and `target/`, the last is line 3.
    ///
    /// All refusals are [`Line`](RuleRefusal::Line), in the order of the lines.
    ///
    /// <details><summary>Contract</summary>
    ///
    /// ```text
    /// ensures rules { IfOk result (λ read. read.0 ≡ rules_of text.now) }
    /// ensures refusals { IfOk result (λ read. read.1.items ≡ refusals_of text.now) }
    /// ```
    ///
    /// </details>
    #[must_use]
    pub fn lenient(text: &str) -> (Self, Vec<RuleRefusal>) {
        let (_, rules, patterns, refusals) = Rules::read(text).into_parts();
        let set = PatternSet::new(patterns, rule_options());
        (IgnoreList { rules, set }, refusals)
    }

    /// Whether the list ignores a path. `is_directory` says whether the path is a directory, which a symbolic link is
    /// not. A path in an ignored directory is ignored: with `a/` and `!a/b`, so is `a/b`. Otherwise the last rule that
    /// matches the path decides.
    ///
    /// ```
    /// use cadmiumdove::ignore::IgnoreList;
    ///
    /// let list = IgnoreList::new("target/\n")?;
    /// assert!(list.is_ignored("target", true) && list.is_ignored("target/a.rs", false));
    /// assert!(!list.is_ignored("target", false));
    /// # Ok::<(), cadmiumdove::ignore::RuleRefusal>(())
    /// ```
    ///
    /// <details><summary>Contract</summary>
    ///
    /// ```text
    /// ensures answer { IfOk result (λ yes. yes ≡ is_ignored self.now path.now is_directory) }
    /// ```
    ///
    /// </details>
    #[must_use]
    pub fn is_ignored(&self, path: &str, is_directory: bool) -> bool {
        let decides = self.deciding(path, is_directory);
        self.ignores(decides)
    }

    /// The rule that decides whether the list ignores a path, or `None` if no rule matches it. With `a/` and `!a/b`,
    /// line 1 decides about `a/b`.
    ///
    /// ```
    /// use cadmiumdove::ignore::IgnoreList;
    ///
    /// let list = IgnoreList::new("*.o\n!keep.o\n")?;
    /// assert!(list.deciding_rule("keep.o", false).is_some_and(|rule| rule.line == 2 && rule.negative));
    /// assert_eq!(list.deciding_rule("a.rs", false), None);
    /// # Ok::<(), cadmiumdove::ignore::RuleRefusal>(())
    /// ```
    ///
    /// <details><summary>Contract</summary>
    ///
    /// ```text
    /// ensures rule { IfOk result
    ///     (λ rule. rule ≡ deciding_rule self.now path.now is_directory) }
    /// ```
    ///
    /// </details>
    #[must_use]
    pub fn deciding_rule(&self, path: &str, is_directory: bool) -> Option<Rule> {
        match self.deciding(path, is_directory) {
            Some(number) => Some(self.rules[number]),
            None => None,
        }
    }

    /// The last rule that matches the path itself, whatever the list says about the directories above it, or `None` if
    /// no rule does: with `a/` and `!a/b`, it is line 2 for `a/b`. A search that enters no ignored directory needs
    /// nothing more.
    ///
    /// ```
    /// use cadmiumdove::ignore::IgnoreList;
    ///
    /// let list = IgnoreList::new("target/\n")?;
    /// assert_eq!(list.naming_rule("target", true).map(|rule| rule.line), Some(1));
    /// assert_eq!(list.naming_rule("target/a.rs", false), None);
    /// # Ok::<(), cadmiumdove::ignore::RuleRefusal>(())
    /// ```
    ///
    /// <details><summary>Contract</summary>
    ///
    /// ```text
    /// ensures rule { IfOk result
    ///     (λ rule. rule ≡ naming_rule self.now path.now is_directory) }
    /// ```
    ///
    /// </details>
    #[must_use]
    pub fn naming_rule(&self, path: &str, is_directory: bool) -> Option<Rule> {
        match self.last_naming(path, is_directory) {
            Some(number) => Some(self.rules[number]),
            None => None,
        }
    }

    /// The number of the rule that decides, counted from 0.
    fn deciding(&self, path: &str, is_directory: bool) -> Option<usize> {
        let bytes = path.as_bytes();
        for place in 0..bytes.len() {
            if bytes[place] == b'/' {
                let above = self.last_naming(&path[..place], true);
                if self.ignores(above) {
                    return above;
                }
            }
        }
        self.last_naming(path, is_directory)
    }

    /// Whether there is a rule, and it is not negative.
    fn ignores(&self, number: Option<usize>) -> bool {
        match number {
            Some(number) => !self.rules[number].negative,
            None => false,
        }
    }

    /// The number of the last rule that matches a path.
    fn last_naming(&self, path: &str, is_directory: bool) -> Option<usize> {
        match self.set.last_match(path) {
            Some(number) => self.last_naming_below(path, is_directory, number + 1),
            None => None,
        }
    }

    /// The number of the last rule below `end` that matches a path.
    fn last_naming_below(&self, path: &str, is_directory: bool, end: usize) -> Option<usize> {
        let mut left = end;
        while left > 0 {
            left -= 1;
            if self.names(left, path, is_directory) {
                return Some(left);
            }
        }
        None
    }

    /// Whether rule `number` matches a path.
    fn names(&self, number: usize, path: &str, is_directory: bool) -> bool {
        if self.rules[number].directories && !is_directory {
            return false;
        }
        self.set.patterns()[number].matches_with(path, rule_options())
    }
}

/// The options by which a rule's pattern matches: case-sensitive, with the separator rule, and without the dot rule.
fn rule_options() -> MatchOptions {
    MatchOptions { require_literal_separator: true, ..MatchOptions::new() }
}
