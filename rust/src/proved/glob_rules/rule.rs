//! Made by `bin/rust_crate` from `crates/glob_rules/src/rule.rt`, where its contracts are: sha256 f07b6e94ca55f860.
//!
//! Rules of an ignore list.

/// A rule of an ignore list, without its pattern. The line `!*.o/` has a negative rule that is for directories only.
///
/// ```
/// use cadmiumdove::ignore::{IgnoreList, Rule};
///
/// let list = IgnoreList::new("*.o\n!*.o/\n")?;
/// let rule = Rule { line: 2, negative: true, directories: true };
/// assert_eq!(list.deciding_rule("a.o", true), Some(rule));
/// # Ok::<(), cadmiumdove::ignore::RuleRefusal>(())
/// ```
#[derive(Clone, Copy, Debug, PartialEq, Eq)]
pub struct Rule {
    /// The number of its line in the list, counted from 1. It stops at `usize::MAX`.
    pub line: usize,
    /// Whether it begins with `!`, and so re-includes what an earlier rule ignores.
    pub negative: bool,
    /// Whether it ends in `/`, and so matches only directories.
    pub directories: bool,
}
