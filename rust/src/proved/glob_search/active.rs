//! Made by `bin/rust_crate` from `crates/glob_search/src/active.rt`, where its contracts are: sha256 ad9e321bf564a7ca.
//!
//! The ignore rules that are active in a directory: those that may name a path in it.

use crate::proved::glob_rules::{IgnoreList, Rule};
use crate::proved::glob_search::outer::{last_outer, OuterRules};

/// The rules of a file, for the paths below its directory.
pub struct FileRules {
    /// How many bytes at the start of a path the rules do not see.
    pub above: usize,
    pub list: IgnoreList,
}

/// The rules that apply. The last list with a rule that names the path decides, but the lists in `first` override the
/// lists of files, which override the lists in `last`.
pub struct ActiveRules {
    pub first: Vec<FileRules>,
    /// The lists of files, the outermost directory first.
    pub files: Vec<FileRules>,
    pub last: Vec<OuterRules>,
}

impl ActiveRules {
    /// The lists that are asked before the lists of files, for paths from the start directory on, and the lists that
    /// are asked after them.
    pub fn of_lists(first: Vec<IgnoreList>, last: Vec<OuterRules>) -> Self {
        ActiveRules { first: from_start(first), files: Vec::new(), last }
    }

    /// Whether the deciding rule ignores the path. The directories above it are not checked: they were checked when they
    /// were entered.
    pub fn ignores(&self, path: &str, is_dir: bool) -> bool {
        if let Some((_, rule)) = last_naming(self.first.as_slice(), path, is_dir) {
            return !rule.negative;
        }
        if let Some((_, rule)) = last_naming(self.files.as_slice(), path, is_dir) {
            return !rule.negative;
        }
        match last_outer(self.last.as_slice(), path, is_dir) {
            Some((_, rule)) => !rule.negative,
            None => false,
        }
    }
}

/// The lists, as rules for paths from the start directory on.
fn from_start(lists: Vec<IgnoreList>) -> Vec<FileRules> {
    let mut rules = Vec::new();
    for list in lists {
        rules.push(FileRules { above: 0, list });
    }
    rules
}

/// The last of some lists with a rule that names the path: its number, and its last such rule.
pub fn last_naming(rules: &[FileRules], path: &str, is_dir: bool) -> Option<(usize, Rule)> {
    let mut left = rules.len();
    while left > 0 {
        left -= 1;
        let file = &rules[left];
        let below = below(path, file.above);
        if let Some(rule) = file.list.naming_rule(below, is_dir) {
            return Some((left, rule));
        }
    }
    None
}

/// The path without its first `above` bytes; all of it if they end within a character.
fn below(path: &str, above: usize) -> &str {
    match path.split_at_checked(above) {
        Some((_, rest)) => rest,
        None => path,
    }
}
