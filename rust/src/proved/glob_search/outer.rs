//! Made by `bin/rust_crate` from `crates/glob_search/src/outer.rt`, where its contracts are: sha256 ba324290e9f09ca2.
//!
//! Ignore rules from the start and the directories above it.

use crate::proved::glob_rules::{IgnoreList, Rule};
use crate::proved::glob_tree::join;

/// A list of rules for the paths below its directory, which is the start or a directory above it.
pub struct OuterRules {
    /// The path of the start from that directory on, such as `src/bin`; empty if the directory is the start.
    pub prefix: String,
    pub list: IgnoreList,
}

impl OuterRules {
    /// A list of rules for the paths below the start.
    pub fn at_start(list: IgnoreList) -> Self {
        OuterRules { prefix: String::new(), list }
    }
}

/// The last of some lists with a rule that names a path below the start: its number, and its last such rule.
pub fn last_outer(lists: &[OuterRules], path: &str, is_dir: bool) -> Option<(usize, Rule)> {
    let mut left = lists.len();
    while left > 0 {
        left -= 1;
        if let Some(rule) = naming_below(&lists[left], path, is_dir) {
            return Some((left, rule));
        }
    }
    None
}

/// The last rule of a list that names a path below the start.
fn naming_below(outer: &OuterRules, path: &str, is_dir: bool) -> Option<Rule> {
    let prefix = outer.prefix.as_str();
    if prefix.is_empty() {
        return outer.list.naming_rule(path, is_dir);
    }
    let path = join(prefix, path);
    outer.list.naming_rule(path.as_str(), is_dir)
}

/// Whether the lists ignore a directory of this name that is directly in the start.
pub fn ignores_directory(lists: &[OuterRules], name: &str) -> bool {
    match last_outer(lists, name, true) {
        Some((_, rule)) => !rule.negative,
        None => false,
    }
}

/// The same lists, as seen from the directory with this name in the start.
pub fn entered(lists: Vec<OuterRules>, name: &str) -> Vec<OuterRules> {
    let mut deeper = Vec::new();
    for OuterRules { prefix, list } in lists {
        let prefix = join(prefix.as_str(), name);
        deeper.push(OuterRules { prefix, list });
    }
    deeper
}
