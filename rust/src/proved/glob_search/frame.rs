//! Made by `bin/rust_crate` from `crates/glob_search/src/frame.rt`, where its contracts are: sha256 943280b871bef755.
//!
//! A directory that a search is in, or enters next.

use crate::proved::glob_tree::Entry;

/// A directory that is to be entered.
pub struct Opening {
    pub path: String,
    /// The beginnings that are alive in it.
    pub alive: Vec<usize>,
}

/// How the entries of a directory are known.
#[derive(Clone, Copy, PartialEq, Eq)]
pub enum Source {
    /// Some names were looked up, and these exist. There may be others.
    LookedUp,
    /// All of them, with their kinds.
    Listed,
    /// All of them, without their kinds.
    Named,
}

/// A directory that was entered.
pub struct Frame {
    pub path: String,
    /// The beginnings that are alive in it.
    pub alive: Vec<usize>,
    pub source: Source,
    /// The entries that are still to be met, each name once, in descending order: the last is met first.
    pub entries: Vec<Entry>,
    /// How many names of ignore files are done: the file was read, or is known to be missing.
    pub files: usize,
    /// How many lists of `ActiveRules::files` were there when it was entered.
    pub active: usize,
}

impl Frame {
    /// The index of the next name of an ignore file that may exist in it. A later call goes on after it.
    pub fn next_file(&mut self, names: &[String]) -> Option<usize> {
        while self.files < names.len() {
            let number = self.files;
            self.files += 1;
            if self.may_have(names[number].as_str()) {
                return Some(number);
            }
        }
        None
    }

    /// Whether an entry of it is a directory, if that is known.
    pub fn kind_of(&self, entry: &Entry) -> Option<bool> {
        match self.source {
            Source::LookedUp | Source::Listed => Some(entry.is_dir),
            Source::Named => None,
        }
    }

    /// Whether the name may exist in it; if its names are known, whether the name is one of them.
    fn may_have(&self, name: &str) -> bool {
        match self.source {
            Source::LookedUp => true,
            Source::Listed | Source::Named => {
                self.entries.as_slice().binary_search_by(|entry| name.cmp(entry.name.as_str())).is_ok()
            }
        }
    }
}
