//! Made by `bin/rust_crate` from `crates/glob_pattern/src/pattern/compare.rt`, where its contracts are: sha256 0452128af9f558f8.
//!
//! Patterns are compared, hashed and printed as their texts.

use crate::proved::glob_pattern::pattern::Pattern;
use std::cmp::Ordering;
use std::hash::{Hash, Hasher};

impl PartialEq for Pattern {
    fn eq(&self, other: &Self) -> bool {
        self.as_str() == other.as_str()
    }
}

impl Eq for Pattern {}

impl PartialOrd for Pattern {
    fn partial_cmp(&self, other: &Self) -> Option<Ordering> {
        Some(self.cmp(other))
    }
}

impl Ord for Pattern {
    fn cmp(&self, other: &Self) -> Ordering {
        self.as_str().cmp(other.as_str())
    }
}

impl Hash for Pattern {
    fn hash<H: Hasher>(&self, state: &mut H) {
        self.as_str().hash(state);
    }
}
