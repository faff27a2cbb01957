//! Made by `bin/rust_crate` from `crates/glob_walk/src/meter.rt`, where its contracts are: sha256 253693ca50eedf69.
//!
//! The limit of a walk, and what is charged against it.
//!
//! Each unit is charged before the question that it pays for, and a question that does not fit the limit is not asked.
//! Only the entries of a listing are charged afterwards, since they cannot be counted before that.

use crate::proved::glob_tree::Entry;

/// How many units of a limit were spent; never more than the limit.
#[derive(Clone, Copy)]
pub struct Meter {
    pub limit: u64,
    pub spent: u64,
}

impl Meter {
    /// Charges one unit, if one is left.
    pub fn charge(&mut self) -> bool {
        if self.spent >= self.limit {
            return false;
        }
        self.spent += 1;
        true
    }

    /// Charges one unit for each of `count` entries. If they do not fit the limit, all of it is spent.
    pub fn charge_entries(&mut self, count: usize) -> bool {
        let count = count as u64;
        if count > self.limit - self.spent {
            self.spent = self.limit;
            return false;
        }
        self.spent += count;
        true
    }
}

/// Sorts entries by the bytes of their names, in place.
pub fn sort_entries(entries: &mut Vec<Entry>) {
    entries.sort_unstable_by(|a, b| a.name.as_str().cmp(b.name.as_str()));
}
