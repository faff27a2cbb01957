//! Made by `bin/rust_crate` from `crates/glob_search/src/way.rt`, where its contracts are: sha256 35ab7586052b983b.
//!
//! The way down to where a search is, and what it does next.

use crate::proved::glob_search::frame::{Frame, Opening};
use crate::proved::glob_tree::Entry;

/// What a search does next.
pub enum Work {
    /// It enters a directory.
    Enter(Opening),
    /// It reads, in the last directory, the ignore file with the name at this index.
    Read(usize),
    /// It meets an entry of the last directory.
    Meet(Entry),
    /// It has left a directory. This many of the lists in `ActiveRules::files` still apply.
    Leave(usize),
}

/// The directories on the way down, and the one that is entered next.
pub struct Way {
    pub entering: Option<Opening>,
    pub frames: Vec<Frame>,
}

impl Way {
    /// What the search does next, given the names of ignore files. `None` if nothing is left.
    pub fn next(&mut self, names: &[String]) -> Option<Work> {
        if let Some(opening) = self.entering.take() {
            return Some(Work::Enter(opening));
        }
        let frame = self.frames.last_mut()?;
        if let Some(number) = frame.next_file(names) {
            return Some(Work::Read(number));
        }
        if let Some(entry) = frame.entries.pop() {
            return Some(Work::Meet(entry));
        }
        let frame = self.frames.pop()?;
        Some(Work::Leave(frame.active))
    }

    /// Enters a directory next, if `enters` says so.
    pub fn enter_if(&mut self, enters: bool, path: &String, alive: Vec<usize>) {
        if enters {
            let path = path.clone();
            self.entering = Some(Opening { path, alive });
        }
    }
}
