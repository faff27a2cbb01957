//! `Debug` for types that lack it in the sources, without fields that would fill the screen.

use std::fmt;

use crate::ignore::IgnoreList;
use crate::set::PatternSet;
use crate::walk::{Answer, Step, WalkMachine};

impl fmt::Debug for WalkMachine {
    fn fmt(&self, f: &mut fmt::Formatter<'_>) -> fmt::Result {
        f.debug_struct("WalkMachine").field("path", &self.path()).field("spent", &self.spent()).finish_non_exhaustive()
    }
}

impl fmt::Debug for Step {
    fn fmt(&self, f: &mut fmt::Formatter<'_>) -> fmt::Result {
        match self {
            Step::Look => f.write_str("Look"),
            Step::List => f.write_str("List"),
            Step::ListNames => f.write_str("ListNames"),
            Step::Item(item) => f.debug_tuple("Item").field(item).finish(),
            Step::Done => f.write_str("Done"),
        }
    }
}

impl fmt::Debug for Answer {
    fn fmt(&self, f: &mut fmt::Formatter<'_>) -> fmt::Result {
        match self {
            Answer::Nothing => f.write_str("Nothing"),
            Answer::Look(look) => f.debug_tuple("Look").field(look).finish(),
            Answer::List(entries) => f.debug_tuple("List").field(entries).finish(),
        }
    }
}

impl fmt::Debug for PatternSet {
    fn fmt(&self, f: &mut fmt::Formatter<'_>) -> fmt::Result {
        f.debug_list().entries(self.patterns().iter().map(|pattern| pattern.as_str())).finish()
    }
}

impl fmt::Debug for IgnoreList {
    fn fmt(&self, f: &mut fmt::Formatter<'_>) -> fmt::Result {
        f.debug_struct("IgnoreList").finish_non_exhaustive()
    }
}
