//! Made by `bin/rust_crate` from `crates/glob_walk/src/frame.rt`, where its contracts are: sha256 b8412476a71c166e.
//!
//! A directory that a walk is going through.
//!
//! A frame is what `walkdir` would call an open directory: its path, its entries, and how far the walk has come in it.
//! It is read from the tree once, as a whole. Each step moves the cursor once, and makes at most one task, so a child's
//! path is built only if the child is met or entered.
//!
//! Under `**` each entry takes two steps. First the component after the `**` meets the entry, or, at the pattern's end,
//! the entry is given. Then, if it is a directory, the `**` enters it.

mod tasks;

use crate::proved::glob_tree::Entry;
use crate::proved::glob_walk::plan::Plan;
use crate::proved::glob_walk::task::Task;

/// The position of a walk in a directory.
#[derive(Clone, Copy)]
pub enum Cursor {
    /// Before `..`, which a component that begins with a dot may match.
    Parent,
    /// Before `.`, after `..`.
    Current,
    /// Before the entry of this number.
    At(usize),
    /// Inside the entry of this number: the component has met it, and `**` still has to enter it.
    Inside(usize),
}

/// A directory that was listed, and how far the walk has come in it.
pub struct Frame {
    /// Its path.
    pub path: String,
    /// The number of the component that it was listed for. A component with wildcards is matched against the entries;
    /// for `**`, the component after it is matched.
    pub component: usize,
    /// Whether that component is `**`.
    pub recursive: bool,
    /// Its entries, in ascending order of names.
    pub entries: Vec<Entry>,
    /// How far the walk has come.
    pub cursor: Cursor,
}

impl Frame {
    /// Whether nothing is left in it: the cursor is past the last entry.
    pub fn is_done(&self) -> bool {
        match self.cursor {
            Cursor::Parent | Cursor::Current => false,
            Cursor::At(i) | Cursor::Inside(i) => self.entries.len() <= i,
        }
    }

    /// Moves the cursor one step, and returns the task that follows from where it was, if any. Each call leaves fewer
    /// steps: there are at most two for each entry, and one each for `..` and `.`.
    pub fn step(&mut self, plan: &Plan) -> Option<Task> {
        match self.cursor {
            Cursor::Parent => {
                self.cursor = Cursor::Current;
                self.special_task(plan, "..")
            }
            Cursor::Current => {
                self.cursor = Cursor::At(0);
                self.special_task(plan, ".")
            }
            Cursor::At(i) => {
                self.cursor = if self.recursive { Cursor::Inside(i) } else { Cursor::At(i + 1) };
                self.met_task(plan, &self.entries[i])
            }
            Cursor::Inside(i) => {
                self.cursor = Cursor::At(i + 1);
                self.entered_task(plan, &self.entries[i])
            }
        }
    }
}
