//! Made by `bin/rust_crate` from `crates/glob_walk/src/stack.rt`, where its contracts are: sha256 0767026304f42d0e.
//!
//! What a walk still has to do.
//!
//! Like the stack of `walkdir`, this one holds one directory for each level, with two differences. The next task is
//! kept apart, before the directories. And a directory with nothing left is not on the stack: its last step removes it,
//! with its names. In a directory listed for `**`, the last step enters the last entry. That comes after the entry was
//! met, so the directory stays on the stack while the components after `**` go on in the entry. So for a chain of
//! directories with one entry each, the stack holds at most one directory for each `**` and one more, not the whole
//! chain (no clause says this). With a plain pattern each directory is below the one before it, so over a content there
//! are at most as many as its longest key has names: the clause `few` of `WalkMachine::kept`.

use crate::proved::glob_walk::frame::Frame;
use crate::proved::glob_walk::plan::Plan;
use crate::proved::glob_walk::task::Task;

/// What a walk looks for, and what it still has to do: a task, if there is one, and then what is left in the
/// directories on its stack, from the last to the first.
pub struct Stack {
    /// What it looks for.
    pub plan: Plan,
    /// What to do before the directories go on.
    pub next: Option<Task>,
    /// The directories, each reached through the one before it. Each has something left.
    pub frames: Vec<Frame>,
}

impl Stack {
    /// Takes one step in the last directory, which may make a task, and removes the directory if this was its last
    /// step. Returns `false` if there is no directory. Each step lowers the weight, so steps come to an end.
    pub fn step(&mut self) -> bool {
        let Some(frame) = self.frames.last_mut() else {
            return false;
        };
        let task = frame.step(&self.plan);
        self.next = task;
        if frame.is_done() {
            self.frames.pop();
        }
        true
    }

    pub fn clear(&mut self) {
        self.next = None;
        self.frames = Vec::new();
    }

    /// Puts a directory on top, unless it has nothing left.
    pub fn open(&mut self, frame: Frame) {
        if frame.is_done() {
            return;
        }
        self.frames.push(frame);
    }
}
