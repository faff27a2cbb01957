//! Made by `bin/rust_crate` from `crates/glob_walk/src/frame/tasks.rt`, where its contracts are: sha256 f05be340e71321d2.
//!
//! The tasks that follow from a directory's entries, and from `.` and `..` in it.
//!
//! Each step makes at most one task, and builds a child's path only for its task.

use crate::proved::glob_pattern::{is_open, MatchOptions};
use crate::proved::glob_tree::{child, join, Entry};
use crate::proved::glob_walk::component::Component;
use crate::proved::glob_walk::frame::Frame;
use crate::proved::glob_walk::plan::Plan;
use crate::proved::glob_walk::task::{Accepted, Task, TaskState};

impl Frame {
    /// The look at `..` or `.` in the directory, if the component matches that name. The name is joined even to `.`:
    /// `./..`.
    pub(super) fn special_task(&self, plan: &Plan, name: &str) -> Option<Task> {
        let Some(component) = plan.component(self.component) else {
            return None;
        };
        if !component.matches(name, plan.options) {
            return None;
        }
        Some(Task {
            path: join(self.path.as_str(), name),
            component: self.component + 1,
            state: TaskState::Unseen(Accepted::Any),
        })
    }

    /// The task that goes on at an entry, if its name is met. The child's path is built only then.
    pub(super) fn met_task(&self, plan: &Plan, entry: &Entry) -> Option<Task> {
        let name = entry.name.as_str();
        let met = meet(plan, self.recursive, self.component, name, entry.is_dir);
        let Some(component) = met else {
            return None;
        };
        Some(Task { path: child(self.path.as_str(), name), component, state: TaskState::Seen(entry.is_dir) })
    }

    /// The task that goes on with the same `**` in an entry, if the `**` enters it.
    pub(super) fn entered_task(&self, plan: &Plan, entry: &Entry) -> Option<Task> {
        let name = entry.name.as_str();
        if !self.recursive || !is_entered(plan.options, name, entry.is_dir) {
            return None;
        }
        Some(Task { path: child(self.path.as_str(), name), component: self.component, state: TaskState::Seen(true) })
    }
}

/// The number of the component with which the walk goes on at an entry, if the entry is met: by the component with this
/// number, or under `**` by the component after it. A `**` at the pattern's end meets each entry that it enters.
fn meet(plan: &Plan, recursive: bool, number: usize, name: &str, is_dir: bool) -> Option<usize> {
    let next = if recursive { number + 1 } else { number };
    match plan.component(next) {
        Some(component) => match_at(plan, component, next + 1, name),
        None if is_entered(plan.options, name, is_dir) => Some(next),
        None => None,
    }
}

/// `next`, if the component matches the name.
fn match_at(plan: &Plan, component: &Component, next: usize, name: &str) -> Option<usize> {
    if component.matches(name, plan.options) {
        Some(next)
    } else {
        None
    }
}

/// Whether `**` enters an entry: a directory whose name the dot rule lets it take.
fn is_entered(options: MatchOptions, name: &str, is_dir: bool) -> bool {
    is_dir && is_open(options, name)
}
