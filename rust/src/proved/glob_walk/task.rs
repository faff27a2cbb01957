//! Made by `bin/rust_crate` from `crates/glob_walk/src/task.rt`, where its contracts are: sha256 e7581423fc426549.
//!
//! What a walk does next: a path, and the index of the component from which it goes on there.

use crate::proved::glob_tree::Look;

/// Which answers to a look let the walk go on at the path.
#[derive(Clone, Copy)]
pub enum Accepted {
    /// All of them.
    Any,
    /// `Dir` and `Other`: something is there.
    Present,
    /// None of them. The path is still looked up, so that `.` and `..` cost the same in the written listing after a
    /// directory and after a file.
    Nothing,
}

/// What is known about a task's path. It decides what the task is: to ask for a look, or to go on at the path.
#[derive(Clone, Copy)]
pub enum TaskState {
    /// Nothing: look it up.
    Unseen(Accepted),
    /// It is there, and this is whether it is a directory: enter it, or give it.
    Seen(bool),
}

/// One thing to do: a path, and the number of the component with which the walk goes on there. After the last component
/// the path is given.
pub struct Task {
    /// The path, as the walk gives it.
    pub path: String,
    /// The index of the component.
    pub component: usize,
    /// What is known about the path.
    pub state: TaskState,
}

impl Accepted {
    /// Which looks are accepted for a literal component below a path: `.` and `..` are there exactly when the path is a
    /// directory, whatever the look returns.
    pub fn of_literal(is_current_or_parent: bool, is_dir: bool) -> Accepted {
        if !is_current_or_parent {
            Accepted::Present
        } else if is_dir {
            Accepted::Any
        } else {
            Accepted::Nothing
        }
    }

    /// Whether the walk goes on after this look.
    pub fn accepts(self, seen: Look) -> bool {
        match self {
            Accepted::Any => true,
            Accepted::Present => match seen {
                Look::Missing => false,
                Look::Dir | Look::Other => true,
            },
            Accepted::Nothing => false,
        }
    }
}

/// The task after a look: to go on at the path with the same component, or none if the look is not accepted.
pub fn task_after_look(path: String, component: usize, accepted: Accepted, seen: Look) -> Option<Task> {
    if !accepted.accepts(seen) {
        return None;
    }
    let state = TaskState::Seen(seen.is_dir());
    Some(Task { path, component, state })
}
