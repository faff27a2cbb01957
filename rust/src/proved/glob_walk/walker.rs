//! Made by `bin/rust_crate` from `crates/glob_walk/src/walker.rt`, where its contracts are: sha256 3bd9b328caeec289.
//!
//! The turns of a walk.
//!
//! A walk has a [`Stack`]: at most one [`Task`], and below it the directories that it is in, one [`Frame`] each. A turn
//! does the task: it asks for a look at one path or for the listing of one directory, or gives one path. Without a
//! task, a turn takes one step in the directory on top, which may make the next task. The [`Meter`] is charged before a
//! turn asks anything. A task that asks is replaced by a [`Query`], which is open until it is answered; turns are taken
//! only while none is open.
//!
//! Nothing here reads a file: the caller answers. And nothing is recursive: a walk is a loop of turns. It reaches a
//! question or an item, because a turn with neither lowers the weight of the stack.
//!
//! ```text
//! proceed               takes an answer, goes on to the next question or item, and clears a walk that is over
//!   take_turns
//!     take_answer       take_look: the task that follows
//!                       take_listing, enter_listed: a frame more
//!     turns             until there is a question or an item
//!       turn            a task: look, or enter, which may list or give a path
//!                       none: Stack::step, to the next task
//! ```
//!
//! The written listing says what a walk does, mark by mark. All methods of [`Walker`] have one contract, `TurnsTo`:
//! what was left of the listing before a turn begins with what the turn charged and gave, and continues with what is
//! left after it. After a turn without a [`Step`] the walk just goes on.

use crate::proved::glob_tree::{child, Entry, Look};
use crate::proved::glob_walk::component::{is_current_or_parent, Component};
use crate::proved::glob_walk::frame::{Cursor, Frame};
use crate::proved::glob_walk::machine::{Answer, Step};
use crate::proved::glob_walk::meter::{sort_entries, Meter};
use crate::proved::glob_walk::query::{Query, QueryKind};
use crate::proved::glob_walk::stack::Stack;
use crate::proved::glob_walk::task::{task_after_look, Accepted, Task, TaskState};
use std::io;

/// A limit, and what a walk still has to do.
pub struct Walker {
    pub meter: Meter,
    /// The open question. The stack waits until it is answered.
    pub query: Option<Query>,
    pub stack: Stack,
}

impl Walker {
    /// Asks for a look at a path, for one unit.
    fn look(&mut self, path: String, component: usize, accepted: Accepted) -> Step {
        if !self.meter.charge() {
            return Step::limit(path);
        }
        self.ask(Query { path, component, kind: QueryKind::Look(accepted) })
    }

    /// Asks for the listing of a directory, for one unit. The component is `**` or has wildcards. If the kinds of the
    /// entries do not matter, only the names are asked for.
    fn list(&mut self, path: String, component: usize, recursive: bool) -> Step {
        if !self.meter.charge() {
            return Step::limit(path);
        }
        let kinds = self.stack.plan.needs_kinds(component, recursive);
        self.ask(Query { path, component, kind: QueryKind::List { recursive, kinds } })
    }

    /// Charges the entries of a listed directory, and puts it on the stack with its first cursor. If only the names
    /// were asked for, the kinds are not used.
    fn enter_listed(
        &mut self,
        path: String,
        component: usize,
        recursive: bool,
        mut entries: Vec<Entry>,
    ) -> Option<Step> {
        if !self.meter.charge_entries(entries.len()) {
            return Some(Step::limit(path));
        }
        sort_entries(&mut entries);
        // Start before `..` if the component begins with a dot; `**` never does.
        let cursor = if self.stack.plan.is_dotted(component) { Cursor::Parent } else { Cursor::At(0) };
        self.stack.open(Frame { path, component, recursive, entries, cursor });
        None
    }

    /// Goes on at an existing path with the components from this number on. If none is left, the path is given: always
    /// for a directory, and for anything else unless the pattern ends in a separator. A literal component is joined to
    /// the path, and the next task is to look up the result. For `**` and for a component with wildcards, a directory
    /// is listed; for anything else nothing follows.
    fn enter(&mut self, path: String, number: usize, is_dir: bool) -> Option<Step> {
        let plan = &self.stack.plan;
        let Some(component) = plan.component(number) else {
            if is_dir || !plan.directories {
                return Some(Step::found(path));
            }
            return None;
        };
        if component.is_literal() {
            let path = path.as_str();
            let task = literal_task(component, path, number, is_dir);
            self.stack.next = Some(task);
            return None;
        }
        if !is_dir {
            return None;
        }
        let recursive = component.is_recursive();
        Some(self.list(path, number, recursive))
    }

    /// One turn: does the task, if there is one, and otherwise takes one step in the directory on top. If there is no
    /// directory either, the walk is done. There is no recursion.
    fn turn(&mut self) -> Option<Step> {
        let Some(task) = self.stack.next.take() else {
            return match self.stack.step() {
                true => None,
                false => Some(Step::Done),
            };
        };
        let Task { path, component, state } = task;
        match state {
            TaskState::Unseen(accepted) => Some(self.look(path, component, accepted)),
            TaskState::Seen(is_dir) => self.enter(path, component, is_dir),
        }
    }

    /// Takes turns until there is a question or an item, or nothing is left.
    fn turns(&mut self) -> Step {
        loop {
            if let Some(step) = self.turn() {
                return step;
            }
        }
    }

    /// Takes the answer to the open question, if there is one. An answer to another question leaves it open: it is
    /// asked again, for no further unit.
    fn take_answer(&mut self, answer: Answer) -> Option<Step> {
        let query = self.query.take()?;
        match (query.kind, answer) {
            (QueryKind::Look(accepted), Answer::Look(seen)) => {
                self.take_look(query.path, query.component, accepted, seen)
            }
            (QueryKind::List { recursive, kinds: _ }, Answer::List(listed)) => {
                self.take_listing(query.path, query.component, recursive, listed)
            }
            _ => Some(self.ask(query)),
        }
    }

    /// Asks a question that was already charged.
    fn ask(&mut self, query: Query) -> Step {
        let step = Step::ask(query.kind);
        self.query = Some(query);
        step
    }

    /// Takes the answer to a look, and keeps the task that follows, if any.
    fn take_look(&mut self, path: String, component: usize, accepted: Accepted, answer: Look) -> Option<Step> {
        let seen = answer;
        self.stack.next = task_after_look(path, component, accepted, seen);
        None
    }

    /// Takes the answer to a listing.
    fn take_listing(
        &mut self,
        path: String,
        component: usize,
        recursive: bool,
        answer: Result<Vec<Entry>, io::Error>,
    ) -> Option<Step> {
        match answer {
            Ok(entries) => self.enter_listed(path, component, recursive, entries),
            Err(e) => Some(Step::unread(path, e)),
        }
    }

    /// Takes the answer to the open question, if there is one, and goes on to the next question or item.
    fn take_turns(&mut self, answer: Answer) -> Step {
        match self.take_answer(answer) {
            Some(step) => step,
            None => self.turns(),
        }
    }

    /// The step of [`take_turns`](Walker::take_turns). If no item can follow it, for example after a refusal, the stack
    /// is cleared, since callers may keep a finished walk for long.
    pub fn proceed(&mut self, answer: Answer) -> Step {
        let step = self.take_turns(answer);
        if step.is_last() {
            self.stack.clear();
        }
        step
    }
}

/// The task of a literal component at a path: to look up the path joined with the component. `.` and `..` exist only in
/// a directory; any other name exists if the look finds something.
fn literal_task(component: &Component, path: &str, number: usize, is_dir: bool) -> Task {
    let name = component.as_str();
    let accepted = Accepted::of_literal(is_current_or_parent(name), is_dir);
    Task { path: child(path, name), component: number + 1, state: TaskState::Unseen(accepted) }
}
