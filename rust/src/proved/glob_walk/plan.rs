//! Made by `bin/rust_crate` from `crates/glob_walk/src/plan.rt`, where its contracts are: sha256 171b0e413f1f6e1a.
//!
//! What a walk looks for.
//!
//! A plan is a pattern read once, before the walk: its components in order, each with its kind, the options, and
//! whether only directories are given. Adjacent `**` mean the same as one of them, and are read as one. A plan does not
//! change during the walk.

use crate::proved::glob_pattern::{MatchOptions, PatternError};
use crate::proved::glob_tree::begins_with_dot;
use crate::proved::glob_walk::component::{is_recursive, Component};

/// What a walk looks for: the components of a pattern, in order.
pub struct Plan {
    /// The components. None has a separator in it, and no two adjacent ones are `**`.
    pub components: Vec<Component>,
    /// How names are matched.
    pub options: MatchOptions,
    /// Whether it starts at the root, instead of in the current directory.
    pub rooted: bool,
    /// Whether only directories are given.
    pub directories: bool,
}

impl Plan {
    /// Reads a pattern. The error is the fault of the whole text or, if that has none, of the first component that has
    /// one.
    pub fn read(pattern: &str, options: MatchOptions) -> Result<Self, PatternError> {
        // The whole text comes first, so that the place of its fault is counted from the start of the pattern.
        Component::check(pattern)?;
        let components = read_components(past_root(pattern))?;
        Ok(Plan {
            components,
            options,
            rooted: begins_with_separator(pattern),
            directories: ends_in_separator(pattern),
        })
    }

    /// The path at which the walk starts: the root, or the current directory.
    pub fn start(&self) -> &'static str {
        if self.rooted {
            "/"
        } else {
            "."
        }
    }

    /// The component of this number, counted from 0; `None` past the last.
    pub fn component(&self, number: usize) -> Option<&Component> {
        self.components.get(number)
    }

    /// Whether the component of this number begins with a dot.
    pub fn is_dotted(&self, number: usize) -> bool {
        match self.component(number) {
            Some(component) => begins_with_dot(component.as_str()),
            None => false,
        }
    }

    /// Whether the kinds of a directory's entries matter for the component with this number, which is `**` or has
    /// wildcards. They do not matter if it is the last component, is not `**`, and files are wanted too.
    pub fn needs_kinds(&self, number: usize, recursive: bool) -> bool {
        recursive || self.directories || number + 1 < self.components.len()
    }
}

/// Reads the components of a text, which are the parts between separators. A `**` right after a `**` is left out.
fn read_components(text: &str) -> Result<Vec<Component>, PatternError> {
    let mut components = Vec::new();
    let mut after_recursive = false;
    for piece in text.split('/') {
        if after_recursive && is_recursive(piece) {
            continue;
        }
        let component = Component::read(piece)?;
        after_recursive = component.is_recursive();
        components.push(component);
    }
    Ok(components)
}

/// The text of the components: the pattern without a separator at its start and without one at its end.
pub fn past_root(pattern: &str) -> &str {
    without_end(pattern.strip_prefix('/').unwrap_or(pattern))
}

/// Whether the first character is a separator.
fn begins_with_separator(text: &str) -> bool {
    text.starts_with('/')
}

/// Whether the last character is a separator.
fn ends_in_separator(text: &str) -> bool {
    text.ends_with('/')
}

/// The text without one separator at its end.
fn without_end(text: &str) -> &str {
    text.strip_suffix('/').unwrap_or(text)
}
