//! Made by `bin/rust_crate` from `crates/glob_walk/src/query.rt`, where its contracts are: sha256 315e1704d88f0e7c.
//!
//! A question of a walk, from when it is charged until it is answered.

use crate::proved::glob_walk::task::Accepted;

/// A question that was charged and waits for its answer.
pub struct Query {
    /// The path that it is about, as the walk gives it.
    pub path: String,
    /// The index of the component with which the walk goes on there.
    pub component: usize,
    /// What is asked of the path.
    pub kind: QueryKind,
}

/// What is asked of a path.
#[derive(Clone, Copy)]
pub enum QueryKind {
    /// What it leads to, and which answers let the walk go on.
    Look(Accepted),
    /// The entries of the directory that it leads to.
    List {
        /// Whether the listing is for `**`, rather than for a component with wildcards.
        recursive: bool,
        /// Whether the kinds of the entries are asked for, rather than only their names.
        kinds: bool,
    },
}
