//! Made by `bin/rust_crate` from `crates/glob_walk/src/ending.rt`, where its contracts are: sha256 b5d92708484c0ab0.
//!
//! How a walk ended.

use crate::proved::glob_walk::error::{GlobCause, GlobResult};

/// How a walk ended. Over a file `x`, `*` needs 3 units: it ends with `Done` at a limit of 3, and with `Limit` at a
/// limit of 2.
#[derive(Clone, Copy, Debug, PartialEq, Eq)]
pub enum End {
    /// The next unit of work did not fit the limit.
    Limit,
}

/// How a walk ended if this item ended it: `None` for a path and for a directory that could not be listed, and
/// `End::Limit` for an error with the cause `Limit`.
pub fn end_of(item: &GlobResult) -> Option<End> {
    match item {
        Ok(_) => None,
        Err(e) => match e.reason() {
            GlobCause::Read => None,
            GlobCause::Limit => Some(End::Limit),
        },
    }
}
