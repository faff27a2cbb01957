//! Made by `bin/rust_crate` from `crates/glob_walk/src/step.rt`, where its contracts are: sha256 f0143a234c79e65a.
//!
//! What a step of a walk returns.

use crate::proved::glob_walk::ending::end_of;
use crate::proved::glob_walk::error::GlobError;
use crate::proved::glob_walk::machine::Step;
use crate::proved::glob_walk::query::QueryKind;
use std::io;
use std::path::PathBuf;

impl Step {
    /// Asks for a look, or for a listing with the kinds of the entries or only their names.
    pub(crate) fn ask(kind: QueryKind) -> Self {
        match kind {
            QueryKind::Look(_) => Step::Look,
            QueryKind::List { kinds: true, .. } => Step::List,
            QueryKind::List { kinds: false, .. } => Step::ListNames,
        }
    }

    /// Gives a path that the pattern leads to.
    pub(crate) fn found(path: String) -> Self {
        Step::Item(Ok(PathBuf::from(path)))
    }

    /// Reports a directory that could not be listed. The walk goes on.
    pub(crate) fn unread(path: String, e: io::Error) -> Self {
        Step::Item(Err(GlobError::read(PathBuf::from(path), e)))
    }

    /// The walk reached its limit at the path, and is over.
    pub(crate) fn limit(path: String) -> Self {
        Step::Item(Err(GlobError::limit(PathBuf::from(path))))
    }

    /// The number of items that it gives.
    pub(crate) fn item_count(&self) -> u128 {
        match self {
            Step::Item(_) => 1,
            Step::Look | Step::List | Step::ListNames | Step::Done => 0,
        }
    }

    /// Whether only `Done` can follow.
    pub(crate) fn is_last(&self) -> bool {
        match self {
            Step::Look | Step::List | Step::ListNames => false,
            Step::Item(item) => end_of(item).is_some(),
            Step::Done => true,
        }
    }
}
