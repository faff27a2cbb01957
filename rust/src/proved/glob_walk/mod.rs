//! Made by `bin/rust_crate` from `crates/glob_walk/src/lib.rt`, where its contracts are: sha256 54d69e334c4b6d74.
//!
//! The walk of a pattern over a tree, as a machine whose caller answers its questions.

mod component;
mod ending;
mod error;
mod frame;
mod machine;
mod meter;
mod plain;
mod plan;
mod query;
mod stack;
mod step;
mod task;
mod walker;

pub use error::{GlobCause, GlobError, GlobResult};
pub use machine::{Answer, Step, WalkMachine};
pub use plain::is_plain;
