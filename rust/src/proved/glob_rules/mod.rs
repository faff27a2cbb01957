//! Made by `bin/rust_crate` from `crates/glob_rules/src/lib.rt`, where its contracts are: sha256 c94ae01b735c68f2.
//!
//! Ignore lists: which paths the rules of gitignore(5) exclude.
//!
//! An [`IgnoreList`] of the lines `*.o`, `target/` and `!keep.o` ignores `a.o` and everything below `src/target`, but
//! not `keep.o`.

mod classes;
mod error;
mod lines;
mod list;
mod listing;
mod reading;
mod rule;
mod rules;
mod steps;

pub use error::{Reason, RuleRefusal};
pub use list::IgnoreList;
pub use rule::Rule;
