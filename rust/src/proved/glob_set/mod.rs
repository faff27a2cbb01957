//! Made by `bin/rust_crate` from `crates/glob_set/src/lib.rt`, where its contracts are: sha256 d799e767b7179a99.
//!
//! Sets of patterns: which of many patterns match a text, usually without trying most of them.
//!
//! For a [`PatternSet`] of `*.o`, `target/**` and `!*`, the first pattern that matches `a.o` is number 0.

pub mod braces;
mod buckets;
mod components;
mod error;
mod found;
mod key;
mod keyed;
mod needs;
mod pairs;
mod pattern_keys;
mod rarest;
mod reading;
mod set;

pub use error::{BraceSetRefusal, SetRefusal};
pub use set::PatternSet;
