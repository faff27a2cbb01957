//! Made by `bin/rust_crate` from `crates/glob_search/src/found.rt`, where its contracts are: sha256 9a3ff12ba0484ffe.
//!
//! What a search finds.

/// A path that a search finds.
#[derive(Debug)]
pub struct Found {
    /// The names from the start directory on, joined by `/`, such as `src/main.rs`.
    pub path: String,
    /// Whether it is a directory, if the search knows. It always knows if
    /// [`Settings::kinds`](crate::proved::glob_search::Settings::kinds) is set.
    pub is_dir: Option<bool>,
}
