//! Shell patterns such as `src/**/*.rs` that match texts and find files, with the API of the crate `glob` 0.3.
//!
//! A program that uses `glob` changes one line of `Cargo.toml` to
//! `glob = { package = "cadmiumdove", path = "PATH/rust" }`. Here the crate has its own name:
//!
//! ```
//! use cadmiumdove::{glob, Pattern};
//!
//! let sources = Pattern::new("src/**/*.rs").unwrap();
//! assert!(sources.matches("src/walk/lines.rs"));
//! assert!(!sources.matches("src/walk/lines.c"));
//!
//! for path in glob("src/*.rs").unwrap().flatten() {
//!     assert!(path.starts_with("src"));
//! }
//! ```
//!
//! There is more in modules: walks with a limit, over any tree, or that ask their caller ([`walk`]); sets of patterns
//! ([`set`]); the rules of ignore files ([`ignore`]); searches by many patterns that heed such files ([`search`]); the
//! pieces of a text that a pattern's wildcards take, and how far a text matches ([`captures`](mod@captures)).
//! [`tutorial`] takes one sitting, and [`recipes`] has an example for each task.
//!
//! The code that matches and walks is made from sources in which every function is proved to do what its contract says;
//! README says what that means for this crate. An item's source link shows a file that begins with the path of the
//! proved source, which has the item's contract; items written by hand have no such source.
//!
//! Nothing here recurses. For t tokens and c characters a match asks at most t × c + t times whether a token takes a
//! character. Between the ends of the pattern, which are the one-character tokens before its first `*` or `**` and
//! after its last, a proved clause counts each question; at the ends the code asks each token at most once, the first
//! and the last perhaps twice, but no clause counts there.

#![forbid(unsafe_code)]
#![warn(missing_debug_implementations, missing_docs, clippy::missing_errors_doc)]

#[cfg(windows)]
compile_error!("paths of Windows have prefixes and `\\`, which no pattern of this crate knows");

// This comes first, so that the documentation of a type begins with `new`, and not with what is added to it.
mod proved;

mod above;
mod debug;
mod disk;
mod lanes;
mod pattern;
mod search_errors;
mod searching;
mod traits;

pub mod captures;
pub mod ignore;
pub mod search;
pub mod set;
pub mod walk;

#[doc = include_str!("../TUTORIAL.md")]
pub mod tutorial {}

#[doc = include_str!("../RECIPES.md")]
pub mod recipes {}

pub use disk::{glob, glob_with};
pub use proved::glob_pattern::{MatchOptions, Pattern, PatternError, PatternErrorKind};
pub use proved::glob_walk::{GlobError, GlobResult};

/// The items of a walk over the file system.
///
/// ```
/// let mut paths: cadmiumdove::Paths = cadmiumdove::glob("Cargo.tom?")?;
/// assert_eq!(paths.next().unwrap().unwrap().to_str(), Some("Cargo.toml"));
/// # Ok::<(), cadmiumdove::PatternError>(())
/// ```
pub type Paths = walk::Paths<walk::Disk>;
