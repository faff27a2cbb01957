//! Made by `bin/rust_crate` from `crates/glob_pattern/src/lib.rt`, where its contracts are: sha256 e32c9ba2144706ea.
//!
//! Patterns in the syntax of Unix shells: parsing them, and matching texts and paths. `src/**/[!t]*.rs` matches every
//! `.rs` file below `src` whose name does not begin with `t`.

mod error;
mod grammar;
mod matcher;
mod options;
mod pattern;
mod token;

pub use error::{PatternError, PatternErrorKind};
pub use grammar::{characters_of, close_from, opens};
pub use options::MatchOptions;
pub use pattern::{literal_at, token_kind, token_takes, tokens_len, Pattern, TokenKind};
pub use token::taking::is_open;
