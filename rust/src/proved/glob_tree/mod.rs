//! Made by `bin/rust_crate` from `crates/glob_tree/src/lib.rt`, where its contracts are: sha256 260aac4a463ae7cb.

mod name;
mod path_text;
mod tree;

pub use name::Name;
pub use path_text::{begins_with_dot, child, join};
pub use tree::{Entry, Look, Tree};
