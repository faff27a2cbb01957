//! Made by `bin/rust_crate` from `crates/glob_captures/src/lib.rt`, where its contracts are: sha256 42706bd247d711de.
//!
//! Which piece of a text each token of a pattern takes, and how far a pattern gets in a text that it does not match.

mod capturing;
mod error;
mod piece;
mod reaching;
mod rests;
mod span;
mod steps;
mod written;

pub use crate::proved::glob_pattern::TokenKind;
pub use capturing::captures;
pub use error::CapturesError;
pub use piece::Piece;
pub use reaching::{reach, Reached};
pub use steps::MOST_STEPS;
pub use written::{tokens, Written};
