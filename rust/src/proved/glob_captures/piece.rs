//! Made by `bin/rust_crate` from `crates/glob_captures/src/piece.rt`, where its contracts are: sha256 dd3f9ea2def3f55a.
//!
//! Pieces of a text.

/// A piece of a text, from the byte offset `start` up to the byte offset `end`. The `b` in `abc` is from 1 up to 2.
///
/// ```
/// use cadmiumdove::captures::{captures, Piece};
/// use cadmiumdove::{MatchOptions, Pattern};
///
/// let pieces = captures(&Pattern::new("a?c")?, "abc", MatchOptions::new()).unwrap().unwrap();
/// assert_eq!(pieces[1], Piece { start: 1, end: 2 });
/// # Ok::<(), cadmiumdove::PatternError>(())
/// ```
#[derive(Clone, Copy, Debug, PartialEq, Eq)]
pub struct Piece {
    /// The offset where it starts.
    pub start: usize,
    /// The offset where it ends, after its last byte.
    pub end: usize,
}
