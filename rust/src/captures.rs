//! Which piece of a text each token of a pattern takes.
//!
//! ```
//! use cadmiumdove::captures::captures;
//! use cadmiumdove::{MatchOptions, Pattern};
//!
//! let pattern = Pattern::new("*.rs").unwrap();
//! let pieces = captures(&pattern, "main.rs", MatchOptions::new()).unwrap().unwrap();
//! // one piece each for `*`, `.`, `r` and `s`
//! assert_eq!(pieces.len(), 4);
//! assert_eq!(&"main.rs"[pieces[0].start..pieces[0].end], "main");
//! assert_eq!(captures(&pattern, "main.c", MatchOptions::new()).unwrap(), None);
//! ```

pub use crate::proved::glob_captures::{
    captures, reach, tokens, CapturesError, Piece, Reached, TokenKind, Written, MOST_STEPS,
};
