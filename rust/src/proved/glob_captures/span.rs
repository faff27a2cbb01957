//! Made by `bin/rust_crate` from `crates/glob_captures/src/span.rt`, where its contracts are: sha256 3f0e05ddb11eb8c4.
//!
//! The wildcards `*` and `**` of a pattern: only the pieces between them have to be searched for.

use crate::proved::glob_captures::steps::form_of;
use crate::proved::glob_pattern::{tokens_len, Pattern};

/// The numbers of the first and the last token that is `*` or `**`. If there is none, both are the number of tokens.
#[derive(Clone, Copy)]
pub struct WildcardSpan {
    /// The number of the first.
    pub first: usize,
    /// The number of the last.
    pub last: usize,
}

/// Where the wildcards are.
pub fn span_of(pattern: &Pattern) -> WildcardSpan {
    let tokens = tokens_len(pattern);
    let mut first = tokens;
    let mut last = tokens;
    for token in 0..tokens {
        if form_of(pattern, token).grows {
            last = token;
            if first == tokens {
                first = token;
            }
        }
    }
    WildcardSpan { first, last }
}
