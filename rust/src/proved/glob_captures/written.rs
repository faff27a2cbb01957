//! Made by `bin/rust_crate` from `crates/glob_captures/src/written.rt`, where its contracts are: sha256 7ec362869969df69.
//!
//! Where the tokens are in a pattern's text.

use crate::proved::glob_captures::piece::Piece;
use crate::proved::glob_captures::steps::bytes_of;
use crate::proved::glob_pattern::{characters_of, token_kind, tokens_len, Pattern, TokenKind};

/// A token of a pattern: its kind, and where it is in the pattern's text, in bytes.
///
/// ```
/// use cadmiumdove::captures::{tokens, Piece, TokenKind, Written};
/// use cadmiumdove::Pattern;
///
/// let written = tokens(&Pattern::new("a[bc]*")?);
/// assert_eq!(written[1], Written { kind: TokenKind::OneOf, piece: Piece { start: 1, end: 5 } });
/// # Ok::<(), cadmiumdove::PatternError>(())
/// ```
#[derive(Clone, Copy, Debug, PartialEq, Eq)]
pub struct Written {
    /// Its kind.
    pub kind: TokenKind,
    /// Where it is in the pattern's text.
    pub piece: Piece,
}

/// The tokens of a pattern, in order. Those of `a[bc]*` are a `Literal` from 0 up to 1, a `OneOf` from 1 up to 5, and
/// an `AnySequence` from 5 up to 6: each begins where the one before it ends. Neighbouring `**/` are one token.
///
/// ```
/// use cadmiumdove::captures::{tokens, TokenKind};
/// use cadmiumdove::Pattern;
///
/// let wild = tokens(&Pattern::new("/users/*/posts/**")?).iter().filter(|token| token.kind != TokenKind::Literal).count();
/// assert_eq!(wild, 2);
/// # Ok::<(), cadmiumdove::PatternError>(())
/// ```
///
/// <details><summary>Contract</summary>
///
/// ```text
/// ensures many { IfOk result
///     (λ list. length list.items ≡ length (tokens_of (chars pattern.now))) }
/// ensures kinds { IfOk result (λ list.
///     map (λ token. token.kind) list.items ≡ map kind_of (tokens_of (chars pattern.now))) }
/// ensures adjacent { IfOk result (λ list. (end : ℕ) × AreAdjacent 0 list.items end) }
/// ensures written { IfOk result (λ list. AreWritten (chars pattern.now)
///     0 (tokens_of (chars pattern.now)) list.items (length (chars pattern.now))) }
/// ```
///
/// </details>
#[must_use]
pub fn tokens(pattern: &Pattern) -> Vec<Written> {
    let characters = characters_of(pattern.as_str());
    let text = characters.as_slice();
    let mut list = Vec::new();
    let mut place = 0;
    let mut start = 0;
    for token in 0..tokens_len(pattern) {
        let kind = token_kind(pattern, token);
        let after = token_end(text, place, kind);
        let end = start + bytes_of(&text[place..after]);
        list.push(Written { kind, piece: Piece { start, end } });
        place = after;
        start = end;
    }
    list
}

/// The place after the token of this kind that begins at `place`.
fn token_end(text: &[char], place: usize, kind: TokenKind) -> usize {
    match kind {
        TokenKind::Literal | TokenKind::AnyChar | TokenKind::AnySequence => text.len().min(place + 1),
        TokenKind::Recursive => recursive_end(text, place),
        TokenKind::OneOf => bracket_end(text, place, 2),
        TokenKind::NoneOf => bracket_end(text, place, 3),
    }
}

/// The place after the neighbouring `**` that begin at `place`, each with the `/` after it, if there is one.
fn recursive_end(text: &[char], place: usize) -> usize {
    let mut end = place;
    while has_stars(text, end) {
        end = after_stars(text, end);
    }
    end
}

/// Whether there are two stars at `place`.
fn has_stars(text: &[char], place: usize) -> bool {
    text.len() - place >= 2 && text[place] == '*' && text[place + 1] == '*'
}

/// The place after the two stars at `place`, and after a `/` that follows them.
fn after_stars(text: &[char], place: usize) -> usize {
    match text.get(place + 2) {
        Some('/') => place + 3,
        _ => place + 2,
    }
}

/// The place after the `]` that closes the bracket at `place`. A `]` among its first `skipped` characters does not
/// close it.
fn bracket_end(text: &[char], place: usize, skipped: usize) -> usize {
    for end in place..text.len() {
        if place + skipped <= end && text[end] == ']' {
            return end + 1;
        }
    }
    text.len()
}
