//! Made by `bin/rust_crate` from `crates/glob_captures/src/capturing.rt`, where its contracts are: sha256 3e21b940f7ec0c1d.
//!
//! The piece of a text that each token of a pattern takes.

use crate::proved::glob_captures::error::CapturesError;
use crate::proved::glob_captures::piece::Piece;
use crate::proved::glob_captures::rests::{rests_of, Rests};
use crate::proved::glob_captures::span::{span_of, WildcardSpan};
use crate::proved::glob_captures::steps::{bytes_of, form_of, is_too_large};
use crate::proved::glob_pattern::{characters_of, opens, tokens_len, MatchOptions, Pattern};

/// Splits the text into the pieces that the pattern's tokens take, and returns where they are, in bytes and in order;
/// `None` exactly when the pattern does not match the text. If there are several splits, the first piece is as short as
/// possible, then the second, and so on.
///
/// For example, `*.*` splits `a.b.rs` into `a`, `.` and `b.rs`: from 0 up to 1, from 1 up to 2, and from 2 up to 6.
///
/// Time and memory are at most proportional to (tokens + 1) × (bytes of the text + 1).
///
/// ```
/// use cadmiumdove::captures::captures;
/// use cadmiumdove::{MatchOptions, Pattern};
///
/// let (pattern, text) = (Pattern::new("*.*")?, "a.b.rs");
/// let pieces = captures(&pattern, text, MatchOptions::new()).unwrap().unwrap();
/// assert_eq!(pieces.iter().map(|piece| &text[piece.start..piece.end]).collect::<Vec<_>>(), ["a", ".", "b.rs"]);
/// # Ok::<(), cadmiumdove::PatternError>(())
/// ```
///
/// # Errors
///
/// - [`CapturesError::TooLarge`]: tokens × bytes is more than [`MOST_STEPS`](crate::proved::glob_captures::MOST_STEPS).
///   Nothing was done.
///
/// <details><summary>Contract</summary>
///
/// ```text
/// ensures answer { IfOk result
///     (λ found. IsSome found ↔ Matches options (chars pattern.now) (chars text.now)) }
/// ensures pieces { IfOk result (λ found. IfSome found (λ pieces.
///     AreCaptures options (tokens_of (chars pattern.now)) (chars text.now) pieces.items)) }
/// ensures large { (result ≡ Err CapturesError.TooLarge)
///     ↔ (MOST_STEPS < length (tokens_of (chars pattern.now)) * length text.now) }
/// ```
///
/// </details>
pub fn captures(pattern: &Pattern, text: &str, options: MatchOptions) -> Result<Option<Vec<Piece>>, CapturesError> {
    if is_too_large(pattern, text) {
        return Err(CapturesError::TooLarge);
    }
    if !pattern.matches_with(text, options) {
        return Ok(None);
    }
    let characters = characters_of(text);
    let span = span_of(pattern);
    let rests = rests_of(pattern, options, characters.as_slice(), span);
    let pieces = shortest_pieces(pattern, characters.as_slice(), span, rests.as_slice());
    Ok(Some(pieces))
}

/// The places of the pieces, each as short as the tokens after it allow.
fn shortest_pieces(pattern: &Pattern, text: &[char], span: WildcardSpan, rests: &[Rests]) -> Vec<Piece> {
    let tokens = tokens_len(pattern);
    let mut pieces = Vec::with_capacity(tokens);
    let mut place = 0;
    let mut start = 0;
    for token in 0..tokens {
        let after = shortest_end(pattern, token, text, place, span, rests);
        let end = start + bytes_of(&text[place..after]);
        pieces.push(Piece { start, end });
        place = after;
        start = end;
    }
    pieces
}

/// The end of the shortest piece of `token` that begins at `place`. `rests` was made with the same options.
fn shortest_end(
    pattern: &Pattern,
    token: usize,
    text: &[char],
    place: usize,
    span: WildcardSpan,
    rests: &[Rests],
) -> usize {
    let form = form_of(pattern, token);
    if !form.grows {
        place + 1
    } else if token == span.last {
        text.len() - (tokens_len(pattern) - 1 - token)
    } else {
        let next = rests[span.last - 1 - token].as_slice();
        first_end(form.closes, text, place, next)
    }
}

/// The first place where a piece that begins at `place` may end, or the end of the text.
fn first_end(closes: bool, text: &[char], place: usize, next: &[bool]) -> usize {
    let mut end = place;
    while end < text.len() && !may_end(closes, text, next, place, end) {
        end += 1;
    }
    end
}

/// Whether a piece from `place` may end at `end`. `next` says from which places the tokens after it take the rest.
#[inline(always)]
fn may_end(closes: bool, text: &[char], next: &[bool], place: usize, end: usize) -> bool {
    next[end] && (end == place || !closes || opens(text, end))
}
