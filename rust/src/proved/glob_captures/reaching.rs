//! Made by `bin/rust_crate` from `crates/glob_captures/src/reaching.rt`, where its contracts are: sha256 ec28219ce0412a44.
//! Not derived there: `Reached`.
//! `Vec::with_capacity` and `resize` are there `vec![x; n]`: memory that is asked for as zeros is never what was freed
//! last, and costs more.
//!
//! How far a pattern gets in a text, and which tokens wait there.

use crate::proved::glob_captures::error::CapturesError;
use crate::proved::glob_captures::steps::{bytes_of, form_of, is_too_large, takes_if, Form};
use crate::proved::glob_pattern::{characters_of, opens, tokens_len, MatchOptions, Pattern};

/// How far a pattern got in a text.
///
/// ```
/// use cadmiumdove::captures::reach;
/// use cadmiumdove::{MatchOptions, Pattern};
///
/// let reached = reach(&Pattern::new("a[0-9]b")?, "a1c", MatchOptions::new()).unwrap();
/// assert_eq!((reached.place, reached.waiting), (2, vec![2]));
/// # Ok::<(), cadmiumdove::PatternError>(())
/// ```
#[derive(Debug, Clone, PartialEq, Eq)]
pub struct Reached {
    /// The farthest place, in bytes, that some number of first tokens reaches.
    pub place: usize,
    /// The numbers of the tokens that wait there for a character, ascending, counted from 0.
    pub waiting: Vec<usize>,
}

/// How far the pattern gets in the text: the farthest place, in bytes, that its first tokens can reach, however many of
/// them that takes, and the numbers of all tokens that wait for a character there. If the text does not match, this is
/// where it fails, and what the pattern expected there.
///
/// For `*.rs` and `a.rc` the place is the end: `*` took all, and `*` and `.` wait. For `a[0-9]b` and `a1c` the place is
/// 2, where token 2, the `b`, waits.
///
/// Time and memory are at most proportional to (tokens + 1) × (bytes of the text + 1).
///
/// ```
/// use cadmiumdove::captures::reach;
/// use cadmiumdove::{MatchOptions, Pattern};
///
/// assert_eq!(reach(&Pattern::new("src/*.rs")?, "src.rs", MatchOptions::new()).unwrap().place, 3);
/// # Ok::<(), cadmiumdove::PatternError>(())
/// ```
///
/// # Errors
///
/// - [`CapturesError::TooLarge`]: tokens × bytes is more than [`MOST_STEPS`](crate::proved::glob_captures::MOST_STEPS).
///   Nothing was done.
///
/// <details><summary>Contract</summary>
///
/// ```text
/// ensures reached { IfOk result (λ reached. IsReached options (tokens_of (chars pattern.now))
///     (chars text.now) reached.place reached.waiting.items) }
/// ensures ascending { IfOk result
///     (λ reached. AllPairs (λ number later. number < later) reached.waiting.items) }
/// ensures large { (result ≡ Err CapturesError.TooLarge)
///     ↔ (MOST_STEPS < length (tokens_of (chars pattern.now)) * length text.now) }
/// ```
///
/// </details>
pub fn reach(pattern: &Pattern, text: &str, options: MatchOptions) -> Result<Reached, CapturesError> {
    if is_too_large(pattern, text) {
        return Err(CapturesError::TooLarge);
    }
    let characters = characters_of(text);
    let place = farthest(pattern, options, characters.as_slice());
    let waiting = waiting_at(pattern, options, characters.as_slice(), place);
    Ok(Reached { place: bytes_of(&characters[..place]), waiting })
}

/// The farthest place that some number of first tokens reaches.
fn farthest(pattern: &Pattern, options: MatchOptions, text: &[char]) -> usize {
    let mut whole = fronts_at_start(text);
    let mut alive = fronts_at_start(text);
    let mut place = 0;
    for token in 0..tokens_len(pattern) {
        step(pattern, token, options, text, whole.as_mut_slice(), alive.as_mut_slice());
        let last = last_place(whole.as_slice());
        if place < last {
            place = last;
        }
    }
    place
}

/// The numbers of the tokens that wait at a place, ascending.
fn waiting_at(pattern: &Pattern, options: MatchOptions, text: &[char], place: usize) -> Vec<usize> {
    let mut whole = fronts_at_start(text);
    let mut alive = fronts_at_start(text);
    let mut waiting = Vec::new();
    for token in 0..tokens_len(pattern) {
        step(pattern, token, options, text, whole.as_mut_slice(), alive.as_mut_slice());
        if alive[place] {
            waiting.push(token);
        }
    }
    waiting
}

/// The row for zero tokens, which reach only the start of the text.
fn fronts_at_start(text: &[char]) -> Vec<bool> {
    let mut places = Vec::with_capacity(text.len() + 1);
    places.resize(text.len() + 1, false);
    places[0] = true;
    places
}

/// Updates `whole`, the places up to which the first tokens take the text, to include this token. Sets `alive` to the
/// places where this token waits.
fn step(pattern: &Pattern, token: usize, options: MatchOptions, text: &[char], whole: &mut [bool], alive: &mut [bool]) {
    let form = form_of(pattern, token);
    let mut took = false;
    for place in 0..whole.len() {
        let was = whole[place];
        let waits = may_wait(form, was, took);
        alive[place] = waits;
        whole[place] = may_end(form, text, place, was, took);
        took = place < text.len() && takes_if(pattern, token, options, text, place, waits);
    }
}

/// Whether a token waits at a place: `was` says that the tokens before it take the text up to there, `took` that it
/// took the character before it.
#[inline(always)]
fn may_wait(form: Form, was: bool, took: bool) -> bool {
    was || (took && form.grows)
}

/// Whether the token's piece may end at the place.
#[inline(always)]
fn may_end(form: Form, text: &[char], place: usize, was: bool, took: bool) -> bool {
    (was && form.grows) || (took && (!form.closes || opens(text, place)))
}

/// The last place whose entry is true, or 0 if all are false.
fn last_place(places: &[bool]) -> usize {
    let mut last = 0;
    for place in 0..places.len() {
        if places[place] {
            last = place;
        }
    }
    last
}
