//! Made by `bin/rust_crate` from `crates/glob_captures/src/rests.rt`, where its contracts are: sha256 31fb2a7173f096ee.
//! `Vec::with_capacity` and `resize` are there `vec![x; n]`: memory that is asked for as zeros is never what was freed
//! last, and costs more.
//!
//! For the last tokens of a pattern: the places from which they match all that is left of a text.

use crate::proved::glob_captures::span::WildcardSpan;
use crate::proved::glob_captures::steps::{form_of, takes_if, Form};
use crate::proved::glob_pattern::{opens, tokens_len, MatchOptions, Pattern};

/// For each place of a text, whether certain last tokens take the rest from there on.
pub struct Rests {
    places: Vec<bool>,
}

impl Rests {
    /// One answer per place.
    #[inline(always)]
    pub fn as_slice(&self) -> &[bool] {
        self.places.as_slice()
    }
}

/// Row `i` says from which places the tokens from number `span.last - i` on take the rest. It is empty if the token
/// before them is not a wildcard.
pub fn rests_of(pattern: &Pattern, options: MatchOptions, text: &[char], span: WildcardSpan) -> Vec<Rests> {
    let mut rows = Vec::with_capacity(span.last - span.first);
    if span.first == span.last {
        return rows;
    }
    let mut row = rests_after_span(pattern, text, span);
    for done in 0..span.last - span.first {
        let token = span.last - done;
        add_token(pattern, token, options, text, row.as_mut_slice());
        let kept = row_after(pattern, token - 1, row.as_slice());
        rows.push(kept);
    }
    rows
}

/// A copy of the row, if `token` is a wildcard. Otherwise nothing reads it, and it is empty.
fn row_after(pattern: &Pattern, token: usize, row: &[bool]) -> Rests {
    let places = if form_of(pattern, token).grows { Vec::from(row) } else { Vec::new() };
    Rests { places }
}

/// The row of the tokens after the last wildcard. Each of them takes one character, so they take the rest from exactly
/// one place.
fn rests_after_span(pattern: &Pattern, text: &[char], span: WildcardSpan) -> Vec<bool> {
    let mut row = Vec::with_capacity(text.len() + 1);
    row.resize(text.len() + 1, false);
    row[text.len() - (tokens_len(pattern) - 1 - span.last)] = true;
    row
}

/// Updates the row of the tokens after `token` to include it.
fn add_token(pattern: &Pattern, token: usize, options: MatchOptions, text: &[char], row: &mut [bool]) {
    let form = form_of(pattern, token);
    let mut more = false;
    let mut rest = row[text.len()];
    row[text.len()] = is_taken(form, rest, false);
    for done in 0..text.len() {
        let place = text.len() - 1 - done;
        let here = row[place];
        let may = may_take(form, text, place, rest, more);
        more = takes_if(pattern, token, options, text, place, may);
        row[place] = is_taken(form, here, more);
        rest = here;
    }
}

/// Whether the token may take the character at `place`: either its piece may end there, since the tokens after it take
/// the rest from the next place on (`rest`), or it goes on, since it takes more from there (`more`).
#[inline(always)]
fn may_take(form: Form, text: &[char], place: usize, rest: bool, more: bool) -> bool {
    (rest && (!form.closes || opens(text, place + 1))) || (form.grows && more)
}

/// Whether a token and the tokens after it take the rest from a place: the token takes a character there (`more`), or
/// its piece may be empty.
#[inline(always)]
fn is_taken(form: Form, rest: bool, more: bool) -> bool {
    more || (form.grows && rest)
}
