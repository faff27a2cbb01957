//! Made by `bin/rust_crate` from `crates/glob_rules/src/lines.rt`, where its contracts are: sha256 21f0ddf8b7d013a6.
//!
//! The lines of an ignore list.

use crate::proved::glob_rules::reading::{Outcome, Reading};

/// A line of an ignore list, as read.
pub struct Line {
    outcome: Outcome,
    negative: bool,
    directories: bool,
    glob: Vec<u8>,
}

impl Line {
    /// The outcome of reading the line.
    pub fn outcome(&self) -> Outcome {
        self.outcome
    }

    /// Whether its rule begins with `!`.
    pub fn negative(&self) -> bool {
        self.negative
    }

    /// Whether its rule is for directories only.
    pub fn directories(&self) -> bool {
        self.directories
    }

    /// The pattern of its rule.
    pub fn glob(&self) -> &[u8] {
        self.glob.as_slice()
    }

    /// A line that matches nothing.
    fn nothing() -> Self {
        Line { outcome: Outcome::Nothing, negative: false, directories: false, glob: Vec::new() }
    }

    /// Reads a line, given without its line feed.
    pub fn read(text: &[u8]) -> Self {
        if has(text, 0, b'#') {
            return Self::nothing();
        }
        let kept = kept_line(text);
        let negative = has(kept, 0, b'!');
        let body = without_first(kept, b'!');
        let directories = ends_in(body, b'/');
        Self::of_body(negative, directories, without_last(body, b'/'))
    }

    /// The line of a rule without its `!` and its last `/`.
    fn of_body(negative: bool, directories: bool, body: &[u8]) -> Self {
        if body.is_empty() || ends_in(body, b'/') {
            return Self::nothing();
        }
        let reading = Reading::of(without_first(body, b'/'), is_path(body));
        Line { outcome: reading.outcome(), negative, directories, glob: reading.into_glob() }
    }
}

/// The rule of a line as it is written, without a carriage return and unescaped spaces at its end. For `!*.o \r` this
/// is `!*.o`.
pub fn kept_line(text: &[u8]) -> &[u8] {
    without_blanks(without_last(text, b'\r'))
}

/// Whether the text has a separator.
fn is_path(text: &[u8]) -> bool {
    text.iter().any(|c| *c == b'/')
}

/// Whether the byte at `place` is `c`; false beyond the end.
pub fn has(text: &[u8], place: usize, c: u8) -> bool {
    place < text.len() && text[place] == c
}

/// Whether the last byte is `c`.
fn ends_in(text: &[u8], c: u8) -> bool {
    has(text, text.len().saturating_sub(1), c)
}

/// The text without a leading `c`.
fn without_first(text: &[u8], c: u8) -> &[u8] {
    if has(text, 0, c) {
        &text[1..]
    } else {
        text
    }
}

/// The text without a trailing `c`.
fn without_last(text: &[u8], c: u8) -> &[u8] {
    if ends_in(text, c) {
        &text[..text.len() - 1]
    } else {
        text
    }
}

/// The text without its unescaped trailing spaces.
fn without_blanks(text: &[u8]) -> &[u8] {
    &text[..kept_len(text)]
}

/// The length of the text without its unescaped trailing spaces.
fn kept_len(text: &[u8]) -> usize {
    let mut kept = 0;
    let mut escaped = false;
    for place in 0..text.len() {
        kept = kept_after(kept, place, escaped, text[place]);
        escaped = escapes(escaped, text[place]);
    }
    kept
}

/// How many bytes to keep after `c`, the byte at `place`, where `kept` are kept before it.
fn kept_after(kept: usize, place: usize, escaped: bool, c: u8) -> usize {
    if escaped || c != b' ' {
        place + 1
    } else {
        kept
    }
}

/// Whether `c` escapes the next byte, where `escaped` says whether `c` is escaped itself.
fn escapes(escaped: bool, c: u8) -> bool {
    !escaped && c == b'\\'
}
