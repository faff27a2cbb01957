//! Made by `bin/rust_crate` from `crates/glob_rules/src/reading.rt`, where its contracts are: sha256 62df5cc547913382.
//!
//! The translation of a rule, byte by byte.

use crate::proved::glob_rules::classes::before_close;
use crate::proved::glob_rules::error::Reason;
use crate::proved::glob_rules::listing::write;
use crate::proved::glob_rules::steps::{step_from, BracketSpan, Change, Mode, Prefix};

/// The outcome of reading a rule.
#[derive(Clone, Copy)]
pub enum Outcome {
    /// It matches nothing.
    Nothing,
    /// It has a pattern.
    Named,
    /// It is refused.
    Refused(Reason),
}

/// A rule read in part: the mode after the bytes so far, the characters of the last bracket, and the pattern so far.
pub struct Reading {
    mode: Mode,
    spans: Vec<BracketSpan>,
    glob: Vec<u8>,
}

impl Reading {
    /// Reads all of a rule. `path` says that it is relative to the list's directory.
    pub fn of(text: &[u8], path: bool) -> Self {
        let mut reading = Self::start(path);
        let mut rest = text;
        // search once per `]`, not once per byte
        let mut ahead = before_close(text);
        while let [c, after @ ..] = rest {
            ahead = match ahead {
                [_, others @ ..] => others,
                [] => before_close(after),
            };
            reading.advance(*c, ahead);
            rest = after;
        }
        reading
    }

    /// A rule before its first byte.
    fn start(path: bool) -> Self {
        let front: &[u8] = if path { &[] } else { &[b'*', b'*', b'/'] };
        Reading {
            mode: Mode::Units(Prefix { all_literal: path, opening: path }),
            spans: Vec::new(),
            glob: Vec::from(front),
        }
    }

    /// Reads one byte. `ahead` is the text after it, up to the next `]` or the end.
    fn advance(&mut self, c: u8, ahead: &[u8]) {
        let step = step_from(self.mode, c, ahead);
        change(&mut self.spans, step.change);
        write(&mut self.glob, self.spans.as_slice(), step.writing);
        self.mode = step.mode;
    }

    /// The outcome, if the rule ends here.
    pub fn outcome(&self) -> Outcome {
        match self.mode {
            Mode::Units(_) | Mode::Star(_) => Outcome::Named,
            Mode::Stars(prefix) if prefix.opening => Outcome::Named,
            Mode::Stars(_) => Outcome::Refused(Reason::StarsBehindText),
            Mode::Refused(reason) => Outcome::Refused(reason),
            _ => Outcome::Nothing,
        }
    }

    /// The pattern, if the rule ends here.
    pub fn into_glob(self) -> Vec<u8> {
        let mut glob = self.glob;
        if matches!(self.mode, Mode::Stars(_)) {
            glob.push(b'*');
        }
        glob
    }
}

/// Applies a change to the bracket's characters.
fn change(spans: &mut Vec<BracketSpan>, change: Change) {
    match change {
        Change::Keep => {}
        Change::Clear => spans.clear(),
        Change::Add(span) => spans.push(span),
    }
}
