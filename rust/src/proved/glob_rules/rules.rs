//! Made by `bin/rust_crate` from `crates/glob_rules/src/rules.rt`, where its contracts are: sha256 eacdfbf01a646bac.
//!
//! The rules of a text, line by line.

use crate::proved::glob_pattern::Pattern;
use crate::proved::glob_rules::error::{Reason, RuleRefusal};
use crate::proved::glob_rules::lines::{has, Line};
use crate::proved::glob_rules::reading::Outcome;
use crate::proved::glob_rules::rule::Rule;
use std::str;

/// The rules so far, their patterns, and a refusal for each refused line.
pub struct Rules {
    lines: usize,
    rules: Vec<Rule>,
    patterns: Vec<Pattern>,
    refusals: Vec<RuleRefusal>,
}

impl Rules {
    /// Reads the rules of a text.
    pub fn read(text: &str) -> Self {
        let mut rules = Rules { lines: 0, rules: Vec::new(), patterns: Vec::new(), refusals: Vec::new() };
        let lines = without_byte_order_mark(text);
        for line in lines.split('\n') {
            rules.add_line(line.as_bytes());
        }
        rules
    }

    /// Adds the rule of a line, if it has one, or its refusal.
    fn add_line(&mut self, text: &[u8]) {
        self.lines = self.lines.saturating_add(1);
        let line = Line::read(text);
        match line.outcome() {
            Outcome::Nothing => {}
            Outcome::Refused(reason) => self.refuse(reason),
            Outcome::Named => self.add_rule(&line),
        }
    }

    /// Adds the rule of the last line, or its refusal.
    fn add_rule(&mut self, line: &Line) {
        let Some(pattern) = pattern_of(line.glob()) else {
            return self.refuse(Reason::Pattern);
        };
        self.patterns.push(pattern);
        self.rules.push(Rule { line: self.lines, negative: line.negative(), directories: line.directories() });
    }

    /// Adds the refusal of the last line.
    fn refuse(&mut self, reason: Reason) {
        self.refusals.push(RuleRefusal::Line(self.lines, reason));
    }

    /// The number of lines, the rules, their patterns, and the refusals.
    pub fn into_parts(self) -> (usize, Vec<Rule>, Vec<Pattern>, Vec<RuleRefusal>) {
        (self.lines, self.rules, self.patterns, self.refusals)
    }
}

/// Parses a translated rule, if it is a valid pattern.
fn pattern_of(glob: &[u8]) -> Option<Pattern> {
    let Ok(text) = str::from_utf8(glob) else {
        return None;
    };
    match Pattern::new(text) {
        Ok(pattern) => Some(pattern),
        Err(_) => None,
    }
}

/// The text without its byte order mark.
fn without_byte_order_mark(text: &str) -> &str {
    if begins_with_mark(text.as_bytes()) {
        &text[3..]
    } else {
        text
    }
}

/// Whether the text begins with a byte order mark.
fn begins_with_mark(text: &[u8]) -> bool {
    has(text, 0, 0xEF) && has(text, 1, 0xBB) && has(text, 2, 0xBF)
}
