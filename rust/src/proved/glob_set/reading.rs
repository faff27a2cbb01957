//! Made by `bin/rust_crate` from `crates/glob_set/src/reading.rt`, where its contracts are: sha256 90e39ac9f24a1a6a.
//!
//! Patterns parsed from lists of texts.

use crate::proved::glob_pattern::{Pattern, PatternError};
use crate::proved::glob_set::braces::{expand, BraceError};
use crate::proved::glob_set::error::{BraceSetRefusal, SetRefusal};

/// Parses the texts. The error is the fault of the first text that is not accepted.
pub fn read_patterns(texts: &[&str]) -> Result<Vec<Pattern>, SetRefusal> {
    let mut patterns = Vec::new();
    for (number, text) in texts.iter().enumerate() {
        let pattern = Pattern::new(text).map_err(|refusal| refusal_of(number, refusal))?;
        patterns.push(pattern);
    }
    Ok(patterns)
}

/// The error for the text at index `number`.
fn refusal_of(number: usize, refusal: PatternError) -> SetRefusal {
    let error = refusal;
    SetRefusal::Syntax(number, error)
}

/// Parses all alternatives of all texts. The error is the fault of the first text that has one.
pub fn read_braces(texts: &[&str]) -> Result<Vec<Pattern>, BraceSetRefusal> {
    let mut patterns = Vec::new();
    for (number, text) in texts.iter().enumerate() {
        let mut found = read_alternatives(number, text)?;
        patterns.append(&mut found);
    }
    Ok(patterns)
}

/// Parses all alternatives of the text at index `number`. The error is the fault of that text.
fn read_alternatives(number: usize, text: &str) -> Result<Vec<Pattern>, BraceSetRefusal> {
    let alternatives = expand(text).map_err(|refusal| of_braces(number, refusal))?;
    let texts = strs_of(alternatives.as_slice());
    let patterns = read_patterns(texts.as_slice());
    patterns.map_err(|refusal| of_alternatives(number, refusal))
}

/// The texts, borrowed.
fn strs_of(texts: &[String]) -> Vec<&str> {
    let mut strs = Vec::new();
    for text in texts {
        strs.push(text.as_str());
    }
    strs
}

/// The error for the braces of the text at index `number`.
fn of_braces(number: usize, refusal: BraceError) -> BraceSetRefusal {
    let error = refusal;
    BraceSetRefusal::Braces(number, error)
}

/// The error for an alternative of the text at index `number`.
fn of_alternatives(number: usize, refusal: SetRefusal) -> BraceSetRefusal {
    match refusal {
        SetRefusal::Syntax(alternative, error) => BraceSetRefusal::Pattern(number, alternative, error),
    }
}
