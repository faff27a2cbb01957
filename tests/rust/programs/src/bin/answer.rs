//! `glob_vectors answer`, over the Rust crate: answers the same cases in the same words. It counts no work and knows no
//! limit: of each walk it says `0`, and it gives all items.

use glob::{glob_with, GlobResult, MatchOptions, Pattern, PatternError};
use std::env;
use std::error::Error;
use std::io::{self, BufRead, BufWriter, Write};

type Result<T> = std::result::Result<T, Box<dyn Error>>;

/// Each setting of the options, as `options_of` reads it.
const SETTINGS: [&str; 8] = ["", "d", "s", "sd", "i", "id", "is", "isd"];

/// The options of the letters of a word.
fn options_of(letters: &str) -> MatchOptions {
    MatchOptions {
        case_sensitive: !letters.contains('i'),
        require_literal_separator: letters.contains('s'),
        require_literal_leading_dot: letters.contains('d'),
    }
}

/// The answer to a pattern with a fault.
fn fault(error: PatternError) -> String {
    format!("fault\t{}\t{}", error.pos, error.msg)
}

/// The answer to `match`.
fn match_answer(pattern: &str, texts: &[&str]) -> String {
    let escaped = Pattern::escape(pattern);
    match Pattern::new(pattern) {
        Ok(pattern) => {
            let mut answer = format!("{escaped}\tok\t");
            for text in texts {
                for setting in SETTINGS {
                    let found = pattern.matches_with(text, options_of(setting));
                    answer.push(if found { 'y' } else { 'n' });
                }
            }
            answer
        }
        Err(error) => format!("{escaped}\t{}", fault(error)),
    }
}

/// An item of a walk. The trees of the cases have names that are UTF-8.
fn item_text(item: GlobResult) -> String {
    match item {
        Ok(path) => format!("\t={}", path.display()),
        Err(error) => format!("\t!{}", error.path().display()),
    }
}

/// The answer to `walk`.
fn walk_answer(letters: &str, pattern: &str) -> String {
    match glob_with(pattern, options_of(letters)) {
        Ok(paths) => format!("ok\t0{}", paths.map(item_text).collect::<String>()),
        Err(error) => fault(error),
    }
}

/// The answer to a line.
fn answer(line: &str) -> Result<String> {
    match line.split('\t').collect::<Vec<&str>>().as_slice() {
        ["match", pattern, texts @ ..] => Ok(match_answer(pattern, texts)),
        ["walk", letters, _, pattern] => Ok(walk_answer(letters, pattern)),
        _ => Err(format!("no case: {line}").into()),
    }
}

fn main() -> Result<()> {
    if env::args().len() != 1 {
        return Err("usage: answer".into());
    }
    let mut writer = BufWriter::new(io::stdout().lock());
    for line in io::stdin().lock().lines() {
        writeln!(writer, "{}", answer(&line?)?)?;
        writer.flush()?;
    }
    Ok(())
}
