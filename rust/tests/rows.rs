//! Answers from outside, as the tables of the repository have them, which are packed with the crate.

mod common;

use std::fs;
use std::path::{Path, PathBuf};

use cadmiumdove::captures::{captures, reach, tokens, TokenKind};
use cadmiumdove::ignore::IgnoreList;
use cadmiumdove::set::braces::expand;
use cadmiumdove::walk::is_plain;
use cadmiumdove::Pattern;
use common::{options, tables};

/// Whether a row of a table is what this crate says.
fn holds(table: &str, fields: &[&str]) -> bool {
    match (table, fields) {
        ("escape", [text, escaped]) => {
            let pattern = Pattern::escape(text);
            pattern == *escaped && Pattern::new(&pattern).unwrap().matches(text)
        }
        ("braces", [text, wanted]) => match expand(text) {
            Ok(texts) => texts.iter().map(|text| format!("<{text}>")).collect::<String>() == *wanted,
            Err(error) => error.to_string() == *wanted,
        },
        ("plain", [text, word @ ("plain" | "not plain")]) => is_plain(text).is_ok_and(|yes| yes == (*word == "plain")),
        ("plain", [text, place, words]) => {
            is_plain(text).is_err_and(|error| error.pos.to_string() == *place && error.msg == *words)
        }
        ("parse" | "faults", [text, "ok"]) => Pattern::new(text).is_ok_and(|pattern| pattern.as_str() == *text),
        ("parse" | "faults", [text, place, words]) => {
            Pattern::new(text).is_err_and(|error| error.pos.to_string() == *place && error.msg == *words)
        }
        (_, [setting, pattern, text, answer, ..]) => {
            Pattern::new(pattern).unwrap().matches_with(text, options(setting)) == (*answer == "y")
        }
        _ => false,
    }
}

/// Checks the rows of a table with tabs, and counts them. Lines without a tab say what the rows are.
fn check_table(path: &Path) -> usize {
    let table = path.file_stem().unwrap().to_str().unwrap();
    let text = fs::read_to_string(path).unwrap();
    let rows = text.lines().filter(|line| line.contains('\t'));
    rows.map(|row| assert!(holds(table, &row.split('\t').collect::<Vec<_>>()), "{table}: {row}")).count()
}

/// A word of a table: `''` is the empty text, and `<3:a/>b` is `a/a/a/b`.
fn expanded(word: &str) -> String {
    let mut text = String::new();
    let mut rest = if word == "''" { "" } else { word };
    while let Some((front, (count, (piece, after)))) = rest
        .split_once('<')
        .and_then(|(front, inner)| Some((front, inner.split_once(':')?)))
        .and_then(|(front, (count, inner))| Some((front, (count.parse::<usize>().ok()?, inner.split_once('>')?))))
    {
        text += front;
        text += &piece.repeat(count);
        rest = after;
    }
    text + rest
}

/// Checks rows `PATTERNS => ANSWER TEXTS`, under each of the options of the line `options:` before them, and counts
/// them.
fn check_words(path: &Path) -> usize {
    let (mut under, mut count) = (Vec::new(), 0);
    for line in fs::read_to_string(path).unwrap().replace("\n ", " ").lines() {
        if let Some(settings) = line.strip_prefix("options: ") {
            under = settings.split(' ').map(options).collect();
        } else if let Some((patterns, answer)) = line.split_once(" => ").filter(|_| !line.starts_with('#')) {
            let texts: Vec<String> =
                answer.split(';').next().unwrap().split_whitespace().skip(1).map(expanded).collect();
            for pattern in patterns.split(' ').map(|word| Pattern::new(&expanded(word)).unwrap()) {
                for (text, options) in texts.iter().flat_map(|text| under.iter().map(move |options| (text, *options))) {
                    assert_eq!(
                        pattern.matches_with(text, options),
                        answer.starts_with("yes"),
                        "{pattern} {text} {options:?}"
                    );
                }
            }
            count += 1;
        }
    }
    count
}

#[test]
fn rows() {
    let files: Vec<PathBuf> = fs::read_dir(tables("vectors")).unwrap().map(|entry| entry.unwrap().path()).collect();
    let tables = files.iter().filter(|path| path.extension().is_some_and(|end| end == "tsv"));
    let words = files.iter().filter(|path| path.ends_with("matches.txt"));
    let count: usize = tables.map(|path| check_table(path)).chain(words.map(|path| check_words(path))).sum();
    assert!(count >= 18_000, "{count} rows");
}

/// Rows `FIELD|OPTIONS|PATTERN|TEXT|WANTED`, as the table says.
#[test]
fn pieces() {
    let table = fs::read_to_string(tables("rows").join("captures.txt")).unwrap();
    let rows: Vec<&str> = table.lines().filter(|line| !line.starts_with('#')).collect();
    assert!(rows.len() > 30, "{} rows", rows.len());
    for row in rows {
        let [field, letters, pattern, text, wanted] = row.split('|').collect::<Vec<_>>()[..] else { panic!("{row}") };
        let text = text.replace("LONGEST", &"\u{10fffe}".repeat(4_194_304));
        let (pattern, options) = (Pattern::new(pattern).unwrap(), options(&format!("-{letters}")));
        let found: Vec<String> = match field {
            "pieces" => match captures(&pattern, &text, options).unwrap() {
                Some(pieces) => pieces.iter().map(|piece| piece.end.to_string()).collect(),
                None => vec!["no".to_owned()],
            },
            "reached" => {
                let reached = reach(&pattern, &text, options).unwrap();
                [vec![reached.place], reached.waiting].concat().iter().map(usize::to_string).collect()
            }
            _ => tokens(&pattern).iter().map(|token| format!("{} {}", kind(token.kind), token.piece.end)).collect(),
        };
        assert_eq!(found.join(" "), wanted, "{row}");
    }
}

/// The name of a kind in the table of pieces.
fn kind(kind: TokenKind) -> &'static str {
    match kind {
        TokenKind::Literal => "literal",
        TokenKind::AnyChar => "?",
        TokenKind::AnySequence => "*",
        TokenKind::Recursive => "**",
        TokenKind::OneOf => "[]",
        TokenKind::NoneOf => "[!]",
    }
}

/// What git answers: a NUL ends each list, which is after `L`, and each path, after `d` of a directory and else after `f`.
/// An answer is the line that decides, or 0, and of a list that is refused `R` and why.
#[test]
fn ignore_lists() {
    let questions = fs::read_to_string(tables("rows").join("git.questions")).unwrap();
    let answers = fs::read_to_string(tables("rows").join("git.answers")).unwrap();
    let (mut list, mut found) = (IgnoreList::new(""), Vec::new());
    for question in questions.split_terminator('\0') {
        match (question.split_at(1), &list) {
            (("L", text), _) => list = IgnoreList::new(text),
            ((kind, path), Ok(list)) => {
                found.push(list.deciding_rule(path, kind == "d").map_or(0, |rule| rule.line).to_string());
            }
            (_, Err(refusal)) => found.push(format!("R {refusal}")),
        }
    }
    assert_eq!(found, answers.lines().collect::<Vec<_>>());
}
