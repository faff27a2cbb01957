//! Walks from outside, as the table `walks.txt` has them, which is packed with the crate, over trees in memory.

mod common;

use std::collections::BTreeMap;
use std::fs;
use std::io::{self, ErrorKind};
use std::path::PathBuf;

use cadmiumdove::walk::{self, glob_in, Entry, GlobCause, GlobError, Look, Name, Tree};
use cadmiumdove::MatchOptions;
use common::{options, tables};

/// A tree in memory: whether each path of names is a directory, and which directories cannot be listed.
#[derive(Clone, Default)]
struct Content {
    nodes: BTreeMap<Vec<String>, bool>,
    current: Vec<String>,
    shut: Vec<Vec<String>>,
}

/// The names of a path.
fn names(path: &str) -> Vec<String> {
    path.split('/').filter(|name| !name.is_empty()).map(str::to_owned).collect()
}

impl Content {
    /// Adds what a word names below the current directory: a directory ends in `/`, and one after `#` cannot be listed.
    fn add(&mut self, word: &str) {
        let path = word.trim_start_matches('#');
        let at = [self.current.clone(), names(path)].concat();
        if path.len() < word.len() {
            self.shut.push(at.clone());
        }
        self.nodes.insert(at, path.ends_with('/') || path.len() < word.len());
    }

    fn is_dir(&self, at: &[String]) -> bool {
        self.current.starts_with(at) || self.nodes.get(at) == Some(&true)
    }

    /// What a path leads to, each step of which has to begin in a directory.
    fn find(&self, path: &str) -> Option<Vec<String>> {
        let mut at = if path.starts_with('/') { Vec::new() } else { self.current.clone() };
        for name in names(path) {
            if !self.is_dir(&at) {
                return None;
            }
            match name.as_str() {
                "." => {}
                ".." => drop(at.pop()),
                _ => at.push(name),
            }
        }
        let is_there = self.is_dir(&at) || self.nodes.contains_key(&at) && !path.ends_with('/');
        (is_there && !path.is_empty()).then_some(at)
    }
}

impl Tree for Content {
    fn look(&mut self, path: &str) -> Look {
        match self.find(path) {
            Some(at) if self.is_dir(&at) => Look::Dir,
            Some(_) => Look::Other,
            None => Look::Missing,
        }
    }

    fn list(&mut self, path: &str) -> io::Result<Vec<Entry>> {
        let at = self.find(path).filter(|at| self.is_dir(at)).ok_or(ErrorKind::NotFound)?;
        if self.shut.contains(&at) {
            return Err(ErrorKind::PermissionDenied.into());
        }
        let below = self.nodes.iter().rev().filter(|(path, _)| path.len() == at.len() + 1 && path.starts_with(&at));
        Ok(below
            .map(|(path, is_dir)| Entry { name: Name::new(path.last().unwrap().clone()).unwrap(), is_dir: *is_dir })
            .collect())
    }
}

/// What the lines before a row say of it.
#[derive(Default)]
struct State {
    content: Content,
    options: Vec<MatchOptions>,
    /// In the place of patterns rows have limits, of this one.
    limited: Option<String>,
    /// Whether rows run over a tree in memory that is a content.
    is_here: bool,
}

/// A word of a table: `''` is the empty text, and `<3:a/>b` is `a/a/a/b`.
fn expanded(word: &str) -> String {
    match word.split_once('<').and_then(|(front, rest)| Some((front, rest.split_once(':')?))) {
        Some((front, (count, rest))) => {
            let (piece, after) = rest.split_once('>').unwrap();
            format!("{front}{}{}", piece.repeat(count.parse().unwrap()), expanded(after))
        }
        None if word == "''" => String::new(),
        None => word.to_owned(),
    }
}

/// An item as a row has it: a path, `!` and a path that could not be listed, or `^` and the path of the limit.
fn written(item: Result<PathBuf, GlobError>) -> String {
    match item {
        Ok(path) => path.to_str().unwrap().to_owned(),
        Err(error) if GlobCause::of(&error) == GlobCause::Limit => format!("^{}", error.path().display()),
        Err(error) => format!("!{}:{:?}", error.path().display(), error.error().kind()),
    }
}

impl State {
    /// Takes a line that is no row.
    fn hear(&mut self, what: &str, words: &str) {
        match what {
            "content" => {
                let tree = Content::default();
                *self = State { content: tree, options: vec![MatchOptions::new()], limited: None, is_here: true };
                words.split_whitespace().for_each(|word| self.content.add(word));
            }
            "more" | "in memory" => words.split_whitespace().for_each(|word| self.content.add(word)),
            "in" => {
                let nodes = std::mem::take(&mut self.content.nodes);
                self.content.current = names(words);
                self.content.nodes =
                    nodes.into_iter().map(|(at, is_dir)| ([names(words), at].concat(), is_dir)).collect();
            }
            "shut" => {
                let shut = [self.content.current.clone(), names(words)].concat();
                self.content.shut = if words.is_empty() { Vec::new() } else { vec![shut] };
            }
            "walked" => self.is_here = words != "on the disk",
            "tree" => self.is_here = false,
            "options" => self.options = words.split_whitespace().map(options).collect(),
            "limits of" => self.limited = Some(words.to_owned()).filter(|words| !words.is_empty()),
            _ => panic!("{what}: {words}"),
        }
    }

    /// Checks a row, and counts it.
    fn check(&self, words: &str, expected: &str) -> usize {
        if !self.is_here {
            return 0;
        }
        let (items, spent) = expected.split_once("; ").map_or((expected, None), |(items, spent)| (items, Some(spent)));
        for word in words.split(' ') {
            let (pattern, limit) = match &self.limited {
                Some(pattern) => (expanded(pattern), word.parse().unwrap()),
                None => (expanded(word), u64::MAX),
            };
            for options in &self.options {
                match glob_in(self.content.clone(), &pattern, *options, limit) {
                    Ok(mut walk) => {
                        let found: Vec<String> = walk.by_ref().map(written).collect();
                        let items: Vec<String> = items.split_whitespace().map(expanded).collect();
                        assert_eq!(found, items, "{pattern} {limit} {options:?}");
                        if let Some(units) = spent {
                            assert_eq!(units.trim(), walk::spent(&walk).to_string(), "{pattern} {limit}");
                        }
                    }
                    Err(fault) => assert_eq!(fault.to_string(), items, "{pattern}"),
                }
            }
        }
        1
    }
}

#[test]
fn walk_rows() {
    let text = fs::read_to_string(tables("vectors").join("walks.txt")).unwrap();
    let (mut state, mut count) = (State::default(), 0);
    for line in text.replace("\n ", " ").lines().filter(|line| !line.starts_with(['#', '='])) {
        if let Some((patterns, items)) = line.split_once(" =>") {
            count += state.check(patterns, items.trim_start());
        } else if let Some((what, words)) = line.split_once(':') {
            state.hear(what, words.trim());
        }
    }
    assert!(count > 50, "{count} rows");
}
