//! Every public name of `glob` 0.3.4, with its traits. Release 0.3.0 lacks some.

use std::collections::{HashMap, HashSet};
use std::error::Error;
use std::fmt::{Debug, Display};
use std::hash::Hash;
use std::io;
use std::panic::{RefUnwindSafe, UnwindSafe};
use std::path::{Path, PathBuf};
use std::str::FromStr;

use cadmiumdove::{
    glob, glob_with, GlobError, GlobResult, MatchOptions, Paths, Pattern, PatternError, PatternErrorKind,
};

fn is_value<
    T: Clone + Debug + Default + Eq + Ord + Hash + Send + Sync + UnwindSafe + RefUnwindSafe + Unpin + 'static,
>() {
}

fn is_error<T: Error + Debug + Display + Send + Sync + Unpin + 'static>() {}

fn is_copy<T: Copy>() {}

fn is_iterator<T: Iterator<Item = GlobResult> + Debug + Send + Sync + Unpin + 'static>() {}

#[test]
fn traits() {
    is_value::<Pattern>();
    is_value::<MatchOptions>();
    is_copy::<MatchOptions>();
    is_error::<PatternError>();
    is_error::<GlobError>();
    is_iterator::<Paths>();
    fn crosses<T: UnwindSafe + RefUnwindSafe>() {}
    crosses::<PatternError>();
}

#[test]
fn patterns() {
    let pattern: Pattern = "a*".parse().unwrap();
    assert_eq!(Pattern::from_str("a*").unwrap(), pattern);
    assert_eq!(format!("{pattern}|{pattern:>4}|{pattern:<4}|{pattern:^4}|{pattern:.1}"), "a*|  a*|a*  | a* |a");
    assert_eq!(pattern.as_str(), "a*");
    assert!(format!("{pattern:?}").starts_with("Pattern"));
    assert!(Pattern::default() < pattern && Pattern::default().matches("") && !Pattern::default().matches("a"));
    assert_eq!(HashSet::from([pattern.clone(), pattern.clone(), Pattern::default()]).len(), 2);
    assert!(pattern.clone().matches("ab"));
    assert!(pattern.matches_path(Path::new("ab")) && !pattern.matches_path(Path::new("ba")));
    let any_case = MatchOptions { case_sensitive: false, ..MatchOptions::new() };
    assert!(pattern.matches_with("Ab", any_case) && pattern.matches_path_with(Path::new("Ab"), any_case));
    assert!(!pattern.matches_with("Ab", MatchOptions::new()));
    assert_eq!(Pattern::escape("a?"), "a[?]");
}

#[test]
fn texts_are_kept() {
    for text in ["", " ", " a ", "a\t", "a\n", "é*\u{a0}", "**/ "] {
        let pattern = Pattern::new(text).unwrap();
        assert_eq!((pattern.as_str(), pattern.clone().as_str(), pattern.to_string().as_str()), (text, text, text));
        assert!(pattern.matches(&text.replace('*', "")));
    }
    assert_eq!(Pattern::escape(" [a] "), " [[]a[]] ");
}

/// Which of some texts a pattern matches, under several options.
fn answers(pattern: &Pattern) -> Vec<bool> {
    let texts = ["".into(), "src/a.rs".into(), "xaxe".into(), "xAb".into(), "x".repeat(40), "abcd/".repeat(30)];
    let options = ["", "i", "s", "d", "isd"].map(|letters| MatchOptions {
        case_sensitive: !letters.contains('i'),
        require_literal_separator: letters.contains('s'),
        require_literal_leading_dot: letters.contains('d'),
    });
    texts.iter().flat_map(|text| options.map(|options| pattern.matches_with(text, options))).collect()
}

/// Of patterns without masks, with those of one word, and of several: several threads match at once, and copies are made
/// before and after it.
#[test]
fn copies_and_threads() {
    let mut seen = HashSet::new();
    for (unit, often) in [("", 1), ("src/*.rs", 1), ("*a[!b-d]*", 1), ("*?", 40), ("[a-c]b?d*/", 30)] {
        let pattern = Pattern::new(&unit.repeat(often)).unwrap();
        let early = pattern.clone();
        let wanted = std::thread::scope(|scope| {
            let threads = [(); 4].map(|()| scope.spawn(|| answers(&pattern)));
            threads.map(|thread| thread.join().unwrap())
        });
        let late = pattern.clone().clone();
        assert_eq!((early.as_str(), &early), (pattern.as_str(), &pattern));
        drop(pattern);
        for answers in [answers(&early), answers(&late)].iter().chain(&wanted) {
            assert_eq!(answers, &wanted[0], "{early}");
        }
        assert!(wanted[0].contains(&true) && seen.insert(wanted[0].clone()));
    }
}

/// A pattern is a key that nothing changes: clippy would say so of one with interior mutability.
#[test]
fn patterns_are_keys() {
    let mut counts: HashMap<Pattern, u8> = HashMap::new();
    let pattern = Pattern::new("*a*").unwrap();
    *counts.entry(pattern.clone()).or_default() += 1;
    assert!(pattern.matches("bab"));
    *counts.entry(pattern.clone()).or_default() += 1;
    assert_eq!(counts.get(&pattern), Some(&2));
}

#[test]
#[allow(deprecated)]
fn errors() {
    let error: PatternError = Pattern::new("a**").unwrap_err();
    assert_eq!((error.pos, error.msg), (0, "recursive wildcards must form a single path component"));
    assert_eq!(error.to_string(), format!("Pattern syntax error near position 0: {}", error.msg));
    assert_eq!(error.description(), error.msg);
    let kinds =
        [("a/***", PatternErrorKind::Wildcards), ("a**", PatternErrorKind::Recursive), ("[a", PatternErrorKind::Range)];
    for (text, kind) in kinds {
        let error = Pattern::new(text).unwrap_err();
        assert_eq!((PatternErrorKind::of(&error), kind.message()), (kind, error.msg));
    }
    assert!(error.source().is_none());
    assert!(format!("{error:?}").starts_with("PatternError { pos: 0"));
    let _: fn(GlobError) -> (PathBuf, String, io::Error) = |error| {
        let path = error.path().to_owned();
        match error.cause() {
            Some(cause) => (path, cause.to_string(), error.into()),
            None => (path, error.error().to_string(), error.into_error()),
        }
    };
}

#[test]
fn options() {
    const NEW: MatchOptions = MatchOptions::new();
    assert_eq!(
        [NEW.case_sensitive, NEW.require_literal_separator, NEW.require_literal_leading_dot],
        [true, false, false]
    );
    let default = MatchOptions { case_sensitive: true, ..MatchOptions::default() };
    assert_eq!(default, NEW);
    assert!(MatchOptions::default() < NEW);
    let text =
        "MatchOptions { case_sensitive: true, require_literal_separator: false, require_literal_leading_dot: false }";
    assert_eq!(format!("{NEW:?}"), text);
}

#[test]
fn walks() {
    let found: Result<Vec<PathBuf>, GlobError> = glob("Cargo.tom?").unwrap().collect();
    assert_eq!(found.unwrap(), [Path::new("Cargo.toml")]);
    let found: GlobResult = glob_with("*.TOML", MatchOptions::default()).unwrap().next().unwrap();
    assert_eq!(found.unwrap(), Path::new("Cargo.toml"));
}

/// Traits of users may have functions of names that `glob` has not.
trait Named {
    fn matches_counted(&self) -> u8 {
        7
    }
    fn with_letter(&self) -> u8 {
        7
    }
    fn kind(&self) -> u8 {
        7
    }
    fn reason(&self) -> u8 {
        7
    }
    fn spent(&self) -> u8 {
        7
    }
    fn given(&self) -> u8 {
        7
    }
    fn from_bits() -> u8 {
        7
    }
    fn from_letters() -> u8 {
        7
    }
}

impl Named for Pattern {}
impl Named for MatchOptions {}
impl Named for PatternError {}
impl Named for GlobError {}
impl Named for Paths {}

#[test]
fn names_of_users() {
    assert_eq!(Pattern::default().matches_counted(), 7);
    assert_eq!([MatchOptions::new().with_letter(), MatchOptions::from_bits(), MatchOptions::from_letters()], [7; 3]);
    assert_eq!(Pattern::new("[").unwrap_err().kind(), 7);
    let paths = glob("*").unwrap();
    assert_eq!([paths.spent(), paths.given()], [7; 2]);
    let _: fn(GlobError) -> u8 = |error| error.reason();
}
