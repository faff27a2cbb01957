//! What this crate has besides `glob`: limits, trees, walks that ask, sets, searches, ignore lists and captures.

use std::error::Error;
use std::fmt::Debug;
use std::io::{self, ErrorKind};
use std::path::{Path, PathBuf};

use cadmiumdove::captures::{captures, reach, tokens, CapturesError, Piece, Reached, TokenKind, Written, MOST_STEPS};
use cadmiumdove::ignore::{IgnoreList, Reason, Rule, RuleRefusal};
use cadmiumdove::search::{Found, NoRuleTexts, Search, SearchError, SearchRefusal, Searching, Wanted};
use cadmiumdove::set::braces::BraceError;
use cadmiumdove::set::{BraceSetRefusal, PatternSet, SetRefusal};
use cadmiumdove::walk::{
    given, glob_in, is_plain, spent, Answer, Disk, Entry, GlobCause, Look, Name, Step, Tree, WalkMachine,
};
use cadmiumdove::{MatchOptions, Pattern};

const NEW: MatchOptions = MatchOptions::new();

/// Files by their paths, and the directories above them.
struct Files(&'static [&'static str]);

fn entry(name: &str, is_dir: bool) -> Entry {
    Entry { name: Name::new(name.to_owned()).unwrap(), is_dir }
}

impl Tree for Files {
    fn look(&mut self, path: &str) -> Look {
        match self.0.iter().find_map(|file| Path::new(file).strip_prefix(path.strip_prefix("./").unwrap_or(path)).ok())
        {
            _ if path == "." => Look::Dir,
            Some(rest) if rest == Path::new("") => Look::Other,
            Some(_) => Look::Dir,
            None => Look::Missing,
        }
    }

    fn list(&mut self, path: &str) -> io::Result<Vec<Entry>> {
        if path.ends_with("shut") {
            return Err(ErrorKind::PermissionDenied.into());
        }
        let path = if path == "." { "" } else { path };
        let mut entries: Vec<Entry> = Vec::new();
        for file in self.0 {
            let Ok(rest) = Path::new(file).strip_prefix(path) else { continue };
            let name = rest.components().next().unwrap().as_os_str().to_str().unwrap();
            if entries.iter().all(|entry| entry.name.as_str() != name) {
                entries.insert(0, entry(name, rest.components().count() > 1));
            }
        }
        Ok(entries)
    }
}

const FILES: &[&str] = &["a.rs", "b.c", "shut/x.rs", "src/.x/y.rs", "src/a.rs", "src/b.rs", "target/c.rs"];

/// The paths and the paths of errors of a walk.
fn walked<T: Tree>(tree: T, pattern: &str, options: MatchOptions) -> (Vec<PathBuf>, Vec<PathBuf>) {
    let (paths, errors): (Vec<_>, Vec<_>) = glob_in(tree, pattern, options, u64::MAX).unwrap().partition(Result::is_ok);
    (
        paths.into_iter().flatten().collect(),
        errors.into_iter().map(|item| item.unwrap_err().path().to_owned()).collect(),
    )
}

fn paths(texts: &[&str]) -> Vec<PathBuf> {
    texts.iter().map(PathBuf::from).collect()
}

#[test]
fn traits() {
    fn is_shared<T: Debug + Send + Sync + Unpin + 'static>() {}
    is_shared::<(WalkMachine, Step, Answer, Entry, Name, Look, Disk, GlobCause)>();
    is_shared::<(PatternSet, IgnoreList, Rule, Found, Wanted)>();
    fn is_sent<T: Debug + Send + 'static>() {}
    is_sent::<(Search, Searching<Disk, NoRuleTexts>)>();
    is_shared::<(Piece, Reached, Written, TokenKind)>();
    fn is_error<T: Error + Send + Sync + 'static>() {}
    is_error::<SearchError>();
    is_error::<SearchRefusal>();
    is_error::<SetRefusal>();
    is_error::<BraceSetRefusal>();
    is_error::<BraceError>();
    is_error::<RuleRefusal>();
    is_error::<CapturesError>();
    fn is_copy<T: Copy + Eq>() {}
    is_copy::<(Look, Disk, GlobCause, Rule, Reason)>();
    is_copy::<(Piece, Written, TokenKind, BraceError)>();
    fn is_value<T: Clone + Default>() {}
    is_value::<(PatternSet, IgnoreList, Disk)>();
}

#[test]
fn copies_of_lists() {
    let any_case = MatchOptions { case_sensitive: false, ..NEW };
    let set = PatternSet::from_texts(["*.o", "a*", "[é]"], any_case).unwrap();
    let copy = set.clone();
    assert_eq!((format!("{copy:?}"), copy.options(), copy.len()), (format!("{set:?}"), any_case, 3));
    drop(set);
    assert_eq!(["x.O", "Ab", "é", "b"].map(|text| copy.last_match(text)), [Some(0), Some(1), Some(2), None]);
    assert!(PatternSet::default().is_empty() && !PatternSet::default().is_match(""));
    let list = IgnoreList::new("# rules\n*.o\n!keep.o\n").unwrap();
    let copy = list.clone();
    drop(list);
    assert_eq!(copy.deciding_rule("a/keep.o", false).map(|rule| (rule.line, rule.negative)), Some((3, true)));
    assert!(copy.is_ignored("b.o", false) && IgnoreList::default().deciding_rule("b.o", false).is_none());
}

#[test]
fn trees() {
    let all = ["a.rs", "src/.x/y.rs", "src/a.rs", "src/b.rs", "target/c.rs"];
    assert_eq!(walked(Files(FILES), "**/*.rs", NEW), (paths(&all), paths(&["shut"])));
    let dots = MatchOptions { require_literal_leading_dot: true, ..NEW };
    assert_eq!(walked(Files(FILES), "src/**/*.rs", dots).0, paths(&["src/a.rs", "src/b.rs"]));
    assert_eq!(walked(Files(FILES), "src/.x*/*", dots).0, paths(&["src/.x/y.rs"]));
    assert_eq!(walked(Files(FILES), "*/", NEW).0, paths(&["shut", "src", "target"]));
    assert_eq!(walked(Files(FILES), "src/b.rs", NEW).0, paths(&["src/b.rs"]));
    assert_eq!(walked(Files(FILES), "src/c.rs", NEW).0, paths(&[]));
}

#[test]
fn limits() {
    let mut needed = 0;
    for limit in 0.. {
        let mut walk = glob_in(Files(&["x", "y"]), "*", NEW, limit).unwrap();
        let items: Vec<_> = walk.by_ref().collect();
        assert!(spent(&walk) <= limit && given(&walk) as usize == items.len());
        match items.last().unwrap() {
            Ok(path) => {
                assert_eq!((path.as_path(), items.len(), spent(&walk)), (Path::new("y"), 2, limit));
                needed = limit;
                break;
            }
            Err(error) => {
                assert_eq!((GlobCause::of(error), error.path()), (GlobCause::Limit, Path::new(".")));
                assert_eq!(error.to_string(), "attempting to read `.` resulted in an error: walk limit reached");
            }
        }
    }
    assert_eq!(needed, 4);
}

#[test]
fn a_machine_asks() {
    let mut machine = WalkMachine::new("*/x", NEW, 100).unwrap();
    assert!(matches!(machine.resume(Answer::Nothing), Step::Look));
    assert_eq!(machine.path(), ".");
    assert!(matches!(machine.resume(Answer::Look(Look::Dir)), Step::List));
    assert!(matches!(
        machine.resume(Answer::List(Ok(vec![entry("b", true), entry("f", false), entry("a", true)]))),
        Step::Look
    ));
    assert_eq!(machine.path(), "a/x");
    assert!(matches!(machine.resume(Answer::Look(Look::Other)), Step::Item(Ok(path)) if path == Path::new("a/x")));
    assert!(matches!(machine.resume(Answer::Nothing), Step::Look));
    assert_eq!(machine.path(), "b/x");
    assert!(matches!(machine.resume(Answer::Look(Look::Missing)), Step::Look));
    assert_eq!(machine.path(), "f/x");
    assert!(matches!(machine.resume(Answer::Look(Look::Missing)), Step::Done));
    assert!(matches!(machine.resume(Answer::Nothing), Step::Done));
    assert_eq!((machine.spent(), machine.given()), (8, 1));
    let error = WalkMachine::new("x/a[/]b", NEW, 1).unwrap_err();
    assert_eq!((error.pos, error.msg), (1, "invalid range pattern"));
}

#[test]
fn what_is_no_answer_is_asked_again() {
    let mut machine = WalkMachine::new("*", NEW, 100).unwrap();
    assert!(matches!(machine.resume(Answer::Nothing), Step::Look));
    assert!(matches!(machine.resume(Answer::List(Ok(Vec::new()))), Step::Look));
    assert!(matches!(machine.resume(Answer::Nothing), Step::Look));
    assert_eq!((machine.path(), machine.spent()), (".", 1));
    assert!(matches!(machine.resume(Answer::Look(Look::Dir)), Step::ListNames));
    assert!(matches!(machine.resume(Answer::Look(Look::Missing)), Step::ListNames));
    assert_eq!((machine.path(), machine.spent()), (".", 2));
    assert!(
        matches!(machine.resume(Answer::List(Ok(vec![entry("x", false)]))), Step::Item(Ok(path)) if path == Path::new("x"))
    );
    assert!(matches!(machine.resume(Answer::Look(Look::Dir)), Step::Done));
    assert_eq!((machine.spent(), machine.given()), (3, 1));
    let mut unasked = WalkMachine::new("*", NEW, 100).unwrap();
    assert!(matches!(unasked.resume(Answer::Look(Look::Dir)), Step::Look));
}

#[test]
fn names_and_plain_patterns() {
    assert_eq!(
        ["", ".", "..", "a/b", "\0"].map(|text| Name::new(text.to_owned()).unwrap_err()),
        ["", ".", "..", "a/b", "\0"]
    );
    assert_eq!(Name::new("...".to_owned()).unwrap().as_str(), "...");
    assert_eq!(["src/**/*.rs", "src/./*.rs", ".*"].map(|text| is_plain(text).unwrap()), [true, false, false]);
    assert_eq!(is_plain("a**").unwrap_err().pos, 0);
}

#[test]
fn ignore_lists() {
    let list = IgnoreList::new("# comment\n*.o\n/target/\n!keep.o\ndoc/**/*.txt\na\\*b\n[[:digit:]]x\n").unwrap();
    for (path, is_directory, ignored) in [
        ("a.o", false, true),
        ("src/a.o", false, true),
        ("src/keep.o", false, false),
        ("target", false, false),
        ("target", true, true),
        ("target/keep.o", false, true),
        ("src/target", true, false),
        ("doc/a/b/c.txt", false, true),
        ("doc/c.txt", false, true),
        ("c.txt", false, false),
        ("a*b", false, true),
        ("axb", false, false),
        ("7x", false, true),
        ("ax", false, false),
    ] {
        assert_eq!(list.is_ignored(path, is_directory), ignored, "{path}");
    }
    assert_eq!(list.deciding_rule("keep.o", false), Some(Rule { line: 4, negative: true, directories: false }));
    assert_eq!(list.deciding_rule("b.c", false), None);
    let RuleRefusal::Line(line, reason) = IgnoreList::new("a\n[é]\n").unwrap_err();
    assert_eq!((line, reason), (2, Reason::BeyondAscii));
}

#[test]
fn pieces() {
    let pattern = Pattern::new("**/*.[ch]").unwrap();
    let text = "é/b/c.d.h";
    let pieces = captures(&pattern, text, NEW).unwrap().unwrap();
    assert_eq!(pieces.iter().map(|piece| &text[piece.start..piece.end]).collect::<Vec<_>>(), ["", "é/b/c.d", ".", "h"]);
    let literal = MatchOptions { require_literal_separator: true, ..NEW };
    let pieces = captures(&pattern, text, literal).unwrap().unwrap();
    assert_eq!(pieces.iter().map(|piece| &text[piece.start..piece.end]).collect::<Vec<_>>(), ["é/b/", "c.d", ".", "h"]);
    assert_eq!(captures(&pattern, "a.rs", NEW).unwrap(), None);
    // `**` takes whole components alone
    let whole = Pattern::new("**/b*").unwrap();
    let ends: Vec<usize> = captures(&whole, "xb/b", NEW).unwrap().unwrap().iter().map(|piece| piece.end).collect();
    assert_eq!(ends, [3, 4, 4]);
    let long = "a".repeat(MOST_STEPS / 4 + 1);
    assert!(matches!(captures(&pattern, &long, NEW), Err(CapturesError::TooLarge)));
    assert!(matches!(reach(&pattern, &long, NEW), Err(CapturesError::TooLarge)));
    let kinds: Vec<_> = tokens(&pattern).iter().map(|token| (token.kind, token.piece.end)).collect();
    assert_eq!(
        kinds,
        [(TokenKind::Recursive, 3), (TokenKind::AnySequence, 4), (TokenKind::Literal, 5), (TokenKind::OneOf, 9)]
    );
}

#[test]
fn what_debug_prints() {
    let mut machine = WalkMachine::new("*", NEW, 100).unwrap();
    assert_eq!(format!("{machine:?}"), r#"WalkMachine { path: "", spent: 0, .. }"#);
    assert_eq!(format!("{:?}", machine.resume(Answer::Nothing)), "Look");
    assert_eq!(format!("{machine:?}"), r#"WalkMachine { path: ".", spent: 1, .. }"#);
    let steps = [Step::List, Step::ListNames, Step::Done, Step::Item(Ok(PathBuf::from("a")))];
    assert_eq!(format!("{steps:?}"), r#"[List, ListNames, Done, Item(Ok("a"))]"#);
    let answers = [Answer::Nothing, Answer::Look(Look::Dir), Answer::List(Ok(Vec::new()))];
    assert_eq!(format!("{answers:?}"), "[Nothing, Look(Dir), List(Ok([]))]");
    assert_eq!(format!("{:?}", glob_in(Files(FILES), "*", NEW, 1).unwrap()), "Paths { spent: 0, given: 0 }");
    assert_eq!(format!("{:?}", PatternSet::from_texts(["a*", "b"], NEW).unwrap()), r#"["a*", "b"]"#);
    assert_eq!(format!("{:?}", IgnoreList::new("a").unwrap()), "IgnoreList { .. }");
}

#[test]
fn links_may_be_left_alone() {
    let root = std::env::temp_dir().join(format!("cadmiumdove-{}-kept", std::process::id()));
    let _ = std::fs::remove_dir_all(&root);
    std::fs::create_dir_all(root.join("d")).unwrap();
    std::fs::write(root.join("d/x"), "").unwrap();
    #[cfg(unix)]
    std::os::unix::fs::symlink(".", root.join("again")).unwrap();
    let pattern = format!("{}/**/x", root.display());
    let found = walked(Disk::new().follow_links(false), &pattern, NEW).0;
    let through = walked(Disk::new().follow_links(false), &format!("{}/again/d/x", root.display()), NEW).0;
    let below = walked(Disk::new().follow_links(false), &format!("{}/again/*", root.display()), NEW).0;
    std::fs::remove_dir_all(&root).unwrap();
    assert_eq!(found, [root.join("d/x")]);
    assert_eq!((through.len(), below.len()), (cfg!(unix) as usize, 0));
}

#[test]
fn refusals_names_and_entries_are_copied_and_compared() {
    let fault = Pattern::new("a[").unwrap_err();
    assert_eq!(fault.clone(), fault);
    assert_ne!(Pattern::new("[").unwrap_err(), fault);
    let refusal = PatternSet::from_texts(["a", "a["], MatchOptions::new()).unwrap_err();
    assert_eq!(refusal.clone(), SetRefusal::Syntax(1, fault.clone()));
    assert_ne!(refusal, SetRefusal::Syntax(0, fault.clone()));
    let braces = PatternSet::from_braces(["{a,a[}"], MatchOptions::new()).unwrap_err();
    assert_eq!(braces.clone(), BraceSetRefusal::Pattern(0, 1, fault.clone()));
    assert_ne!(braces, PatternSet::from_braces(["{a"], MatchOptions::new()).unwrap_err());
    let sources = [refusal.source(), braces.source()].map(|source| source.unwrap().to_string());
    assert_eq!(sources, [fault.to_string(), fault.to_string()]);
    let unclosed = PatternSet::from_braces(["{a"], MatchOptions::new()).unwrap_err();
    assert!(unclosed.to_string().ends_with(&unclosed.source().unwrap().to_string()));
    let line = "[\u{e9}]".parse::<IgnoreList>().unwrap_err();
    assert_eq!(line.clone(), IgnoreList::new("[\u{e9}]\n").unwrap_err());

    let mut names = ["b", "a"].map(|name| Name::try_from(name.to_owned()).unwrap());
    names.sort();
    assert_eq!(names.clone().map(|name| format!("{name:>2}")), [" a", " b"]);
    assert_eq!(Name::try_from(" a ".to_owned()).unwrap().as_str(), " a ");
    // A text that is no name comes back.
    assert_eq!(["a/b", "..", ""].map(|text| Name::try_from(text.to_owned()).unwrap_err()), ["a/b", "..", ""]);
    assert_eq!(Pattern::try_from(" a ").unwrap().as_str(), " a ");
    let entries = names.map(|name| Entry { name, is_dir: false });
    assert_eq!(entries.clone(), entries);
    assert_ne!(entries[0], Entry { is_dir: true, ..entries[0].clone() });

    let set: PatternSet = ["*.o", "*.a"].into_iter().map(|text| Pattern::try_from(text).unwrap()).collect();
    assert_eq!((&set).into_iter().map(AsRef::as_ref).collect::<Vec<&str>>(), ["*.o", "*.a"]);
    assert_eq!((set.options(), set.matches_path("a.o")), (MatchOptions::new(), vec![0]));
}

#[test]
fn refused_lines_are_passed_over() {
    // a mark of the byte order counts in no line but the first
    for (text, refused) in
        [("a\n\u{feff}**/b\nc", vec![2]), ("\u{feff}[é]\nc", vec![1]), ("[é]\r\n[[:x:]]\nc", vec![1, 2])]
    {
        let (list, refusals) = IgnoreList::lenient(text);
        let lines: Vec<usize> = refusals.iter().map(|RuleRefusal::Line(line, _)| *line).collect();
        assert_eq!(lines, refused, "{text:?}");
        // Lines that are left keep their numbers.
        assert_eq!(list.deciding_rule("c", false).map(|rule| rule.line), Some(text.lines().count()), "{text:?}");
    }
}
