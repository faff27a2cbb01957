//! The settings of a search, each by what it changes.

use std::fs;
use std::io;
use std::path::PathBuf;

use cadmiumdove::ignore::IgnoreList;
use cadmiumdove::search::{NoRuleTexts, RuleTexts, Search, SearchError, SearchRefusal, Wanted};
use cadmiumdove::set::{BraceSetRefusal, PatternSet};
use cadmiumdove::walk::{Disk, Entry, Look, Name, Tree};
use cadmiumdove::MatchOptions;

/// Files by their paths, with their texts. A text that is `!` cannot be read.
#[derive(Clone)]
struct Files(Vec<(&'static str, &'static str)>);

impl Files {
    fn is_dir(&self, path: &str) -> bool {
        path == "." || self.0.iter().any(|(at, _)| at.starts_with(&format!("{path}/")))
    }
}

impl Tree for Files {
    fn look(&mut self, path: &str) -> Look {
        match self.0.iter().any(|(at, _)| *at == path) {
            _ if self.is_dir(path) => Look::Dir,
            true => Look::Other,
            false => Look::Missing,
        }
    }

    fn list(&mut self, path: &str) -> io::Result<Vec<Entry>> {
        let front = if path == "." { String::new() } else { format!("{path}/") };
        let mut names: Vec<&str> =
            self.0.iter().filter_map(|(at, _)| at.strip_prefix(&front)?.split('/').next()).collect();
        names.dedup();
        Ok(names
            .into_iter()
            .map(|name| Entry { is_dir: self.is_dir(&format!("{front}{name}")), name: Name::new(name.into()).unwrap() })
            .collect())
    }
}

impl RuleTexts for Files {
    fn text(&mut self, path: &str) -> io::Result<Option<String>> {
        match self.0.iter().find(|(at, _)| *at == path) {
            Some((_, "!")) => Err(io::ErrorKind::PermissionDenied.into()),
            found => Ok(found.map(|(_, text)| text.to_string())),
        }
    }
}

/// What a search finds in some files, and what it could not do.
fn found(search: Search, files: &Files) -> Vec<String> {
    let items = search.over(files.clone(), files.clone()).map(|item| match item {
        Ok(found) => found.path.into_os_string().into_string().unwrap(),
        Err(fault) => fault.to_string(),
    });
    items.collect()
}

fn search(patterns: &[&str]) -> Search {
    Search::new(patterns).unwrap()
}

#[test]
fn braces() {
    let files = Files(vec![("a.c", ""), ("a.h", ""), ("a.rs", "")]);
    assert_eq!(found(Search::from_braces(["{a,b}.{c,h}", "*.rs"]).unwrap(), &files), ["a.c", "a.h", "a.rs"]);
    let refused = |texts: &[&str]| Search::from_braces(texts).unwrap_err();
    assert!(matches!(refused(&["{a,b}", "{a"]), SearchRefusal::Braces(BraceSetRefusal::Braces(1, _))));
    assert!(matches!(refused(&["{a,b}", "{a,b,[}"]), SearchRefusal::Braces(BraceSetRefusal::Pattern(1, 2, _))));
    assert_eq!(refused(&["{a,b}", "{a,./b}"]), SearchRefusal::NoPath(1));
    assert_eq!(refused(&["{,a/}b", "{,a/}"]), SearchRefusal::NoPath(1));
}

#[test]
fn rules_come_first() {
    let files = Files(vec![(".ignore", "!a.o\n"), ("a.o", ""), ("b.o", "")]);
    let rules = |lines: &str| IgnoreList::new(lines).unwrap();
    let by_file = || search(&["*.o"]).ignore_files([".ignore"]);
    assert_eq!(found(by_file(), &files), ["a.o", "b.o"]);
    assert_eq!(found(by_file().rules(rules("*.o\n")), &files), [""; 0]);
    // The list that was given last decides.
    assert_eq!(found(by_file().rules(rules("*.o\n")).rules(rules("!b.o\n")), &files), ["b.o"]);
}

#[test]
fn the_last_file_decides() {
    let files = Files(vec![
        (".first", "*.o\n"),
        (".second", "!a.o\n"),
        ("a.o", ""),
        ("b.o", ""),
        ("x/.first", "!b.o\n*.c\n"),
        ("x/a.c", ""),
        ("x/b.o", ""),
        ("x/c.o", ""),
        ("y/.first", "[é]\n*.o\n"),
        ("y/a.c", ""),
        ("z/.first", "!"),
        ("z/a.c", ""),
    ]);
    let by = |names: &[&str]| found(search(&["**/*.[co]"]).ignore_files(names.iter().copied()), &files);
    let refused = "y/.first: line 1: a bracket names a character beyond ASCII";
    let unread = "z/.first: permission denied";
    assert_eq!(by(&[".first", ".second"]), ["a.o", "x/b.o", refused, "y/a.c", unread, "z/a.c"]);
    assert_eq!(by(&[".second", ".first"]), ["x/b.o", refused, "y/a.c", unread, "z/a.c"]);
    assert_eq!(by(&[]).len(), 7);
    // Each refused line gives an error, in order.
    let two = Files(vec![(".first", "[é]\na\n[ü]\n"), ("a", ""), ("b", "")]);
    let lines = [1, 3].map(|line| format!(".first: line {line}: a bracket names a character beyond ASCII"));
    assert_eq!(found(search(&["[ab]"]).ignore_files([".first"]), &two), [&lines[0], &lines[1], "b"]);
    // The names that are given last count, with that of git.
    assert_eq!(found(search(&["*.o"]).ignore_files([".first"]).ignore_files([".second"]), &files), ["a.o", "b.o"]);
    let files = Files(vec![
        (".git/a.o", ""),
        (".git/info/exclude", "b.o\n[é]\n"),
        (".gitignore", "a.o\n"),
        ("a.o", ""),
        ("b.o", ""),
        ("x/.git/c.o", ""),
        ("x/d.git", ""),
    ]);
    assert_eq!(found(search(&["**/*.o", "*/*.git"]).git(), &files), ["x/d.git"]);
    // Without `git` its files and directories are like any others.
    let all = [".git/a.o", "a.o", "b.o", "x/.git", "x/.git/c.o", "x/d.git"];
    assert_eq!(found(search(&["**/*.o", "*/*.git"]), &files), all);
    let both = Files(vec![(".gitignore", "!a.o\n"), (".ignore", "a.o\n"), ("a.o", "")]);
    assert_eq!(found(search(&["*.o"]).ignore_files([".ignore"]).git(), &both), ["a.o"]);
}

#[test]
fn a_function_leaves_out() {
    let files = Files(vec![(".ignore", "a\n"), ("a", ""), ("b/c", ""), ("d", "")]);
    let mut asked = Vec::new();
    let (send, receive) = std::sync::mpsc::channel();
    let excluding = search(&["**/*"]).ignore_files([".ignore"]).exclude(move |path, is_dir| {
        send.send((path.to_owned(), is_dir)).unwrap();
        path == "b"
    });
    assert_eq!(found(excluding, &files), [".ignore", "d"]);
    asked.extend(receive);
    assert_eq!(asked, [(".ignore", false), ("b", true), ("d", false)].map(|(path, is_dir)| (path.to_owned(), is_dir)));

    /// Texts that also leave something out.
    struct Texts;

    impl RuleTexts for Texts {
        fn text(&mut self, _path: &str) -> io::Result<Option<String>> {
            Ok(None)
        }

        fn leaves_out(&mut self, path: &str, _is_dir: bool) -> bool {
            path == "a"
        }
    }

    let left =
        |search: Search| -> Vec<_> { search.over(files.clone(), Texts).map(|item| item.unwrap().path).collect() };
    assert_eq!(left(search(&["*"])), [".ignore", "b", "d"].map(PathBuf::from));
    // Whatever any function leaves out.
    let both = search(&["*"]).exclude(|path, _is_dir| path == "d").exclude(|path, is_dir| is_dir || path == ".ignore");
    assert_eq!(left(both), [""; 0].map(PathBuf::from));
}

/// A set leaves out what its patterns match and all below, and a list has comments and negations.
#[test]
fn a_set_leaves_out() {
    let files = Files(vec![("#a", ""), ("a/b/c.o", ""), ("a/d.o", ""), ("e.o", ""), ("x/y", "")]);
    let separator = MatchOptions { require_literal_separator: true, ..MatchOptions::new() };
    let left = |texts: &[&str], options| {
        let set = PatternSet::from_texts(texts, options).unwrap();
        found(search(&["**/*"]).exclude(move |path, _is_dir| set.is_match(path)), &files)
    };
    assert_eq!(left(&["*.o", "#a", "x"], separator), ["a", "a/b", "a/b/c.o", "a/d.o"]);
    assert_eq!(left(&["*/*"], separator), ["#a", "a", "e.o", "x"]);
    assert_eq!(left(&["*.o"], MatchOptions::new()), ["#a", "a", "a/b", "x", "x/y"]);
    // No path is written like these.
    assert_eq!(left(&["./x", "x/", "a/b/c"], separator).len(), 8);
    let list = IgnoreList::new("#a\n*.o\n!e.o\n").unwrap();
    assert_eq!(found(search(&["**/*"]).rules(list), &files), ["#a", "a", "a/b", "e.o", "x", "x/y"]);
}

/// Lookups, listings, entries and files with rules are charged.
#[test]
fn limits() {
    let files = Files(vec![("a", ""), ("b/.i", "x\n"), ("b/c", "")]);
    let rows = [
        // Two listings and four entries.
        (&["**/*"][..], &[][..], 4, 6),
        // The same, and a file with rules.
        (&["**/*"], &[".i"], 4, 7),
        // Lookups of `a`, `b` and `b/c`: what has no wildcard lists nothing.
        (&["a", "b/c"], &[], 2, 3),
    ];
    for (patterns, names, given, all) in rows {
        let begun = |limit| {
            let search = search(patterns).ignore_files(names.iter().copied()).limit(limit);
            search.over(files.clone(), files.clone())
        };
        let mut whole = begun(u64::MAX);
        assert_eq!((whole.spent(), whole.by_ref().count(), whole.spent()), (0, given, all));
        for limit in 0..=all {
            let mut searching = begun(limit);
            let items: Vec<_> = searching.by_ref().collect();
            assert_eq!(matches!(items.last(), Some(Err(SearchError::Limit))), limit < all, "{limit}");
            assert!(searching.spent() <= limit && searching.next().is_none());
        }
    }
}

/// A tree knows only directories and others, and `files` finds the others.
#[test]
fn files_of_a_tree() {
    let files = Files(vec![("a", ""), ("b/c", ""), ("d/e/f", "")]);
    assert_eq!(found(search(&["**/*"]).files(), &files), ["a", "b/c", "d/e/f"]);
    let directories = search(&["**/*"]).files().wanted(Wanted::Directories);
    assert_eq!(found(directories, &files), ["b", "d", "d/e"]);
}

#[test]
fn options() {
    let files = Files(vec![(".a", ""), ("A", ""), ("a", "")]);
    let with = |options| found(search(&["*a"]).options(options), &files);
    assert_eq!(with(MatchOptions::new()), [".a", "a"]);
    assert_eq!(with(MatchOptions { case_sensitive: false, ..MatchOptions::new() }), [".a", "A", "a"]);
    assert_eq!(with(MatchOptions { require_literal_leading_dot: true, ..MatchOptions::new() }), ["a"]);
    assert!(format!("{:?}", search(&["*a"])).contains("*a"));
}

#[test]
fn texts_are_kept() {
    let files = Files(vec![(" a", ""), ("a", ""), ("a ", "")]);
    assert_eq!(found(search(&[" a"]), &files), [" a"]);
    assert_eq!(found(Search::from_braces(["{a ,b}"]).unwrap(), &files), ["a "]);
}

#[test]
fn the_last_directory_counts() {
    let found: Vec<_> = search(&["settings.rs"]).below("src").below("tests").into_iter().map(Result::unwrap).collect();
    assert_eq!(found.len(), 1);
}

#[cfg(unix)]
#[test]
fn links() {
    let at = std::env::temp_dir().join(format!("cadmiumdove-links-{}", std::process::id()));
    let _ = fs::remove_dir_all(&at);
    fs::create_dir_all(at.join("real")).unwrap();
    fs::write(at.join("real/file"), "").unwrap();
    fs::write(at.join("real/.ignore"), "none\n").unwrap();
    std::os::unix::fs::symlink("real", at.join("link")).unwrap();
    std::os::unix::fs::symlink("nowhere", at.join("loose")).unwrap();
    let paths = |search: Search| -> Vec<(String, bool)> {
        let found = search.below(&at).into_iter().map(Result::unwrap);
        found.map(|found| (found.path.to_str().unwrap().to_owned(), found.is_dir)).collect()
    };
    let owned =
        |rows: &[(&str, bool)]| rows.iter().map(|(path, is_dir)| (path.to_string(), *is_dir)).collect::<Vec<_>>();
    let stays = owned(&[("link", false), ("loose", false), ("real", true), ("real/file", false)]);
    assert_eq!(paths(search(&["**/[!.]*"])), stays);
    assert_eq!(paths(search(&["**/[!.]*"]).follow_links(false)), stays);
    let entered =
        owned(&[("link", true), ("link/file", false), ("loose", false), ("real", true), ("real/file", false)]);
    assert_eq!(paths(search(&["**/[!.]*"]).follow_links(true)), entered);
    // Names alone are looked up, through a link only if it is followed.
    assert_eq!(paths(search(&["link/file", "none", "real/file"])), owned(&[("real/file", false)]));
    assert_eq!(paths(search(&["link/file", "none"]).follow_links(true)), owned(&[("link/file", false)]));
    assert_eq!(paths(search(&["real/f*"]).ignore_files([".ignore"])), owned(&[("real/file", false)]));
    // A file of rules that is a directory cannot be read.
    let read = search(&["real/f*"]).ignore_files(["real"]).below(&at).into_iter();
    let faults: Vec<_> = read.filter_map(Result::err).collect();
    assert!(matches!(&faults[..], [SearchError::UnreadRules(path, _)] if path.as_os_str() == "real"), "{faults:?}");
    assert_eq!(search(&["real"]).over(Disk::new(), NoRuleTexts).count(), 0);
    fs::remove_dir_all(&at).unwrap();
}
