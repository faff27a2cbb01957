//! What a search of the file system says that it could not do.
#![cfg(unix)]

use std::collections::BTreeSet;
use std::env;
use std::error::Error;
use std::ffi::OsStr;
use std::fs::{self, File};
use std::io;
use std::os::unix::ffi::OsStrExt;
use std::path::{Path, PathBuf};
use std::process;

use cadmiumdove::ignore::Reason;
use cadmiumdove::search::{NoRuleTexts, RuleTexts, Search, SearchError, SearchRefusal, Wanted};
use cadmiumdove::walk::{Disk, Entry, Look, Name, Tree};

/// A directory of its own, which is removed at the end.
struct Scratch(PathBuf);

impl Scratch {
    fn new(name: &str) -> Self {
        let at = env::temp_dir().join(format!("cadmiumdove-errors-{name}-{}", process::id()));
        let _ = fs::remove_dir_all(&at);
        fs::create_dir_all(&at).unwrap();
        Scratch(at)
    }

    /// With these files, whose names are bytes.
    fn with(name: &str, files: &[&[u8]]) -> Self {
        let scratch = Scratch::new(name);
        for file in files {
            let path = scratch.0.join(path(file));
            fs::create_dir_all(path.parent().unwrap()).unwrap();
            File::create(path).unwrap();
        }
        scratch
    }

    fn search(&self, patterns: &[&str]) -> Search {
        Search::new(patterns).unwrap().below(&self.0)
    }
}

impl Drop for Scratch {
    fn drop(&mut self) {
        let _ = fs::remove_dir_all(&self.0);
    }
}

fn path(bytes: &[u8]) -> &Path {
    Path::new(OsStr::from_bytes(bytes))
}

/// The items of a search: what is found, and after a `!` what is not text.
fn items(search: Search) -> Vec<Vec<u8>> {
    let items = search.into_iter().map(|item| match item {
        Ok(found) => found.path.as_os_str().as_bytes().to_vec(),
        Err(SearchError::NotText(path)) => [b"!", path.as_os_str().as_bytes()].concat(),
        Err(error) => panic!("{error}"),
    });
    items.collect()
}

/// All paths below a directory that a copier would take, by `std::fs` alone, as long as their names are UTF-8; and each
/// path with the first name that is not.
fn all_below(at: &Path, above: &Path, texts: &mut BTreeSet<PathBuf>, strays: &mut BTreeSet<PathBuf>) {
    for entry in fs::read_dir(at).unwrap().map(Result::unwrap) {
        let path = above.join(entry.file_name());
        if entry.file_name().to_str().is_none() {
            strays.insert(path);
            continue;
        }
        if entry.file_type().unwrap().is_dir() {
            all_below(&entry.path(), &path, texts, strays);
        }
        texts.insert(path);
    }
}

const FILES: &[&[u8]] = &[
    b"a",
    b"z",
    b"caf\xe9.txt",
    b"\x80",
    b"d/b",
    b"d/\xff",
    b"d/e/c",
    b"d\xff/below",
    b"s/\xc3\xa9",
    b"s/\xc3",
    b"t/x",
];

#[test]
fn each_name_is_found_or_an_error() {
    let scratch = Scratch::with("all", FILES);
    let (mut texts, mut strays) = (BTreeSet::new(), BTreeSet::new());
    all_below(&scratch.0, Path::new(""), &mut texts, &mut strays);
    assert_eq!((texts.len(), strays.len()), (10, 5));
    let (mut found, mut errors) = (BTreeSet::new(), BTreeSet::new());
    for item in scratch.search(&["**/*"]) {
        let is_new = match item {
            Ok(it) => found.insert(it.path),
            Err(SearchError::NotText(path)) => errors.insert(path),
            Err(error) => panic!("{error}"),
        };
        assert!(is_new);
    }
    assert_eq!((found, errors), (texts, strays));
}

#[test]
fn names_that_are_not_text_come_before_the_entries_of_their_directory() {
    let scratch = Scratch::with("order", FILES);
    let all: &[&[u8]] = &[
        b"!caf\xe9.txt",
        b"!d\xff",
        b"!\x80",
        b"a",
        b"d",
        b"!d/\xff",
        b"d/b",
        b"d/e",
        b"d/e/c",
        b"s",
        b"!s/\xc3",
        b"s/\xc3\xa9",
        b"t",
        b"t/x",
        b"z",
    ];
    assert_eq!(items(scratch.search(&["**/*"])), all);
    // Also where nothing is found in the directory, or in none.
    assert_eq!(items(scratch.search(&["d/n*", "t/*"])), [&b"!d/\xff"[..], b"t/x"]);
    assert_eq!(items(scratch.search(&["[n]*"])), [&b"!caf\xe9.txt"[..], b"!d\xff", b"!\x80"]);
    // What is looked up lists nothing, and no deeper directory is listed than is searched.
    assert_eq!(items(scratch.search(&["d/b"])), [b"d/b"]);
    assert_eq!(items(scratch.search(&["**/*"]).max_depth(1)).len(), 3 + 5);
    // A directory that is left out is not listed.
    assert_eq!(items(scratch.search(&["**/b"]).exclude(|path, _is_dir| path == "d")).len(), 3 + 1);
}

#[test]
fn names_that_are_not_text_come_before_the_end() {
    let scratch = Scratch::with("end", &[b"\xff", b"a"]);
    let mut searching = scratch.search(&["n*"]).into_iter();
    assert!(matches!(searching.next(), Some(Err(SearchError::NotText(_)))));
    assert!(searching.next().is_none() && searching.next().is_none());
    let last: Vec<_> = scratch.search(&["*"]).limit(1).into_iter().collect();
    assert!(matches!(&last[..], [Err(SearchError::NotText(_)), Err(SearchError::Limit)]), "{last:?}");
}

#[test]
fn the_names_of_a_tree_are_text() {
    let scratch = Scratch::with("over", &[b"\xff", b"a"]);
    let pattern = format!("{}/*", scratch.0.strip_prefix("/").unwrap().display());
    // Over the disk itself, as any tree: the search begins at the current directory.
    env::set_current_dir("/").unwrap();
    let found: Vec<_> = Search::new([pattern]).unwrap().over(Disk::new(), NoRuleTexts).map(Result::unwrap).collect();
    assert_eq!(found.len(), 1);
}

/// What `std::fs` says is no directory, whatever else it is.
#[test]
fn others_are_all_but_directories() {
    let scratch = Scratch::with("others", &[b"d/file", b"file"]);
    let socket = std::os::unix::net::UnixListener::bind(scratch.0.join("socket")).unwrap();
    for (link, to) in [("loose", "nowhere"), ("to_dir", "d"), ("to_file", "file")] {
        std::os::unix::fs::symlink(to, scratch.0.join(link)).unwrap();
    }
    let found = |wanted| -> BTreeSet<PathBuf> {
        scratch.search(&["*"]).wanted(wanted).into_iter().map(|item| item.unwrap().path).collect()
    };
    let entries: Vec<_> = fs::read_dir(&scratch.0).unwrap().map(Result::unwrap).collect();
    let (dirs, others): (Vec<_>, Vec<_>) =
        entries.iter().partition(|entry| fs::symlink_metadata(entry.path()).unwrap().is_dir());
    let names = |entries: Vec<&fs::DirEntry>| entries.iter().map(|entry| entry.file_name().into()).collect();
    assert_eq!((dirs.len(), others.len()), (1, 5));
    assert_eq!((found(Wanted::Directories), found(Wanted::Others)), (names(dirs), names(others)));
    let files =
        |search: Search| -> Vec<PathBuf> { search.files().into_iter().map(|item| item.unwrap().path).collect() };
    assert_eq!(files(scratch.search(&["*"])), [Path::new("file")]);
    assert_eq!(files(scratch.search(&["*"]).follow_links(true)), [Path::new("file"), Path::new("to_file")]);
    assert_eq!(files(scratch.search(&["to_*", "socket", "loose", "d/**/*"])), [Path::new("d/file")]);
    assert_eq!(scratch.search(&["*"]).files().wanted(Wanted::Others).into_iter().count(), 5);
    drop(socket);
}

/// The kind of the error, as `std::fs` has them where the directory is listed.
#[test]
fn a_start_that_is_no_directory_is_an_error() {
    let scratch = Scratch::with("start", &[b"file", b"d/a"]);
    std::os::unix::fs::symlink("nowhere", scratch.0.join("loose")).unwrap();
    std::os::unix::fs::symlink("loop", scratch.0.join("loop")).unwrap();
    std::os::unix::fs::symlink("d", scratch.0.join("link")).unwrap();
    for start in ["missing", "missing/d", "file", "file/d", "loose", "loop"] {
        let start = scratch.0.join(start);
        let expected = fs::read_dir(&start).unwrap_err().kind();
        for pattern in ["a", "*", "d/a", "**/*"] {
            let search = || Search::new([pattern]).unwrap().below(&start);
            for search in [search(), search().git(), search().follow_links(true), search().limit(0)] {
                let mut searching = search.into_iter();
                let error = searching.next().unwrap().unwrap_err();
                assert!(matches!(&error, SearchError::Unread(_, error) if error.kind() == expected), "{error:?}");
                assert_eq!(error.path(), Some(Path::new(".")));
                assert!(error.to_string().starts_with(".: "));
                assert!(searching.next().is_none() && searching.spent() == 0);
            }
        }
    }
    for start in ["d", "d/", "link", "d/../d/."] {
        for pattern in ["a", "*", "**/*"] {
            let search = Search::new([pattern]).unwrap().below(scratch.0.join(start));
            let found: Vec<PathBuf> = search.into_iter().map(|item| item.unwrap().path).collect();
            assert_eq!(found, [Path::new("a")], "{start} {pattern}");
        }
    }
}

/// A tree in which nothing can be listed or read, except for the names of the start directory.
struct Shut;

impl Tree for Shut {
    fn look(&mut self, path: &str) -> Look {
        match path {
            "." | "d" => Look::Dir,
            _ => Look::Missing,
        }
    }

    fn list(&mut self, path: &str) -> io::Result<Vec<Entry>> {
        if path != "." {
            return Err(io::ErrorKind::PermissionDenied.into());
        }
        let names = [(".i", false), ("d", true)];
        Ok(names.map(|(name, is_dir)| Entry { name: Name::new(name.to_owned()).unwrap(), is_dir }).into())
    }
}

impl RuleTexts for Shut {
    fn text(&mut self, _path: &str) -> io::Result<Option<String>> {
        Err(io::ErrorKind::TimedOut.into())
    }
}

/// Which error says what, also where the system would let the super-user do all.
#[test]
fn what_cannot_be_listed_and_what_cannot_be_read() {
    let items: Vec<_> = Search::new(["**/*"]).unwrap().ignore_files([".i"]).over(Shut, Shut).collect();
    let [Err(SearchError::UnreadRules(rules, late)), Ok(file), Ok(dir), Err(SearchError::Unread(shut, denied))] =
        &items[..]
    else {
        panic!("{items:?}");
    };
    assert_eq!((rules.as_path(), late.kind()), (Path::new(".i"), io::ErrorKind::TimedOut));
    assert_eq!((file.path.as_path(), dir.path.as_path()), (Path::new(".i"), Path::new("d")));
    assert_eq!((shut.as_path(), denied.kind()), (Path::new("d"), io::ErrorKind::PermissionDenied));
}

/// A refusal prints its number, and its sources are the faults without it.
#[test]
fn refusals_have_a_number_and_a_source() {
    let row = |refusal: SearchRefusal| (refusal.number(), refusal.to_string(), sources(&refusal));
    let plain = |texts: &[&str]| row(Search::new(texts).unwrap_err());
    let braces = |texts: &[&str]| row(Search::from_braces(texts).unwrap_err());
    let fault = "Pattern syntax error near position 0: invalid range pattern".to_owned();
    assert_eq!(plain(&["a", "[b"]), (1, format!("pattern 1: {fault}"), vec![fault.clone()]));
    let no_path = "no path of a search matches it: leave out `./`, `..`, `//`, and a `/` at either end";
    assert_eq!(plain(&["a", "b", "c/"]), (2, format!("pattern 2: {no_path}"), vec![]));
    let (number, text, below) = braces(&["a", "{b"]);
    assert_eq!((number, text, below.len()), (1, format!("pattern 1: {}", below[0]), 1));
    assert_eq!(braces(&["{a,b}", "{c,d,[}"]), (1, format!("pattern 1, alternative 2: {fault}"), vec![fault]));
    assert_eq!(braces(&["{a,b}", "{c,/}"]), (1, format!("pattern 1: {no_path}"), vec![]));
}

fn sources(error: &dyn Error) -> Vec<String> {
    std::iter::successors(error.source(), |&error| error.source()).map(ToString::to_string).collect()
}

/// Errors name paths from the start directory on, and the search goes on after them.
#[test]
fn paths_of_errors_are_from_the_start_directory() {
    let scratch = Scratch::with("paths", &[b"d/e/f", b"g/\xff", b"h/.i", b"h/j", b"h/k"]);
    // The line that is not refused counts.
    fs::write(scratch.0.join("h/.i"), "j\n[\u{e9}]\n").unwrap();
    // A file of rules that is a directory cannot be read.
    fs::create_dir(scratch.0.join("d/.i")).unwrap();
    let search = Search::new(["d/**/*", "*/*"]).unwrap().ignore_files([".i"]).below(&scratch.0);
    let mut paths = Vec::new();
    for item in search {
        match item {
            Ok(found) => paths.push(found.path),
            Err(error) => {
                let path = error.path().unwrap();
                assert!(scratch.0.join(path).symlink_metadata().is_ok(), "{error}");
                paths.push(Path::new("!").join(path));
            }
        }
    }
    let expected: [&[u8]; 8] = [b"!/d/.i", b"d/.i", b"d/e", b"d/e/f", b"!/g/\xff", b"!/h/.i", b"h/.i", b"h/k"];
    assert_eq!(paths, expected.map(path));
}

#[test]
fn errors_have_a_path_a_text_and_a_source() {
    let row = |error: SearchError| {
        let path = error.path().map(Path::to_owned);
        let source = error.source().map(ToString::to_string);
        (path, error.to_string(), source, error.is_last())
    };
    let denied = || io::Error::from(io::ErrorKind::PermissionDenied);
    let reason = Reason::BeyondAscii;
    let rows = [
        (
            SearchError::NotText(path(b"d/\xff").into()),
            Some(path(b"d/\xff")),
            "d/\u{fffd}: the name is not UTF-8",
            None,
        ),
        (SearchError::Unread("a/b".into(), denied()), Some(Path::new("a/b")), "a/b: DENIED", Some("DENIED")),
        (SearchError::UnreadRules("a/.i".into(), denied()), Some(Path::new("a/.i")), "a/.i: DENIED", Some("DENIED")),
        (
            SearchError::RefusedRules("a/.i".into(), 2, reason),
            Some(Path::new("a/.i")),
            "a/.i: line 2: REASON",
            Some("REASON"),
        ),
        (SearchError::Limit, None, "search limit reached", None),
    ];
    for (error, path, text, source) in rows {
        let is_last = matches!(error, SearchError::Limit);
        let filled = |text: &str| {
            text.replace("DENIED", &denied().to_string()).replace("REASON", "a bracket names a character beyond ASCII")
        };
        assert_eq!(row(error), (path.map(Path::to_owned), filled(text), source.map(filled), is_last));
    }
}

#[test]
fn a_path_that_cannot_be_looked_up_is_an_error() {
    let scratch = Scratch::with("long", &[b"a", b"d/b"]);
    let long = "n".repeat(256);
    let mut items = scratch.search(&["a", &long, &format!("d/{long}/*"), "d/*"]).into_iter();
    let mut errors = BTreeSet::new();
    let mut found = Vec::new();
    for item in items.by_ref() {
        match item {
            Ok(it) => found.push(it.path),
            Err(SearchError::Unread(path, error)) => {
                assert_ne!(error.kind(), io::ErrorKind::NotFound);
                assert!(errors.insert(path));
            }
            Err(error) => panic!("{error}"),
        }
    }
    assert_eq!(found, [Path::new("a"), Path::new("d/b")]);
    assert!(errors.contains(Path::new(&long)), "{errors:?}");
    // Nothing is below a file.
    assert_eq!(scratch.search(&["a/b", "a/b/*", "n"]).into_iter().count(), 0);
}
