//! What a program that walks by `glob` asks. `tests/rust.sh` runs it over `glob`, too.

use std::error::Error;
use std::fs::{self, File};
use std::os::unix::fs::symlink;
use std::path::{Path, PathBuf};
use std::{env, io, process};

use cadmiumdove::{glob, glob_with, GlobError, GlobResult, MatchOptions, Paths};

/// A directory of its own, which goes when it is dropped.
struct Folder(PathBuf);

impl Folder {
    /// With these files, and these directories, which end in `/`.
    fn new(name: &str, entries: &[&str]) -> Folder {
        let root = env::temp_dir().join(format!("cadmiumdove-{}-{name}", process::id()));
        let _ = fs::remove_dir_all(&root);
        fs::create_dir(&root).unwrap();
        for entry in entries {
            let path = root.join(entry);
            if entry.ends_with('/') {
                fs::create_dir_all(path).unwrap();
            } else {
                fs::create_dir_all(path.parent().unwrap()).unwrap();
                File::create(path).unwrap();
            }
        }
        Folder(root)
    }

    fn walk(&self, pattern: &str, options: MatchOptions) -> Vec<String> {
        let whole = format!("{}/{pattern}", self.0.display());
        let paths = glob_with(&whole, options).unwrap().map(|path| path.unwrap());
        paths.map(|path| path.strip_prefix(&self.0).unwrap().to_str().unwrap().to_owned()).collect()
    }

    fn finds(&self, pattern: &str, paths: &[&str]) {
        assert_eq!(self.walk(pattern, MatchOptions::new()), paths, "{pattern}");
    }
}

impl Drop for Folder {
    fn drop(&mut self) {
        fs::remove_dir_all(&self.0).unwrap();
    }
}

#[test]
fn names_and_wildcards() {
    let folder =
        Folder::new("names", &["a", "ab", "b/a", "b/c/a", "c/a", "c/d", "é", "x\ny", "[", "d/", "b/c/..e", "b/c/e~"]);
    folder.finds("a", &["a"]);
    folder.finds("nothing", &[]);
    folder.finds("a/b", &[]);
    folder.finds("*", &["[", "a", "ab", "b", "c", "d", "x\ny", "é"]);
    folder.finds("?", &["[", "a", "b", "c", "d", "é"]);
    folder.finds("x?y", &["x\ny"]);
    folder.finds("[[]", &["["]);
    folder.finds("a*", &["a", "ab"]);
    folder.finds("*/a", &["b/a", "c/a"]);
    folder.finds("[!a-b]/*", &["c/a", "c/d"]);
    folder.finds("b/*/a", &["b/c/a"]);
    folder.finds("*/", &["b", "c", "d"]);
    folder.finds("b/c/a/", &[]);
    folder.finds("b/c/", &["b/c"]);
    folder.finds("b/c/*", &["b/c/..e", "b/c/a", "b/c/e~"]);
}

#[test]
fn blanks() {
    let folder = Folder::new("blanks", &["x", "x ", " y/z ", " y/z"]);
    folder.finds("x ", &["x "]);
    folder.finds("* ", &["x "]);
    folder.finds(" y/z ", &[" y/z "]);
    folder.finds("**/z ", &[" y/z "]);
}

#[test]
fn recursive_wildcards() {
    let folder = Folder::new("recursive", &["a/b/c/x", "a/b/x", "a/x", "x", "y/z", "e/"]);
    folder.finds("**/x", &["a/b/c/x", "a/b/x", "a/x", "x"]);
    folder.finds("a/**/x", &["a/b/c/x", "a/b/x", "a/x"]);
    folder.finds("**", &["a", "a/b", "a/b/c", "e", "y"]);
    folder.finds("a/**/**/c", &["a/b/c"]);
    folder.finds("**/b/**/x", &["a/b/c/x", "a/b/x"]);
    folder.finds("x/**", &[]);
    folder.finds("**/*", &["a", "a/b", "a/b/c", "a/b/c/x", "a/b/x", "a/x", "e", "x", "y", "y/z"]);
    folder.finds("**/*/", &["a", "a/b", "a/b/c", "e", "y"]);
}

#[test]
fn brackets() {
    let folder = Folder::new("brackets", &["!", "*", "?", "[", "]"]);
    folder.finds("[[]", &["["]);
    folder.finds("[]]", &["]"]);
    folder.finds("[*]", &["*"]);
    folder.finds("[?]", &["?"]);
    folder.finds("[![]", &["!", "*", "?", "]"]);
    folder.finds("[!]]", &["!", "*", "?", "["]);
    folder.finds("[!!]", &["*", "?", "[", "]"]);
    folder.finds("[!*]", &["!", "?", "[", "]"]);
    folder.finds("[!?]", &["!", "*", "[", "]"]);
    folder.finds("!", &["!"]);
}

#[test]
fn dots() {
    let folder = Folder::new("dots", &["aaa/f", "bbb/"]);
    folder.finds("*/..", &["aaa/..", "bbb/.."]);
    folder.finds("aaa/../bbb", &["aaa/../bbb"]);
    folder.finds("nothing/../bbb", &[]);
    folder.finds("aaa/f/..", &[]);
    folder.finds("aaa/f/.", &[]);
}

#[test]
fn many_files() {
    let names: Vec<String> = (0..10_000).map(|number| format!("{number:04}")).collect();
    let names: Vec<&str> = names.iter().map(String::as_str).collect();
    Folder::new("many", &names).finds("*", &names);
    assert!(glob("/*/*/*/*").unwrap().take(10_000).count() > 100);
}

#[test]
fn options() {
    let folder = Folder::new("options", &["A/B", "a/b", ".h", ".i/x"]);
    let new = MatchOptions::new();
    let any_case = MatchOptions { case_sensitive: false, ..new };
    assert_eq!(folder.walk("[a]/[b]", any_case), ["A/B", "a/b"]);
    assert_eq!(folder.walk("[a]/[b]", new), ["a/b"]);
    assert_eq!(folder.walk("*", new), [".h", ".i", "A", "a"]);
    let dots = MatchOptions { require_literal_leading_dot: true, ..new };
    assert_eq!(folder.walk("*", dots), ["A", "a"]);
    assert_eq!(folder.walk(".h", dots), [".h"]);
    assert_eq!(folder.walk(".i/*", dots), [".i/x"]);
    assert_eq!(folder.walk("*/x", dots), [""; 0]);
}

#[test]
fn links() {
    let folder = Folder::new("links", &["d/x", "f"]);
    symlink("d", folder.0.join("to_d")).unwrap();
    symlink("f", folder.0.join("to_f")).unwrap();
    symlink("nowhere", folder.0.join("to_nowhere")).unwrap();
    folder.finds("*/x", &["d/x", "to_d/x"]);
    folder.finds("to*", &["to_d", "to_f", "to_nowhere"]);
    folder.finds("to*/", &["to_d"]);
    folder.finds("to_d/*", &["to_d/x"]);
    folder.finds("to_f/*", &[]);
    folder.finds("to_nowhere/", &[]);
    folder.finds("**/x", &["d/x", "to_d/x"]);
}

#[test]
fn a_cycle_ends() {
    let folder = Folder::new("cycle", &["x"]);
    symlink(".", folder.0.join("again")).unwrap();
    let found = folder.walk("**/x", MatchOptions::new());
    assert!(found.len() > 10 && found.last().unwrap() == "x");
}

#[test]
fn a_deep_chain() {
    let folder = Folder::new("deep", &[]);
    let mut deep = folder.0.clone();
    (0..300).for_each(|_| deep.push("d"));
    fs::create_dir_all(&deep).unwrap();
    File::create(deep.join("x")).unwrap();
    assert_eq!(folder.walk("**/x", MatchOptions::new()).len(), 1);
    assert_eq!(folder.walk("**", MatchOptions::new()).len(), 300);
}

#[test]
fn relative_and_absolute() {
    let found: Vec<_> = glob("tests/walk?.rs").unwrap().flatten().collect();
    assert_eq!(found, [Path::new("tests/walks.rs")]);
    let found: Vec<_> = glob("./tests/walk?.rs").unwrap().flatten().collect();
    assert_eq!(found, [Path::new("tests/walks.rs")]);
    let found: Vec<_> = glob("/").unwrap().flatten().collect();
    assert_eq!(found, [Path::new("/")]);
    for (pattern, path) in [("//", "/"), (".", "."), ("..", ".."), ("/dev/null", "/dev/null")] {
        let found: Vec<_> = glob(pattern).unwrap().flatten().collect();
        assert_eq!(found, [Path::new(path)], "{pattern}");
    }
    assert_eq!(glob("").unwrap().count(), 0);
    assert_eq!(glob("tests/WALK?.rs").unwrap().count(), 0);
    assert!(glob("/*").unwrap().flatten().any(|path| path == Path::new("/tmp")));
}

#[test]
fn refusals() {
    let error = glob("src/**.rs").map(|_| ()).unwrap_err();
    assert_eq!((error.pos, error.msg), (4 + 2, "recursive wildcards must form a single path component"));
    let error = glob("a/[b").map(|_| ()).unwrap_err();
    assert_eq!((error.pos, error.msg), (2, "invalid range pattern"));
    assert_eq!(glob("a/**b").map(|_| ()).unwrap_err().pos, 4);
    // each component is a pattern of its own
    let error = glob("a/[/]b").map(|_| ()).unwrap_err();
    assert_eq!((error.pos, error.msg), (0, "invalid range pattern"));
}

#[test]
fn a_directory_that_cannot_be_listed() {
    use std::os::unix::fs::PermissionsExt;
    let folder = Folder::new("shut", &["a/x", "shut/x", "z/x"]);
    let shut = folder.0.join("shut");
    fs::set_permissions(&shut, fs::Permissions::from_mode(0o000)).unwrap();
    let pattern = format!("{}/*/*", folder.0.display());
    let items: Vec<GlobResult> = glob(&pattern).unwrap().collect();
    fs::set_permissions(&shut, fs::Permissions::from_mode(0o700)).unwrap();
    // root may list it
    if items.iter().any(Result::is_err) {
        let kinds: Vec<_> = items.iter().map(Result::is_ok).collect();
        assert_eq!(kinds, [true, false, true]);
        let error: GlobError = items.into_iter().find_map(Result::err).unwrap();
        assert_eq!(error.path(), shut);
        assert_eq!(error.error().kind(), io::ErrorKind::PermissionDenied);
        let text = format!("attempting to read `{}` resulted in an error: {}", shut.display(), error.error());
        assert_eq!(error.to_string(), text);
        assert!(error.source().is_none());
        #[allow(deprecated)]
        let cause = error.cause().map(ToString::to_string);
        assert_eq!(cause, Some(error.error().to_string()));
        assert_eq!(error.into_error().kind(), io::ErrorKind::PermissionDenied);
    }
}

#[test]
fn a_walk_may_go_to_another_thread() {
    fn crosses<T: Send + Sync + 'static>() {}
    crosses::<Paths>();
    crosses::<GlobError>();
    let mut paths = glob("s*/*.rs").unwrap();
    let first = paths.next().unwrap().unwrap();
    let rest = std::thread::spawn(move || paths.count()).join().unwrap();
    assert!(first.starts_with("src") && rest > 0);
}
