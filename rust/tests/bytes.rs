//! Where releases of `glob` differ: names that are not UTF-8, links that lead nowhere, kinds that come with a listing;
//! and what `glob` has no test for.

use std::error::Error;
use std::ffi::OsStr;
use std::fs::{self, File, Permissions};
use std::io::{self, ErrorKind};
use std::os::unix::ffi::OsStrExt;
use std::os::unix::fs::{symlink, PermissionsExt};
use std::os::unix::net::UnixListener;
use std::path::PathBuf;
use std::{env, process};

use cadmiumdove::walk::GlobCause;
use cadmiumdove::{glob, GlobResult};

/// A directory of its own.
fn folder(name: &str) -> PathBuf {
    let root = env::temp_dir().join(format!("cadmiumdove-{}-{name}", process::id()));
    let _ = fs::remove_dir_all(&root);
    fs::create_dir(&root).unwrap();
    root
}

#[test]
fn a_name_that_is_not_utf8_is_left_out_alone() {
    let root = folder("bytes");
    File::create(root.join("a")).unwrap();
    File::create(root.join(OsStr::from_bytes(b"\xff"))).unwrap();
    fs::create_dir(root.join(OsStr::from_bytes(b"d\xff"))).unwrap();
    File::create(root.join(OsStr::from_bytes(b"d\xff/a"))).unwrap();
    let found = ["*", "**/*", "a", "*/a"].map(|rest| {
        let items = glob(&format!("{}/{rest}", root.display())).unwrap();
        items.map(Result::unwrap).collect::<Vec<PathBuf>>()
    });
    fs::remove_dir_all(&root).unwrap();
    let alone = vec![root.join("a")];
    assert_eq!(found, [alone.clone(), alone.clone(), alone, vec![]]);
}

#[test]
fn a_path_that_is_too_long_leads_nowhere() {
    let root = folder("long_path");
    let long = "x".repeat(300);
    let counts = [long.clone(), format!("{long}/*"), format!("**/{long}")]
        .map(|rest| glob(&format!("{}/{rest}", root.display())).unwrap().map(Result::unwrap).count());
    fs::remove_dir_all(&root).unwrap();
    assert_eq!(counts, [0; 3]);
}

#[test]
fn a_link_that_leads_nowhere_is_there() {
    let root = folder("nowhere");
    symlink("nowhere", root.join("link")).unwrap();
    let walks = ["link", "l*", "link/", "link/*"].map(|rest| glob(&format!("{}/{rest}", root.display())).unwrap());
    let counts = walks.map(|items| items.map(Result::unwrap).count());
    fs::remove_dir_all(&root).unwrap();
    assert_eq!(counts, [1, 1, 0, 0]);
}

#[test]
fn a_socket_is_no_directory() {
    let root = folder("socket");
    let socket = UnixListener::bind(root.join("s")).unwrap();
    let walks = ["s", "*", "**/*", "*/", "*/*", "s/*"].map(|rest| glob(&format!("{}/{rest}", root.display())).unwrap());
    let counts = walks.map(|items| items.map(Result::unwrap).count());
    drop(socket);
    fs::remove_dir_all(&root).unwrap();
    assert_eq!(counts, [1, 1, 1, 0, 0, 0]);
}

/// A million entries and more are read: each directory's parent is listed again.
#[test]
fn a_long_walk_is_not_cut() {
    let root = folder("long");
    (0..1100).for_each(|number| fs::create_dir(root.join(format!("d{number}"))).unwrap());
    File::create(root.join("x")).unwrap();
    let count = glob(&format!("{}/*/../x*", root.display())).unwrap().map(Result::unwrap).count();
    fs::remove_dir_all(&root).unwrap();
    assert_eq!(count, 1100);
}

#[test]
fn a_directory_that_may_not_be_searched_has_the_kinds_of_its_listing() {
    let root = folder("unsearched");
    let shut = root.join("shut");
    fs::create_dir_all(shut.join("d")).unwrap();
    File::create(shut.join("f")).unwrap();
    fs::set_permissions(&shut, Permissions::from_mode(0o400)).unwrap();
    // root may
    let is_searched = shut.join("d").is_dir();
    let items: Vec<GlobResult> = glob(&format!("{}/shut/*/*", root.display())).unwrap().collect();
    fs::set_permissions(&shut, Permissions::from_mode(0o700)).unwrap();
    fs::remove_dir_all(&root).unwrap();
    let errors: Vec<_> = items.into_iter().map(|item| item.unwrap_err()).collect();
    let found: Vec<_> = errors.iter().map(|error| (error.path().to_owned(), error.error().kind())).collect();
    let expected = [(shut.join("d"), ErrorKind::PermissionDenied)];
    assert_eq!(found, expected[is_searched as usize..]);
}

#[test]
fn a_directory_that_vanishes_after_it_was_listed_is_an_error() {
    let root = folder("vanishing");
    for name in ["a/x", "b/x"] {
        fs::create_dir_all(root.join(name)).unwrap();
    }
    let mut paths = glob(&format!("{}/*/*", root.display())).unwrap();
    assert_eq!(paths.next().unwrap().unwrap(), root.join("a/x"));
    fs::remove_dir_all(root.join("b")).unwrap();
    let error = paths.next().unwrap().unwrap_err();
    assert_eq!((error.path(), error.error().kind()), (&*root.join("b"), ErrorKind::NotFound));
    assert_eq!(GlobCause::of(&error), GlobCause::Read);
    assert!(error.source().is_none());
    let cause = error.error();
    #[allow(deprecated)]
    let texts = (error.description(), error.cause().map(ToString::to_string));
    #[allow(deprecated)]
    let expected = (cause.description(), Some(cause.to_string()));
    assert_eq!(texts, expected);
    assert_eq!(io::Error::from(error).kind(), ErrorKind::NotFound);
    assert!(paths.next().is_none());
    fs::remove_dir_all(&root).unwrap();
}
