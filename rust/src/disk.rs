//! The file system as a tree, and walks over it.

use std::error::Error;
use std::ffi::OsString;
use std::fs::{self, DirEntry};
use std::io::{self, ErrorKind};
use std::path::Path;

use crate::walk::{glob_in, Entry, Look, Name, Tree};
use crate::Paths;
use crate::{GlobError, MatchOptions, PatternError};

/// The paths that a pattern leads to, from the current directory or from the root, under [`MatchOptions::new`]. Names
/// come in the order of their bytes. A directory that cannot be listed gives an item with an error, and the walk goes
/// on.
///
/// ```
/// for path in cadmiumdove::glob("src/**/*.rs").unwrap() {
///     match path {
///         Ok(path) => println!("{}", path.display()),
///         Err(error) => eprintln!("{error}"),
///     }
/// }
/// assert_eq!(cadmiumdove::glob("Cargo.tom?").unwrap().count(), 1);
/// ```
///
/// # Errors
///
/// The error is the first fault of the whole pattern, or else of a component. Its place is in characters, from the
/// start of that pattern or component.
///
/// <details><summary>Tested</summary>
///
/// `tests/walks.rs`, which `glob` passes, too.
///
/// </details>
pub fn glob(pattern: &str) -> Result<Paths, PatternError> {
    glob_with(pattern, MatchOptions::new())
}

/// Like [`glob()`], but under these options. The separator rule has no effect, since a name has no `/`.
///
/// ```
/// use cadmiumdove::{glob_with, MatchOptions};
///
/// let options = MatchOptions { case_sensitive: false, ..MatchOptions::new() };
/// assert_eq!(glob_with("cargo.TOM[l]", options).unwrap().count(), 1);
/// ```
///
/// # Errors
///
/// The error is the first fault of the whole pattern, or else of a component. Its place is in characters, from the
/// start of that pattern or component.
///
/// <details><summary>Tested</summary>
///
/// `options` in `tests/walks.rs`, which `glob` passes, too.
///
/// </details>
pub fn glob_with(pattern: &str, options: MatchOptions) -> Result<Paths, PatternError> {
    glob_in(Disk::new(), pattern, options, u64::MAX)
}

/// The file system. Relative paths begin at the current directory of the process, and symbolic links are followed,
/// unless [`follow_links`](Disk::follow_links) says otherwise.
///
/// The kinds of entries come with the listing of their directory, and only a symbolic link is looked up. An entry whose
/// name is not UTF-8 is left out; a [`Search`](crate::search::Search) that begins on the file system reports it.
///
/// ```
/// use cadmiumdove::walk::{glob_in, Disk};
/// use cadmiumdove::MatchOptions;
///
/// let links_stay = Disk::new().follow_links(false);
/// assert!(glob_in(links_stay, "src/**/*.rs", MatchOptions::new(), u64::MAX)?.count() > 0);
/// # Ok::<(), cadmiumdove::PatternError>(())
/// ```
#[derive(Clone, Copy, Debug, PartialEq, Eq)]
pub struct Disk {
    follow_links: bool,
}

impl Disk {
    /// The file system, with symbolic links followed.
    ///
    /// <details><summary>Tested</summary>
    ///
    /// `tests/walks.rs` and `tests/bytes.rs`: what a walk over it finds.
    ///
    /// </details>
    pub const fn new() -> Self {
        Disk { follow_links: true }
    }

    /// Whether symbolic links are followed. If not, a link does not count as a directory: a walk by `**` does not enter
    /// it, so it ends on a cycle of links, and `link/*` finds nothing. A path through a link, such as `link/a`, is
    /// still looked up.
    ///
    /// <details><summary>Tested</summary>
    ///
    /// `links_may_be_left_alone` in `tests/beside.rs`.
    ///
    /// </details>
    pub const fn follow_links(self, follow_links: bool) -> Self {
        Disk { follow_links }
    }

    /// Whether an entry is a directory. If its kind cannot be determined, it does not count as one.
    fn is_dir(self, entry: &DirEntry) -> bool {
        match entry.file_type() {
            Ok(kind) if !kind.is_symlink() => kind.is_dir(),
            _ if !self.follow_links => false,
            _ => fs::metadata(entry.path()).is_ok_and(|metadata| metadata.is_dir()),
        }
    }

    /// What is at a path, or an error if the system cannot say whether anything is there.
    pub(crate) fn look_at(self, path: &Path) -> io::Result<Look> {
        match fs::symlink_metadata(path) {
            Ok(metadata) if metadata.is_symlink() && self.follow_links => match fs::metadata(path) {
                Ok(metadata) if metadata.is_dir() => Ok(Look::Dir),
                _ => Ok(Look::Other),
            },
            Ok(metadata) if metadata.is_dir() => Ok(Look::Dir),
            Ok(_) => Ok(Look::Other),
            Err(error) if matches!(error.kind(), ErrorKind::NotFound | ErrorKind::NotADirectory) => Ok(Look::Missing),
            Err(error) => Err(error),
        }
    }

    /// Whether there is a regular file at a path.
    pub(crate) fn is_file(self, path: &Path) -> bool {
        let metadata = if self.follow_links { fs::metadata(path) } else { fs::symlink_metadata(path) };
        metadata.is_ok_and(|metadata| metadata.is_file())
    }

    /// The entries of a directory, with their kinds or without.
    fn entries(self, path: &Path, kinds: bool) -> io::Result<Vec<Entry>> {
        self.entries_and(path, kinds, &mut |_stray| ())
    }

    /// The entries of a directory, with their kinds or without. Calls a function with each name that is not UTF-8.
    pub(crate) fn entries_and(
        self,
        path: &Path,
        kinds: bool,
        stray: &mut dyn FnMut(OsString),
    ) -> io::Result<Vec<Entry>> {
        let mut entries = Vec::new();
        for entry in fs::read_dir(path)? {
            let entry = entry?;
            match entry.file_name().into_string() {
                Ok(name) => {
                    let is_dir = kinds && self.is_dir(&entry);
                    if let Ok(name) = Name::new(name) {
                        entries.push(Entry { name, is_dir });
                    }
                }
                Err(name) => stray(name),
            }
        }
        Ok(entries)
    }
}

impl Default for Disk {
    fn default() -> Self {
        Disk::new()
    }
}

impl Tree for Disk {
    fn look(&mut self, path: &str) -> Look {
        self.look_at(path.as_ref()).unwrap_or(Look::Missing)
    }

    fn list(&mut self, path: &str) -> io::Result<Vec<Entry>> {
        self.entries(path.as_ref(), true)
    }

    fn list_names(&mut self, path: &str) -> io::Result<Vec<Entry>> {
        self.entries(path.as_ref(), false)
    }
}

/// The text of a [`GlobError`] ends in the text of its I/O error, so there is no `source`, which would print it again.
impl Error for GlobError {
    #[allow(deprecated)]
    fn description(&self) -> &str {
        self.error().description()
    }

    fn cause(&self) -> Option<&dyn Error> {
        Some(self.error())
    }
}
