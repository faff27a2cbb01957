//! A search that has begun, and the file system that it searches.

use std::borrow::Cow;
use std::collections::VecDeque;
use std::ffi::OsString;
use std::fmt;
use std::fs;
use std::io;
use std::iter::FusedIterator;
use std::mem;
use std::path::{Path, PathBuf};

use crate::proved::glob_search::{RuleTexts, Search as Engine};
use crate::search::{Found, SearchError};
use crate::search_errors::errors_of;
use crate::walk::{Disk, Entry, Look, Tree};

/// A function that says what is left out.
pub(crate) type Exclusion = Box<dyn FnMut(&str, bool) -> bool + Send>;

/// What a tree has left out since it was last asked.
type PassedOver<T> = Box<dyn FnMut(&mut T) -> Vec<SearchError> + Send>;

/// Whether something found in a tree is returned.
type Keeps<T> = Box<dyn FnMut(&T, &Found) -> bool + Send>;

/// A search that has begun: what it finds, and what it could not do, in order.
///
/// ```
/// use cadmiumdove::search::Search;
///
/// let mut searching = Search::new(["src/*.rs"])?.into_iter();
/// assert!(searching.next().is_some());
/// assert!(searching.spent() > 1);
/// # Ok::<(), cadmiumdove::search::SearchRefusal>(())
/// ```
pub struct Searching<T, R> {
    engine: Engine,
    tree: T,
    guide: Guide<R>,
    /// What the tree has left out since it was last asked.
    passed_over: PassedOver<T>,
    keeps: Keeps<T>,
    /// What comes before all else.
    ready: VecDeque<Result<Found, SearchError>>,
}

impl<T, R> Searching<T, R> {
    /// Over a tree that leaves nothing out.
    pub(crate) fn new(engine: Engine, tree: T, guide: Guide<R>) -> Self {
        let (passed_over, keeps) = (Box::new(|_: &mut T| Vec::new()), Box::new(|_: &T, _: &Found| true));
        Searching { engine, tree, guide, passed_over, keeps, ready: VecDeque::new() }
    }

    /// How many units of work were charged, never more than the limit.
    ///
    /// <details><summary>Tested</summary>
    ///
    /// `limits` in `tests/settings.rs`.
    ///
    /// </details>
    #[must_use]
    pub fn spent(&self) -> u64 {
        self.engine.spent()
    }
}

impl Searching<Start, Start> {
    /// Over a file system: reports what the file system leaves out, and first, if the start is not a directory, why. It
    /// may give only files.
    pub(crate) fn reporting(mut self, missing: Option<io::Error>, files: bool) -> Self {
        self.passed_over = Box::new(Start::passed_over);
        if files {
            self.keeps = Box::new(|start, found| start.disk.is_file(&start.directory.join(&found.path)));
        }
        self.ready.extend(missing.map(|error| Err(SearchError::Unread(".".into(), error))));
        self
    }
}

impl<T: Tree, R: RuleTexts> Iterator for Searching<T, R> {
    type Item = Result<Found, SearchError>;

    fn next(&mut self) -> Option<Self::Item> {
        while self.ready.is_empty() {
            let item = self.engine.next(&mut self.tree, &mut self.guide);
            // Reports about directories listed for this item come before it.
            self.ready.extend((self.passed_over)(&mut self.tree).into_iter().map(Err));
            match item {
                Some(Ok(found)) => {
                    let found = Found { path: found.path.into(), is_dir: found.is_dir.unwrap_or(false) };
                    if (self.keeps)(&self.tree, &found) {
                        self.ready.push_back(Ok(found));
                    }
                }
                Some(Err(fault)) => self.ready.extend(errors_of(fault).into_iter().map(Err)),
                None => break,
            }
        }
        self.ready.pop_front()
    }
}

impl<T: Tree, R: RuleTexts> FusedIterator for Searching<T, R> {}

impl<T, R> fmt::Debug for Searching<T, R> {
    fn fmt(&self, f: &mut fmt::Formatter<'_>) -> fmt::Result {
        f.debug_struct("Searching").field("spent", &self.spent()).finish_non_exhaustive()
    }
}

/// The texts of ignore files, and the functions that leave out paths.
pub(crate) struct Guide<R> {
    pub(crate) texts: R,
    pub(crate) is_git: bool,
    pub(crate) exclusions: Vec<Exclusion>,
}

impl<R: RuleTexts> RuleTexts for Guide<R> {
    fn text(&mut self, path: &str) -> io::Result<Option<String>> {
        self.texts.text(path)
    }

    fn leaves_out(&mut self, path: &str, is_dir: bool) -> bool {
        self.is_git && (path == ".git" || path.ends_with("/.git"))
            || self.texts.leaves_out(path, is_dir)
            || self.exclusions.iter_mut().any(|says| says(path, is_dir))
    }
}

/// The file system from a directory on.
///
/// ```
/// use cadmiumdove::search::{Search, Searching, Start};
///
/// let searching: Searching<Start, Start> = Search::new(["*"])?.below("src").into_iter();
/// assert!(searching.count() > 0);
/// # Ok::<(), cadmiumdove::search::SearchRefusal>(())
/// ```
#[derive(Debug)]
pub struct Start {
    disk: Disk,
    directory: PathBuf,
    /// What could not be looked up, and the names that are not UTF-8 of the directories that were listed.
    strays: Vec<SearchError>,
}

/// A clone has left out nothing yet.
impl Clone for Start {
    fn clone(&self) -> Self {
        Start { disk: self.disk, directory: self.directory.clone(), strays: Vec::new() }
    }
}

impl Start {
    pub(crate) fn new(disk: Disk, directory: PathBuf) -> Self {
        Start { disk, directory, strays: Vec::new() }
    }

    /// Why there is no such directory. The path is looked up with `/.` at its end, which only a directory has.
    pub(crate) fn missing(&self) -> Option<io::Error> {
        fs::metadata(self.at(".")).err()
    }

    /// What was left out since this was last asked.
    fn passed_over(&mut self) -> Vec<SearchError> {
        mem::take(&mut self.strays)
    }

    /// The whole path for a path from the directory on. Only the directory, which the caller gave, may be not UTF-8.
    fn at<'a>(&self, path: &'a str) -> Cow<'a, Path> {
        if self.directory.as_os_str().is_empty() {
            Cow::Borrowed(Path::new(path))
        } else {
            Cow::Owned(self.directory.join(path))
        }
    }
}

impl Tree for Start {
    fn look(&mut self, path: &str) -> Look {
        let look = self.disk.look_at(&self.at(path));
        look.unwrap_or_else(|error| {
            self.strays.push(SearchError::Unread(path.into(), error));
            Look::Missing
        })
    }

    fn list(&mut self, path: &str) -> io::Result<Vec<Entry>> {
        let mut names: Vec<OsString> = Vec::new();
        let entries = self.disk.entries_and(&self.at(path), true, &mut |name| names.push(name))?;
        names.sort_unstable();
        let above = Path::new(if path == "." { "" } else { path });
        self.strays.extend(names.into_iter().map(|name| SearchError::NotText(above.join(name))));
        Ok(entries)
    }
}

impl RuleTexts for Start {
    fn text(&mut self, path: &str) -> io::Result<Option<String>> {
        match fs::read_to_string(self.at(path)) {
            Ok(text) => Ok(Some(text)),
            Err(error) if error.kind() == io::ErrorKind::NotFound => Ok(None),
            Err(error) => Err(error),
        }
    }
}
