//! Searches: the paths below a directory that any of many patterns matches, without those that ignore files exclude.
//!
//! ```
//! use cadmiumdove::search::Search;
//!
//! for found in Search::new(["src/**/*.rs", "*.md"])?.ignore_files([".gitignore"]).max_depth(3) {
//!     match found {
//!         Ok(found) => println!("{}", found.path.display()),
//!         Err(error) => eprintln!("{error}"),
//!     }
//! }
//! # Ok::<(), cadmiumdove::search::SearchRefusal>(())
//! ```
//!
//! Each path comes once, in ascending order of names, however many patterns match it. A directory is listed only if
//! something in it may still be found: the search above lists `.`, and what is below `src`. A pattern without
//! wildcards, such as `src/lib.rs`, is looked up, and lists nothing. A `*` takes no `/`, and `**` takes any number of
//! names.
//!
//! An item is a [`SearchError`] if a path cannot be looked up, a directory cannot be listed, an ignore file cannot be
//! read or has a refused line, or a name is not UTF-8.
//!
//! With [`git`](Search::git) and [`Wanted::Others`], a search for `**/*` finds the files that `git ls-files -co
//! --exclude-standard` prints, if no tracked file is ignored or missing, no repository is inside, each name is UTF-8,
//! and the user has no ignore file of their own. Other differences: git prints no pipes, sockets and devices, accepts
//! lines that are [refused](crate::ignore::Reason) here, and compares `?` and brackets with single bytes.

use std::fmt;
use std::mem;
use std::path::PathBuf;

use crate::above::{place_of, rules_above};
use crate::ignore::IgnoreList;
pub use crate::proved::glob_search::{NoRuleTexts, RuleTexts, Wanted};
use crate::proved::glob_search::{Search as Engine, Settings};
pub use crate::search_errors::{SearchError, SearchRefusal};
use crate::searching::{Exclusion, Guide};
pub use crate::searching::{Searching, Start};
use crate::set::{braces, strs_of, BraceSetRefusal, SetRefusal};
use crate::walk::{Disk, Tree};
use crate::MatchOptions;

/// A path that a search finds.
///
/// ```
/// use cadmiumdove::search::{Found, Search};
///
/// let found = Search::new(["src"])?.into_iter().next().unwrap().unwrap();
/// assert_eq!(found, Found { path: "src".into(), is_dir: true });
/// # Ok::<(), cadmiumdove::search::SearchRefusal>(())
/// ```
#[derive(Clone, Debug, PartialEq, Eq)]
pub struct Found {
    /// The names from the start directory on, such as `src/main.rs`.
    pub path: PathBuf,
    /// Whether it is a directory. A symbolic link to a directory is one only if links are followed.
    pub is_dir: bool,
}

/// A search that has not begun. [`IntoIterator`] begins it on the file system, and [`over`](Search::over) begins it in
/// any [`Tree`].
///
/// ```
/// use cadmiumdove::search::{Search, Wanted};
///
/// let search = Search::new(["**/*.rs", "*.toml"])?.max_depth(2).wanted(Wanted::Others).git();
/// let found: Vec<_> = search.into_iter().collect::<Result<_, _>>().unwrap();
/// assert!(found.iter().any(|found| found.path.ends_with("src/lib.rs")));
/// # Ok::<(), cadmiumdove::search::SearchRefusal>(())
/// ```
pub struct Search {
    patterns: Vec<String>,
    settings: Settings,
    follow_links: bool,
    start: PathBuf,
    is_git: bool,
    files: bool,
    exclusions: Vec<Exclusion>,
}

impl fmt::Debug for Search {
    fn fmt(&self, f: &mut fmt::Formatter<'_>) -> fmt::Result {
        f.debug_struct("Search").field("patterns", &self.patterns).finish_non_exhaustive()
    }
}

impl Search {
    /// A case-sensitive search below the current directory for the paths that any of the patterns matches. Links are
    /// not followed.
    ///
    /// ```
    /// use cadmiumdove::search::Search;
    ///
    /// let found: Vec<_> = Search::new(["Cargo.toml", "src/li?.rs"])?.into_iter().flatten().collect();
    /// assert_eq!(found.len(), 2);
    /// assert!(found[1].path.ends_with("lib.rs") && !found[1].is_dir);
    ///
    /// assert_eq!(Search::new(["a", "[b"]).unwrap_err().number(), 1);
    /// assert_eq!(Search::new(["a", "./b"]).unwrap_err().number(), 1);
    /// # Ok::<(), cadmiumdove::search::SearchRefusal>(())
    /// ```
    ///
    /// Patterns match paths relative to the start directory: `src/*`, not `./src/*`. For directories use
    /// `wanted(Wanted::Directories)`, not a `/` at the end.
    ///
    /// # Errors
    ///
    /// The error is about the first text that is refused, and has its number, counted from 0:
    /// [`Pattern`](SearchRefusal::Pattern) if it is not a pattern, and [`NoPath`](SearchRefusal::NoPath) if it has a
    /// component that is empty, `.` or `..`, such as `src/`, `/tmp/*`, `../*` and the empty text. A search gives no
    /// path with such a component.
    ///
    /// <details><summary>Tested</summary>
    ///
    /// `a_search_finds_what_a_filter_of_all_paths_leaves` and `patterns_that_match_no_path_are_refused` in
    /// `tests/searches.rs`.
    ///
    /// </details>
    pub fn new<I, T>(patterns: I) -> Result<Self, SearchRefusal>
    where
        I: IntoIterator<Item = T>,
        T: AsRef<str>,
    {
        let patterns: Vec<String> = patterns.into_iter().map(|text| text.as_ref().to_owned()).collect();
        let read = Engine::new(&strs_of(&patterns), Settings::new());
        let before = read.as_ref().err().map_or(patterns.len(), SetRefusal::number);
        if let Some(number) = patterns[..before].iter().position(|pattern| matches_no_path(pattern)) {
            return Err(SearchRefusal::NoPath(number));
        }
        read?;
        Ok(Search::of(patterns))
    }

    /// Like [`new`](Search::new), for all alternatives of the texts: `src/*.{c,h}` means `src/*.c` and `src/*.h`.
    ///
    /// ```
    /// use cadmiumdove::search::Search;
    ///
    /// assert_eq!(Search::from_braces(["src/{lib,walk}.rs"]).unwrap().into_iter().count(), 2);
    /// ```
    ///
    /// # Errors
    ///
    /// The error is about the first text that is refused, and has its number, counted from 0:
    /// [`Braces`](SearchRefusal::Braces) if its braces are not closed or stand for too many alternatives, or if an
    /// alternative is not a pattern; [`NoPath`](SearchRefusal::NoPath) if an alternative has a component that is empty,
    /// `.` or `..`.
    ///
    /// <details><summary>Tested</summary>
    ///
    /// `braces` in `tests/settings.rs`.
    ///
    /// </details>
    pub fn from_braces<I, T>(texts: I) -> Result<Self, SearchRefusal>
    where
        I: IntoIterator<Item = T>,
        T: AsRef<str>,
    {
        let mut patterns = Vec::new();
        for (number, text) in texts.into_iter().enumerate() {
            let alternatives = braces::expand(text.as_ref()).map_err(|error| BraceSetRefusal::Braces(number, error))?;
            Search::new(&alternatives).map_err(|refusal| match refusal {
                SearchRefusal::Pattern(SetRefusal::Syntax(place, error)) => {
                    BraceSetRefusal::Pattern(number, place, error).into()
                }
                _ => SearchRefusal::NoPath(number),
            })?;
            patterns.extend(alternatives);
        }
        Ok(Search::of(patterns))
    }

    /// A search for parsed patterns.
    fn of(patterns: Vec<String>) -> Self {
        let settings = Settings { kinds: true, ..Settings::new() };
        let start = PathBuf::new();
        Search { patterns, settings, follow_links: false, start, is_git: false, files: false, exclusions: Vec::new() }
    }

    /// How names are matched. The separator rule is always on.
    ///
    /// ```
    /// use cadmiumdove::search::Search;
    /// use cadmiumdove::MatchOptions;
    ///
    /// let options = MatchOptions { case_sensitive: false, ..MatchOptions::new() };
    /// assert_eq!(Search::new(["cargo.TOML"])?.options(options).into_iter().count(), 1);
    /// # Ok::<(), cadmiumdove::search::SearchRefusal>(())
    /// ```
    ///
    /// <details><summary>Tested</summary>
    ///
    /// `a_search_finds_what_a_filter_of_all_paths_leaves` in `tests/searches.rs`.
    ///
    /// </details>
    #[must_use]
    pub fn options(mut self, options: MatchOptions) -> Self {
        self.settings.options = options;
        self
    }

    /// Finds paths of at most this many names; with 1, only what is directly in the start directory.
    ///
    /// ```
    /// use cadmiumdove::search::Search;
    ///
    /// let found = Search::new(["**/*.rs"])?.max_depth(2).into_iter().flatten();
    /// assert!(found.into_iter().all(|found| found.path.components().count() <= 2));
    /// # Ok::<(), cadmiumdove::search::SearchRefusal>(())
    /// ```
    ///
    /// <details><summary>Tested</summary>
    ///
    /// `a_search_finds_what_a_filter_of_all_paths_leaves` in `tests/searches.rs`.
    ///
    /// </details>
    #[must_use]
    pub fn max_depth(mut self, depth: usize) -> Self {
        self.settings.depth = depth;
        self
    }

    /// Finds only directories, or only everything else. [`Others`](Wanted::Others) are files, symbolic links (even if
    /// they lead nowhere), pipes, sockets and devices. Opening a pipe may wait forever; [`files`](Search::files) finds
    /// only regular files.
    ///
    /// ```
    /// use cadmiumdove::search::{Search, Wanted};
    ///
    /// let directories = Search::new(["**/*"])?.max_depth(1).wanted(Wanted::Directories);
    /// assert!(directories.into_iter().flatten().all(|found| found.is_dir));
    /// # Ok::<(), cadmiumdove::search::SearchRefusal>(())
    /// ```
    ///
    /// <details><summary>Tested</summary>
    ///
    /// `a_search_finds_what_a_filter_of_all_paths_leaves` in `tests/searches.rs`, and
    /// `others_are_all_but_directories` in `tests/search_errors.rs`.
    ///
    /// </details>
    #[must_use]
    pub fn wanted(mut self, wanted: Wanted) -> Self {
        self.settings.wanted = wanted;
        self.files = false;
        self
    }

    /// Finds only regular files, on the file system. Each path found that is not a directory is looked up once more: a
    /// symbolic link does not count as a file, unless links are followed and it leads to one. A [`Tree`] of your own
    /// knows only directories and others; in such a tree this finds the others.
    ///
    /// ```
    /// use cadmiumdove::search::Search;
    ///
    /// for found in Search::new(["src/*"])?.files() {
    ///     std::fs::read(found?.path)?;
    /// }
    /// # Ok::<(), Box<dyn std::error::Error>>(())
    /// ```
    ///
    /// <details><summary>Tested</summary>
    ///
    /// `others_are_all_but_directories` in `tests/search_errors.rs`.
    ///
    /// </details>
    #[must_use]
    pub fn files(mut self) -> Self {
        self.settings.wanted = Wanted::Others;
        self.files = true;
        self
    }

    /// Whether, on the file system, a symbolic link to a directory is entered like a directory.
    ///
    /// ```
    /// use cadmiumdove::search::Search;
    ///
    /// assert!(Search::new(["src/*.rs"])?.follow_links(true).into_iter().count() > 0);
    /// # Ok::<(), cadmiumdove::search::SearchRefusal>(())
    /// ```
    ///
    /// <details><summary>Tested</summary>
    ///
    /// `links` in `tests/settings.rs`.
    ///
    /// </details>
    #[must_use]
    pub fn follow_links(mut self, follow_links: bool) -> Self {
        self.follow_links = follow_links;
        self
    }

    /// Searches below this directory of the file system, instead of the current one. Paths are relative to it, also the
    /// paths of errors, where `.` is the directory itself. If it is missing or not a directory, the only item is an
    /// error [`Unread`](SearchError::Unread) of `.`, whatever the patterns.
    ///
    /// ```
    /// use cadmiumdove::search::Search;
    ///
    /// let found: Vec<_> = Search::new(["li?.rs"])?.below("src").into_iter().flatten().collect();
    /// assert_eq!(found[0].path, std::path::Path::new("lib.rs"));
    ///
    /// let error = Search::new(["lib.rs"])?.below("nowhere").into_iter().next().unwrap().unwrap_err();
    /// assert_eq!(error.path(), Some(".".as_ref()));
    /// # Ok::<(), cadmiumdove::search::SearchRefusal>(())
    /// ```
    ///
    /// <details><summary>Tested</summary>
    ///
    /// `a_search_by_ignore_files_finds_what_git_does` in `tests/searches.rs`, and
    /// `a_start_that_is_no_directory_is_an_error` in `tests/search_errors.rs`.
    ///
    /// </details>
    #[must_use]
    pub fn below(mut self, directory: impl Into<PathBuf>) -> Self {
        self.start = directory.into();
        self
    }

    /// Leaves out what a list ignores, and everything below it. Its rules override the rules of files, so use it for
    /// rules of a command line, not for a user's global ignore file. If there are several lists, the one given last
    /// decides.
    ///
    /// A list is the text of an ignore file: `#` begins a comment, `!` re-includes, and a rule without a `/` is about
    /// names at every depth. For patterns of a command line use [`exclude`](Search::exclude) with a
    /// [`PatternSet`](crate::set::PatternSet).
    ///
    /// ```
    /// use cadmiumdove::ignore::IgnoreList;
    /// use cadmiumdove::search::Search;
    ///
    /// let rules = IgnoreList::new("src/\n").unwrap();
    /// assert_eq!(Search::new(["**/lib.rs", "Cargo.toml"])?.rules(rules).into_iter().count(), 1);
    /// # Ok::<(), cadmiumdove::search::SearchRefusal>(())
    /// ```
    ///
    /// <details><summary>Tested</summary>
    ///
    /// `rules_come_first` in `tests/settings.rs`.
    ///
    /// </details>
    #[must_use]
    pub fn rules(mut self, list: IgnoreList) -> Self {
        self.settings.first.push(list);
        self
    }

    /// Reads the files with these names in each directory that is entered, and leaves out what their rules ignore. If
    /// several files have a rule for a path, the deepest decides, and within one directory the last of these names.
    /// Each refused line gives an error when its file is read, and makes no rule. Files above the start directory are
    /// not read. A second call replaces the names of the first.
    ///
    /// ```
    /// use cadmiumdove::search::Search;
    ///
    /// let search = Search::new(["**/*.rs"])?.ignore_files([".gitignore", ".ignore"]);
    /// assert!(search.into_iter().flatten().any(|found| found.path.ends_with("lib.rs")));
    /// # Ok::<(), cadmiumdove::search::SearchRefusal>(())
    /// ```
    ///
    /// <details><summary>Tested</summary>
    ///
    /// `the_last_file_decides` in `tests/settings.rs`.
    ///
    /// </details>
    #[must_use]
    pub fn ignore_files<I, T>(mut self, names: I) -> Self
    where
        I: IntoIterator<Item = T>,
        T: Into<String>,
    {
        self.settings.rule_files = names.into_iter().map(Into::into).collect();
        self
    }

    /// Heeds what git heeds: reads the `.gitignore` of each directory and `.git/info/exclude`, and leaves out each
    /// `.git`. This adds to the names of [`ignore_files`](Search::ignore_files), so call that one first.
    ///
    /// The top of the repository is the nearest directory, from the start directory upwards, that has a `.git`, and
    /// `.git/info/exclude` is read there. If the top is above the start, the `.gitignore` of each directory from the
    /// top down is read, too. If these rules ignore the start, or a directory above it, nothing is found. Without a
    /// repository, and [over](Search::over) a tree of your own, the start counts as the top. A refused line of
    /// `.git/info/exclude` or of a file above the start makes no rule, and gives no error.
    ///
    /// ```
    /// use cadmiumdove::search::Search;
    ///
    /// let found: Vec<_> = Search::new(["**/*.rs"])?.git().into_iter().flatten().collect();
    /// assert!(found.iter().all(|found| !found.path.starts_with(".git")));
    /// # Ok::<(), cadmiumdove::search::SearchRefusal>(())
    /// ```
    ///
    /// <details><summary>Tested</summary>
    ///
    /// `a_search_by_ignore_files_finds_what_git_does` and `a_search_below_the_top_finds_what_git_does` in
    /// `tests/searches.rs`.
    ///
    /// </details>
    #[must_use]
    pub fn git(mut self) -> Self {
        self.settings.rule_files.push(".gitignore".to_owned());
        self.is_git = true;
        self
    }

    /// Leaves out each path for which a function returns `true`, and everything below it. The function is called for
    /// the paths that no rule ignores; its second argument says whether the path is a directory. If `exclude` is called
    /// several times, each of the functions leaves out paths.
    ///
    /// ```
    /// use cadmiumdove::search::Search;
    ///
    /// let search = Search::new(["src/*"])?.exclude(|path, is_dir| is_dir || path == "src/lib.rs");
    /// assert!(search.into_iter().flatten().all(|found| !found.is_dir && !found.path.ends_with("lib.rs")));
    /// # Ok::<(), cadmiumdove::search::SearchRefusal>(())
    /// ```
    ///
    /// For patterns of a command line, make a set. Under the separator rule its `*` takes no `/`, as in the search
    /// itself. No path begins with `./` or ends in `/`, so a pattern that does leaves out nothing:
    ///
    /// ```
    /// use cadmiumdove::search::Search;
    /// use cadmiumdove::set::PatternSet;
    /// use cadmiumdove::MatchOptions;
    ///
    /// let options = MatchOptions { require_literal_separator: true, ..MatchOptions::new() };
    /// let excluded = PatternSet::from_texts(["src/proved", "*.md"], options)?;
    /// for found in Search::new(["**/*.rs", "*.md"])?.max_depth(3).exclude(move |path, _| excluded.is_match(path)) {
    ///     let path = found?.path;
    ///     assert!(!path.starts_with("src/proved") && !path.ends_with("README.md"));
    /// }
    /// # Ok::<(), Box<dyn std::error::Error>>(())
    /// ```
    ///
    /// <details><summary>Tested</summary>
    ///
    /// `a_function_leaves_out` and `a_set_leaves_out` in `tests/settings.rs`.
    ///
    /// </details>
    #[must_use]
    pub fn exclude(mut self, left_out: impl FnMut(&str, bool) -> bool + Send + 'static) -> Self {
        self.exclusions.push(Box::new(left_out));
        self
    }

    /// How many units of work the search may take: one for each lookup, listing, ignore file, and entry of a listing. A
    /// search that needs more ends with [`Limit`](SearchError::Limit).
    ///
    /// ```
    /// use cadmiumdove::search::{Search, SearchError};
    ///
    /// let last = Search::new(["**/*"])?.limit(3).into_iter().last();
    /// assert!(matches!(last, Some(Err(SearchError::Limit))));
    /// # Ok::<(), cadmiumdove::search::SearchRefusal>(())
    /// ```
    ///
    /// <details><summary>Tested</summary>
    ///
    /// `limits` in `tests/settings.rs`.
    ///
    /// </details>
    #[must_use]
    pub fn limit(mut self, units: u64) -> Self {
        self.settings.limit = units;
        self
    }

    /// Begins in a tree of your own, with the texts of its ignore files ([`NoRuleTexts`] has none). In a directory that
    /// is listed, the search asks only for ignore files that are in the listing. The names of a tree are UTF-8 by their
    /// type, so names that a tree leaves out, as [`Disk`] does, give no errors. A missing start directory gives one
    /// only if it is listed.
    ///
    /// ```
    /// use cadmiumdove::search::{NoRuleTexts, Search};
    /// use cadmiumdove::walk::Disk;
    ///
    /// let mut found = Search::new(["src/*.rs"])?.over(Disk::new(), NoRuleTexts);
    /// assert!(found.by_ref().count() > 0);
    /// assert!(found.spent() > 0);
    /// # Ok::<(), cadmiumdove::search::SearchRefusal>(())
    /// ```
    ///
    /// <details><summary>Tested</summary>
    ///
    /// `a_search_finds_what_a_filter_of_all_paths_leaves` in `tests/searches.rs`.
    ///
    /// </details>
    pub fn over<T: Tree, R: RuleTexts>(self, tree: T, texts: R) -> Searching<T, R> {
        self.over_at(&[], tree, texts)
    }

    /// The same, if these names lead from the top of a repository down to the start.
    fn over_at<T: Tree, R: RuleTexts>(self, place: &[String], tree: T, texts: R) -> Searching<T, R> {
        let Search { patterns, mut settings, is_git, exclusions, .. } = self;
        let mut guide = Guide { texts, is_git, exclusions };
        if is_git {
            match rules_above(place, &mut guide) {
                Some(lists) => settings.last = lists,
                None => settings.depth = 0,
            }
        }
        let engine = Engine::new(&strs_of(&patterns), settings).expect("the patterns were read");
        Searching::new(engine, tree, guide)
    }
}

/// Begins on the file system. A start directory that is missing, or is not a directory, gives an error
/// [`Unread`](SearchError::Unread), and nothing else. In each directory that is listed, each name that is not UTF-8
/// gives an item [`NotText`](SearchError::NotText), whatever the patterns and the rules. These items come in the order
/// of their bytes, before what is found in and below the directory.
///
/// ```
/// use cadmiumdove::search::{Search, SearchError};
///
/// for item in Search::new(["**/*.toml"])?.max_depth(1) {
///     match item {
///         Ok(found) => println!("{}", found.path.display()),
///         Err(SearchError::NotText(path)) => eprintln!("{path:?} is left out"),
///         Err(error) => eprintln!("{error}"),
///     }
/// }
/// # Ok::<(), cadmiumdove::search::SearchRefusal>(())
/// ```
impl IntoIterator for Search {
    type Item = Result<Found, SearchError>;
    type IntoIter = Searching<Start, Start>;

    fn into_iter(mut self) -> Searching<Start, Start> {
        let place = if self.is_git { place_of(&self.start) } else { Vec::new() };
        let start = Start::new(Disk::new().follow_links(self.follow_links), mem::take(&mut self.start));
        let missing = start.missing();
        if missing.is_some() {
            self.patterns.clear();
        }
        let files = self.files;
        self.over_at(&place, start.clone(), start).reporting(missing, files)
    }
}

/// Whether a component of a pattern is not a name: empty, `.` or `..`.
fn matches_no_path(pattern: &str) -> bool {
    pattern.split('/').any(|component| matches!(component, "" | "." | ".."))
}
