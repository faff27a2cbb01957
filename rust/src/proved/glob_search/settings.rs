//! Made by `bin/rust_crate` from `crates/glob_search/src/settings.rt`, where its contracts are: sha256 2f1a3fe43ca1ccb8.
//! `Wanted` is not `#[non_exhaustive]` there.
//!
//! What a search is asked for, besides its patterns.

use crate::proved::glob_pattern::MatchOptions;
use crate::proved::glob_rules::IgnoreList;
use crate::proved::glob_search::outer::OuterRules;

/// Which of the paths that a pattern matches are found.
///
/// ```
/// use cadmiumdove::search::{Search, Wanted};
///
/// let files = Search::new(["**/*"])?.max_depth(2).wanted(Wanted::Others);
/// assert!(files.into_iter().flatten().all(|found| !found.is_dir));
/// # Ok::<(), cadmiumdove::search::SearchRefusal>(())
/// ```
#[derive(Clone, Copy, Debug, PartialEq, Eq)]
#[non_exhaustive]
pub enum Wanted {
    /// All of them.
    All,
    /// Directories.
    Directories,
    /// Everything but directories.
    Others,
}

impl Wanted {
    /// Whether a path is found; `is_dir` says whether it is a directory.
    ///
    /// <details><summary>Contract</summary>
    ///
    /// ```text
    /// ensures { result ≡ wants self is_dir }
    /// ```
    ///
    /// </details>
    #[must_use]
    pub fn takes(self, is_dir: bool) -> bool {
        match self {
            Wanted::All => true,
            Wanted::Directories => is_dir,
            Wanted::Others => !is_dir,
        }
    }
}

/// What a search is asked for, besides its patterns. [`new`](Settings::new) asks for all that they match.
pub struct Settings {
    /// How names are matched. The separator rule holds in any case.
    pub options: MatchOptions,
    /// How many names a path may have: with 1, only what is in the start directory is found.
    pub depth: usize,
    /// Which kinds are found.
    pub wanted: Wanted,
    /// Whether to learn the kind of each path that is found. If not, the search asks for a kind only where it decides
    /// something.
    pub kinds: bool,
    /// How many units of work it may take: one for each lookup, listing, ignore file, and entry of a listing.
    pub limit: u64,
    /// Lists that override ignore files, for paths from the start directory on. The last list is asked first.
    pub first: Vec<IgnoreList>,
    /// Lists that ignore files override, such as git's `info/exclude` and the files of directories above the start. The
    /// last list is asked first.
    pub last: Vec<OuterRules>,
    /// The names of ignore files, such as `.gitignore`. In each directory the last one is asked first.
    pub rule_files: Vec<String>,
}

impl Settings {
    /// All that the patterns match, case-sensitively, with no rules and practically no limit.
    pub fn new() -> Self {
        Settings {
            options: MatchOptions::new(),
            depth: usize::MAX,
            wanted: Wanted::All,
            kinds: false,
            limit: u64::MAX,
            first: Vec::new(),
            last: Vec::new(),
            rule_files: Vec::new(),
        }
    }
}
