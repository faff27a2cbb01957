//! What a search could not do, and why its patterns are refused.

use std::error::Error;
use std::fmt;
use std::io;
use std::path::{Path, PathBuf};

use crate::ignore::{Reason, RuleRefusal};
use crate::proved::glob_search::SearchFault as Fault;
use crate::set::{BraceSetRefusal, SetRefusal};

/// What a search could not do. Paths are relative to the start directory, like the paths that are found; `.` is the
/// start directory itself. The search goes on, except after [`Limit`](SearchError::Limit).
///
/// ```
/// use cadmiumdove::search::{Search, SearchError};
/// use std::error::Error;
/// use std::path::Path;
///
/// let error = Search::new(["*"])?.below("nowhere").into_iter().next().unwrap().unwrap_err();
/// assert!(matches!(error, SearchError::Unread(..)));
/// assert_eq!(error.path(), Some(Path::new(".")));
/// assert!(error.to_string().starts_with(".: ") && error.source().is_some());
///
/// let mut search = Search::new(["**/*"])?.limit(0).into_iter();
/// assert!(matches!(search.next(), Some(Err(SearchError::Limit))));
/// assert!(search.next().is_none());
/// # Ok::<(), Box<dyn Error>>(())
/// ```
#[derive(Debug)]
#[non_exhaustive]
pub enum SearchError {
    /// The name at the path is not UTF-8, so neither it nor what is below it is found.
    NotText(PathBuf),
    /// The path could not be looked up, or the directory there could not be listed, so what may be there is not found.
    Unread(PathBuf, io::Error),
    /// The file with rules at the path could not be read, so its rules do not apply.
    UnreadRules(PathBuf, io::Error),
    /// A line of the file with rules at the path is refused, so it is not a rule; the other lines count. Lines are
    /// counted from 1.
    RefusedRules(PathBuf, usize, Reason),
    /// The next unit of work does not fit the limit. The search has ended.
    Limit,
}

impl SearchError {
    /// The path that the error is about; `None` for [`Limit`](SearchError::Limit).
    ///
    /// <details><summary>Tested</summary>
    ///
    /// `tests/search_errors.rs`.
    ///
    /// </details>
    #[must_use]
    pub fn path(&self) -> Option<&Path> {
        match self {
            SearchError::NotText(path)
            | SearchError::Unread(path, _)
            | SearchError::UnreadRules(path, _)
            | SearchError::RefusedRules(path, ..) => Some(path),
            SearchError::Limit => None,
        }
    }

    /// Whether this is [`Limit`](SearchError::Limit), after which nothing comes.
    ///
    /// <details><summary>Tested</summary>
    ///
    /// `tests/search_errors.rs`.
    ///
    /// </details>
    #[must_use]
    pub fn is_last(&self) -> bool {
        matches!(self, SearchError::Limit)
    }
}

/// The path, a colon and what is wrong there. A name that is not UTF-8 is shown as [`Path::display`] does.
impl fmt::Display for SearchError {
    fn fmt(&self, f: &mut fmt::Formatter<'_>) -> fmt::Result {
        if let Some(path) = self.path() {
            write!(f, "{}: ", path.display())?;
        }
        match self {
            SearchError::NotText(_) => f.write_str("the name is not UTF-8"),
            SearchError::Unread(_, error) | SearchError::UnreadRules(_, error) => error.fmt(f),
            SearchError::RefusedRules(_, line, reason) => write!(f, "line {line}: {reason}"),
            SearchError::Limit => f.write_str("search limit reached"),
        }
    }
}

/// The source is the I/O error, or the reason why the line is refused: the printed text without the path and the line.
impl Error for SearchError {
    fn source(&self) -> Option<&(dyn Error + 'static)> {
        match self {
            SearchError::Unread(_, error) | SearchError::UnreadRules(_, error) => Some(error),
            SearchError::RefusedRules(_, _, reason) => Some(reason),
            SearchError::NotText(_) | SearchError::Limit => None,
        }
    }
}

/// The errors for a fault of the proved search: for a file with refused rules, one for each of these lines.
pub(crate) fn errors_of(fault: Fault) -> Vec<SearchError> {
    match fault {
        Fault::Unread(path, error) => vec![SearchError::Unread(path.into(), error)],
        Fault::UnreadRules(path, error) => vec![SearchError::UnreadRules(path.into(), error)],
        Fault::RefusedRules(path, refusals) => refusals
            .into_iter()
            .map(|RuleRefusal::Line(line, reason)| SearchError::RefusedRules(path.clone().into(), line, reason))
            .collect(),
        Fault::Limit => vec![SearchError::Limit],
    }
}

/// Why [`Search::new`](crate::search::Search::new) or [`from_braces`](crate::search::Search::from_braces) refused
/// texts.
///
/// ```
/// use cadmiumdove::search::{Search, SearchRefusal};
///
/// let refused = |texts: &[&str]| Search::new(texts).unwrap_err();
/// assert!(matches!(refused(&["*.rs", "src/**.rs"]), SearchRefusal::Pattern(_)));
/// assert_eq!(refused(&["*.rs", "./src/*"]), SearchRefusal::NoPath(1));
/// assert_eq!(
///     refused(&["src/"]).to_string(),
///     "pattern 0: no path of a search matches it: leave out `./`, `..`, `//`, and a `/` at either end"
/// );
/// ```
#[derive(Debug, Clone, PartialEq, Eq)]
#[non_exhaustive]
pub enum SearchRefusal {
    /// A text is not a pattern.
    Pattern(SetRefusal),
    /// The braces of a text are not closed or stand for too many alternatives, or an alternative is not a pattern.
    Braces(BraceSetRefusal),
    /// The text with this number, counted from 0, or one of its alternatives has a component that is empty, `.` or
    /// `..`, so it matches no path of a search.
    NoPath(usize),
}

impl SearchRefusal {
    /// The number of the text that is refused, counted from 0. Alternatives are not counted.
    ///
    /// ```
    /// use cadmiumdove::search::Search;
    ///
    /// assert_eq!(Search::new(["a", "[b", "/c"]).unwrap_err().number(), 1);
    /// assert_eq!(Search::from_braces(["{a,b}", "{a,..}/c"]).unwrap_err().number(), 1);
    /// ```
    ///
    /// <details><summary>Tested</summary>
    ///
    /// `patterns_that_match_no_path_are_refused` in `tests/searches.rs`.
    ///
    /// </details>
    #[must_use]
    pub fn number(&self) -> usize {
        match self {
            SearchRefusal::Pattern(refusal) => refusal.number(),
            SearchRefusal::Braces(refusal) => refusal.number(),
            SearchRefusal::NoPath(number) => *number,
        }
    }
}

impl fmt::Display for SearchRefusal {
    fn fmt(&self, f: &mut fmt::Formatter<'_>) -> fmt::Result {
        match self {
            SearchRefusal::Pattern(refusal) => refusal.fmt(f),
            SearchRefusal::Braces(refusal) => refusal.fmt(f),
            SearchRefusal::NoPath(number) => write!(f, "pattern {number}: {NO_PATH}"),
        }
    }
}

/// The source is the fault without the number: the fault of the text, of its braces, or of its alternative.
impl Error for SearchRefusal {
    fn source(&self) -> Option<&(dyn Error + 'static)> {
        match self {
            SearchRefusal::Pattern(refusal) => refusal.source(),
            SearchRefusal::Braces(refusal) => refusal.source(),
            SearchRefusal::NoPath(_) => None,
        }
    }
}

impl From<SetRefusal> for SearchRefusal {
    fn from(refusal: SetRefusal) -> Self {
        SearchRefusal::Pattern(refusal)
    }
}

impl From<BraceSetRefusal> for SearchRefusal {
    fn from(refusal: BraceSetRefusal) -> Self {
        SearchRefusal::Braces(refusal)
    }
}

/// What is wrong with a pattern that matches no path of a search.
const NO_PATH: &str = "no path of a search matches it: leave out `./`, `..`, `//`, and a `/` at either end";
