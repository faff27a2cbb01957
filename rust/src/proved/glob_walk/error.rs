//! Made by `bin/rust_crate` from `crates/glob_walk/src/error.rt`, where its contracts are: sha256 050c9521ce871d9a.
//! `GlobCause` is not `#[non_exhaustive]` there.
//! `self.error` is there `*self.error()`: an I/O error of std is not Copy.
//! `reason` is there `cause`: `cause` is a method of Rust's trait Error.
//!
//! The errors of a walk.

use std::path::{Path, PathBuf};
use std::{fmt, io};

/// Why a walk reports a path as an error: `Read` for a directory without read permission.
///
/// ```
/// use cadmiumdove::walk::{glob_in, Disk, GlobCause};
/// use cadmiumdove::MatchOptions;
///
/// let error = glob_in(Disk::new(), "*", MatchOptions::new(), 1)?.find_map(Result::err).unwrap();
/// assert_eq!(GlobCause::of(&error), GlobCause::Limit);
/// # Ok::<(), cadmiumdove::PatternError>(())
/// ```
#[derive(Clone, Copy, Debug, PartialEq, Eq)]
#[non_exhaustive]
pub enum GlobCause {
    /// The directory at the path could not be listed.
    Read,
    /// The next unit of work, which is for this path, does not fit the walk's limit. The walk has ended.
    Limit,
}

/// A path that a walk could not read, and why.
///
/// The error of a directory `a` without read permission has the path `a`, the cause `Read`, and an I/O error of the
/// kind `PermissionDenied`. At a limit of 0 the first item has the path `.` and the cause `Limit`, and prints as
/// ``attempting to read `.` resulted in an error: walk limit reached``.
///
/// ```
/// use cadmiumdove::walk::{glob_in, Disk};
/// use cadmiumdove::MatchOptions;
///
/// let error = glob_in(Disk::new(), "*", MatchOptions::new(), 0)?.next().unwrap().unwrap_err();
/// assert_eq!(error.to_string(), "attempting to read `.` resulted in an error: walk limit reached");
/// # Ok::<(), cadmiumdove::PatternError>(())
/// ```
#[derive(Debug)]
pub struct GlobError {
    path: PathBuf,
    error: io::Error,
    cause: GlobCause,
}

/// An item of a walk: a path that the pattern leads to, such as `Ok` of `src/a.rs`, or an error.
///
/// ```
/// let first: cadmiumdove::GlobResult = cadmiumdove::glob("Cargo.tom?")?.next().unwrap();
/// assert_eq!(first.unwrap().to_str(), Some("Cargo.toml"));
/// # Ok::<(), cadmiumdove::PatternError>(())
/// ```
pub type GlobResult = Result<PathBuf, GlobError>;

impl GlobError {
    /// The path could not be read because of `error`.
    pub(crate) fn read(path: PathBuf, error: io::Error) -> Self {
        GlobError { path, error, cause: GlobCause::Read }
    }

    /// The walk reached its limit at the path.
    pub(crate) fn limit(path: PathBuf) -> Self {
        GlobError { path, error: io::Error::other("walk limit reached"), cause: GlobCause::Limit }
    }

    /// The path that could not be read: `a` for the directory `a`.
    ///
    /// ```no_run
    /// for error in cadmiumdove::glob("private/*")?.filter_map(Result::err) {
    ///     println!("{} is left out", error.path().display());
    /// }
    /// # Ok::<(), cadmiumdove::PatternError>(())
    /// ```
    ///
    /// <details><summary>Contract</summary>
    ///
    /// ```text
    /// ensures { path_bytes result ≡ path_of self.now }
    /// ```
    ///
    /// </details>
    #[must_use]
    pub fn path(&self) -> &Path {
        self.path.as_path()
    }

    /// The I/O error, for example of the kind `PermissionDenied` for a directory without read permission. Its kind is
    /// `Other` if the cause is `Limit`.
    ///
    /// ```no_run
    /// use std::io::ErrorKind;
    ///
    /// let denied = |error: &cadmiumdove::GlobError| error.error().kind() == ErrorKind::PermissionDenied;
    /// assert!(cadmiumdove::glob("private/*")?.filter_map(Result::err).all(|error| denied(&error)));
    /// # Ok::<(), cadmiumdove::PatternError>(())
    /// ```
    ///
    /// <details><summary>Contract</summary>
    ///
    /// ```text
    /// ensures error { result.now ≡ error_of self.now }
    /// ensures kind { HasKind (cause_of self.now) (error_kind result.now) }
    /// ```
    ///
    /// </details>
    #[must_use]
    pub fn error(&self) -> &io::Error {
        &self.error
    }

    /// The I/O error that [`error`](Self::error) returns.
    ///
    /// ```
    /// use cadmiumdove::walk::{glob_in, Disk};
    /// use cadmiumdove::MatchOptions;
    ///
    /// let error = glob_in(Disk::new(), "*", MatchOptions::new(), 0)?.next().unwrap().unwrap_err();
    /// assert_eq!(error.into_error().kind(), std::io::ErrorKind::Other);
    /// # Ok::<(), cadmiumdove::PatternError>(())
    /// ```
    ///
    /// <details><summary>Contract</summary>
    ///
    /// ```text
    /// ensures error { result ≡ error_of self }
    /// ensures kind { HasKind (cause_of self) (error_kind result) }
    /// ```
    ///
    /// </details>
    #[must_use]
    pub fn into_error(self) -> io::Error {
        self.error
    }

    /// Why the path could not be read: `Read` for a directory without read permission.
    pub(crate) fn reason(&self) -> GlobCause {
        self.cause
    }
}

/// The I/O error that [`GlobError::error`] returns.
impl From<GlobError> for io::Error {
    fn from(e: GlobError) -> io::Error {
        e.into_error()
    }
}

/// The path, and why it could not be read. If the cause is `Read`, the text ends with what the I/O error prints, and
/// nothing is promised about the text.
impl fmt::Display for GlobError {
    fn fmt(&self, f: &mut fmt::Formatter<'_>) -> fmt::Result {
        let path = self.path.display();
        write!(f, "attempting to read `{path}` resulted in an error: ")?;
        match self.cause {
            GlobCause::Read => fmt::Display::fmt(&self.error, f),
            GlobCause::Limit => f.write_str("walk limit reached"),
        }
    }
}
