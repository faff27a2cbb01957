//! Walks with a limit, over trees of your own, and walks that ask their caller.
//!
//! A walk is charged in units: one for each path that is looked up, one for each directory that is listed, and one for
//! each entry of these. With a limit it ends, whatever the pattern and the tree, even if links form a cycle. A
//! directory is read to its end before its entries are charged:
//!
//! ```
//! use cadmiumdove::walk::{glob_in, spent, Disk, GlobCause};
//! use cadmiumdove::MatchOptions;
//!
//! let mut paths = glob_in(Disk::new(), "src/**/*.rs", MatchOptions::new(), 10_000)?;
//! for item in &mut paths {
//!     match item {
//!         Ok(path) => println!("{}", path.display()),
//!         Err(error) if GlobCause::of(&error) == GlobCause::Limit => println!("too much to look at"),
//!         Err(error) => println!("{error}"),
//!     }
//! }
//! assert!(spent(&paths) <= 10_000);
//! # Ok::<(), cadmiumdove::PatternError>(())
//! ```
//!
//! A [`Tree`] is anything that can be looked up and listed, such as an archive. [`recipes`](crate::recipes) makes one
//! from a map of paths, and says what a walk asks it:
//!
//! ```
//! use cadmiumdove::walk::{glob_in, Entry, Look, Name, Tree};
//! use cadmiumdove::MatchOptions;
//! use std::io;
//!
//! /// A directory of two files.
//! struct Pair;
//!
//! impl Tree for Pair {
//!     fn look(&mut self, path: &str) -> Look {
//!         match path {
//!             "." => Look::Dir,
//!             "a.rs" | "b.c" => Look::Other,
//!             _ => Look::Missing,
//!         }
//!     }
//!
//!     fn list(&mut self, _path: &str) -> io::Result<Vec<Entry>> {
//!         let names = ["b.c", "a.rs"].map(|name| Name::new(name.to_owned()).unwrap());
//!         Ok(names.map(|name| Entry { name, is_dir: false }).into())
//!     }
//! }
//!
//! let found: Vec<_> = glob_in(Pair, "*.rs", MatchOptions::new(), 100).unwrap().flatten().collect();
//! assert_eq!(found, [std::path::Path::new("a.rs")]);
//! ```
//!
//! A [`WalkMachine`] has no tree: it asks, and whoever drives it answers, at once or later. So a walk over a network
//! can wait for its answers. If an answer does not fit the question, the machine asks again.
//!
//! ```
//! use cadmiumdove::walk::{Answer, Entry, Look, Name, Step, WalkMachine};
//! use cadmiumdove::MatchOptions;
//!
//! let mut machine = WalkMachine::new("*", MatchOptions::new(), 100).unwrap();
//! assert!(matches!(machine.resume(Answer::Nothing), Step::Look) && machine.path() == ".");
//! assert!(matches!(machine.resume(Answer::Look(Look::Dir)), Step::ListNames));
//! let names = ["y", "x"].map(|name| Name::new(name.to_owned()).unwrap());
//! let step = machine.resume(Answer::List(Ok(names.map(|name| Entry { name, is_dir: false }).into())));
//! assert!(matches!(step, Step::Item(Ok(path)) if path == std::path::Path::new("x")));
//! assert!(matches!(machine.resume(Answer::Nothing), Step::Item(Ok(path)) if path == std::path::Path::new("y")));
//! assert!(matches!(machine.resume(Answer::Nothing), Step::Done));
//! assert_eq!(machine.spent(), 4);
//! ```

use std::io;

pub use crate::disk::Disk;
pub use crate::proved::glob::paths::{glob_in, Paths};
pub use crate::proved::glob_tree::{Entry, Look, Name, Tree};
pub use crate::proved::glob_walk::{is_plain, Answer, GlobCause, GlobError, GlobResult, Step, WalkMachine};

impl GlobCause {
    /// Why a walk gave an error, such as `Read` if a directory could not be listed.
    ///
    /// ```
    /// use cadmiumdove::walk::{glob_in, Disk, GlobCause};
    /// use cadmiumdove::MatchOptions;
    ///
    /// let mut paths = glob_in(Disk::new(), "*", MatchOptions::new(), 0).unwrap();
    /// let error = paths.next().unwrap().unwrap_err();
    /// assert_eq!(GlobCause::of(&error), GlobCause::Limit);
    /// ```
    ///
    /// <details><summary>Contract</summary>
    ///
    /// The contract of a method in the sources, whose `self` is the error.
    ///
    /// ```text
    /// ensures { result ≡ cause_of self.now }
    /// ```
    ///
    /// </details>
    pub fn of(error: &GlobError) -> Self {
        error.reason()
    }
}

/// How many units of work a walk was charged: never more than its limit, and 0 before the first call of `next`.
///
/// ```
/// use cadmiumdove::walk::{glob_in, spent, Disk};
/// use cadmiumdove::MatchOptions;
///
/// let mut paths = glob_in(Disk::new(), "Cargo.toml", MatchOptions::new(), 100).unwrap();
/// assert_eq!((spent(&paths), paths.by_ref().count(), spent(&paths)), (0, 1, 2));
/// ```
///
/// <details><summary>Contract</summary>
///
/// The contract of a method in the sources, whose `self` is the walk.
///
/// ```text
/// ensures spent { result ≡ self.now.machine.spent }
/// ensures within { result ≤ self.now.machine.limit }
/// ```
///
/// </details>
pub fn spent<T: Tree>(paths: &Paths<T>) -> u64 {
    paths.spent()
}

/// How many items a walk has given: at most one more than the units that it has [`spent`].
///
/// <details><summary>Contract</summary>
///
/// The contract of a method in the sources, whose `self` is the walk.
///
/// ```text
/// ensures given { result ≡ self.now.machine.given }
/// ensures few { result ≤ self.now.machine.spent + 1 }
/// ```
///
/// </details>
pub fn given<T: Tree>(paths: &Paths<T>) -> u128 {
    paths.given()
}

/// A walk over a `&mut T` borrows the tree, so the caller keeps it.
///
/// ```
/// use cadmiumdove::walk::{glob_in, Disk, Entry, Look, Tree};
/// use cadmiumdove::MatchOptions;
///
/// /// The disk, and how many directories were listed.
/// struct Counted(Disk, usize);
///
/// impl Tree for Counted {
///     fn look(&mut self, path: &str) -> Look {
///         self.0.look(path)
///     }
///
///     fn list(&mut self, path: &str) -> std::io::Result<Vec<Entry>> {
///         self.1 += 1;
///         self.0.list(path)
///     }
/// }
///
/// let mut tree = Counted(Disk::new(), 0);
/// assert!(glob_in(&mut tree, "src/*.rs", MatchOptions::new(), u64::MAX).unwrap().count() > 0);
/// assert_eq!(tree.1, 1);
/// ```
impl<T: Tree + ?Sized> Tree for &mut T {
    fn look(&mut self, path: &str) -> Look {
        (**self).look(path)
    }

    fn list(&mut self, path: &str) -> io::Result<Vec<Entry>> {
        (**self).list(path)
    }

    fn list_names(&mut self, path: &str) -> io::Result<Vec<Entry>> {
        (**self).list_names(path)
    }
}

/// A tree that is chosen at run time.
///
/// ```
/// use cadmiumdove::walk::{glob_in, Disk, Entry, Look, Tree};
/// use cadmiumdove::MatchOptions;
///
/// /// Nothing but the current directory.
/// struct Empty;
///
/// impl Tree for Empty {
///     fn look(&mut self, path: &str) -> Look {
///         if path == "." { Look::Dir } else { Look::Missing }
///     }
///
///     fn list(&mut self, _path: &str) -> std::io::Result<Vec<Entry>> {
///         Ok(Vec::new())
///     }
/// }
///
/// fn tree(is_dry: bool) -> Box<dyn Tree> {
///     if is_dry { Box::new(Empty) } else { Box::new(Disk::new()) }
/// }
///
/// let count = |tree| glob_in(tree, "src/*.rs", MatchOptions::new(), u64::MAX).unwrap().count();
/// assert!(count(tree(true)) == 0 && count(tree(false)) > 0);
/// ```
impl<T: Tree + ?Sized> Tree for Box<T> {
    fn look(&mut self, path: &str) -> Look {
        (**self).look(path)
    }

    fn list(&mut self, path: &str) -> io::Result<Vec<Entry>> {
        (**self).list(path)
    }

    fn list_names(&mut self, path: &str) -> io::Result<Vec<Entry>> {
        (**self).list_names(path)
    }
}
