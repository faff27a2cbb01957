//! Made by `bin/rust_crate` from `crates/glob_tree/src/tree.rt`, where its contracts are: sha256 e07e6e946f26efa3.
//! Not derived there: `Entry`.
//!
//! Trees: what a walk can ask, and what the answers are.

use crate::proved::glob_tree::name::Name;
use std::io;

/// What a path leads to. If `a` is a directory with the file `b`, then `a` leads to `Dir`, `a/b` to `Other`, and `a/c`
/// to `Missing`.
///
/// ```
/// use cadmiumdove::walk::{Disk, Look, Tree};
///
/// let mut disk = Disk::new();
/// assert_eq!(["src", "Cargo.toml", "no"].map(|path| disk.look(path)), [Look::Dir, Look::Other, Look::Missing]);
/// ```
#[derive(Clone, Copy, PartialEq, Eq, Debug)]
pub enum Look {
    /// A directory.
    Dir,
    /// Something other than a directory.
    Other,
    /// Nothing.
    Missing,
}

impl Look {
    /// Whether it is a directory: true only for `Dir`.
    ///
    /// <details><summary>Contract</summary>
    ///
    /// ```text
    /// ensures { result ≡ is_directory self }
    /// ```
    ///
    /// </details>
    #[must_use]
    pub fn is_dir(self) -> bool {
        matches!(self, Look::Dir)
    }
}

/// An entry of a directory, as a listing returns it. A file `b` has the name `b`, and is not a directory.
///
/// ```
/// use cadmiumdove::walk::{Disk, Entry, Name, Tree};
///
/// let source = Entry { name: Name::new("src".to_owned())?, is_dir: true };
/// assert!(Disk::new().list(".").unwrap().contains(&source));
/// # Ok::<(), String>(())
/// ```
#[derive(Debug, Clone, PartialEq, Eq)]
pub struct Entry {
    /// Its name in the directory.
    pub name: Name,
    /// Whether it is a directory, even one that cannot be listed. In a listing of names it may be false for a
    /// directory.
    pub is_dir: bool,
}

/// A tree of files and directories, as a walk sees it.
///
/// ```
/// use cadmiumdove::walk::{glob_in, Entry, Look, Tree};
/// use cadmiumdove::MatchOptions;
///
/// /// Nothing but the current directory.
/// struct Empty;
///
/// impl Tree for Empty {
///     fn look(&mut self, path: &str) -> Look {
///         if path == "." { Look::Dir } else { Look::Missing }
///     }
///
///     fn list(&mut self, _path: &str) -> std::io::Result<Vec<Entry>> {
///         Ok(Vec::new())
///     }
/// }
///
/// assert_eq!(glob_in(Empty, "**/*", MatchOptions::new(), 100)?.count(), 0);
/// # Ok::<(), cadmiumdove::PatternError>(())
/// ```
pub trait Tree {
    /// What `path` leads to, from the root if it begins with `/`, and otherwise from the current directory. If the
    /// current directory is `/a` and has the file `b`, both `look("b")` and `look("/a/b")` return `Look::Other`, and
    /// `look("b/c")` returns `Look::Missing`. It is one question.
    ///
    /// <details><summary>Contract</summary>
    ///
    /// ```text
    /// ensures asks { asks self.new ≡ asks self.old + 1 }
    /// ensures content { tells self.new ≡ tells self.old }
    /// ensures seen { (c : Content) → IsTold (tells self.old) c
    ///     → IfOk result (λ seen. seen ≡ look_result c path.now) }
    /// ```
    ///
    /// </details>
    fn look(&mut self, path: &str) -> Look;

    /// The entries of the directory that `path` leads to, each once and in any order, without `.` and `..`. For a
    /// directory with the file `b` and the directory `c`, it returns `b` with `is_dir` false and `c` with `is_dir`
    /// true. It is one question, plus one for each entry.
    ///
    /// # Errors
    ///
    /// [`io::Error`] is the reason why it cannot be listed, for example that `path` leads to a file or to nothing.
    ///
    /// <details><summary>Contract</summary>
    ///
    /// ```text
    /// ensures asks { asks self.new ≡ asks self.old + 1 + entry_count result }
    /// ensures content { tells self.new ≡ tells self.old }
    /// ensures entries { (c : Content) → IsTold (tells self.old) c
    ///     → IfOk result (λ v. IsListAnswer (list_result c path.now) (entries_of v.items)) }
    /// ensures fails { (c : Content) → IsTold (tells self.old) c
    ///     → IfErr result (λ e. IsListError (list_result c path.now) e) }
    /// ```
    ///
    /// </details>
    fn list(&mut self, path: &str) -> Result<Vec<Entry>, io::Error>;

    /// Like [`list`](Tree::list), for callers that need only the names: `is_dir` may be `false` for any entry. A tree
    /// that would have to find out the kind of each entry can skip that here.
    ///
    /// For a directory with the directory `a` and the file `b` it returns the names `a` and `b`.
    ///
    /// # Errors
    ///
    /// The errors are those of [`list`](Tree::list), which is the provided body.
    ///
    /// <details><summary>Contract</summary>
    ///
    /// ```text
    /// ensures asks { asks self.new ≡ asks self.old + 1 + entry_count result }
    /// ensures content { tells self.new ≡ tells self.old }
    /// ensures names { (c : Content) → IsTold (tells self.old) c
    ///     → IfOk result (λ v. IsNamesAnswer (list_result c path.now) (entries_of v.items)) }
    /// ensures fails { (c : Content) → IsTold (tells self.old) c
    ///     → IfErr result (λ e. IsListError (list_result c path.now) e) }
    /// ```
    ///
    /// </details>
    fn list_names(&mut self, path: &str) -> Result<Vec<Entry>, io::Error> {
        self.list(path)
    }
}
