//! Made by `bin/rust_crate` from `crates/glob/src/paths.rt`, where its contracts are: sha256 f549016ee88092de.
//! Public there: `spent`, `given`. A trait of a user may have a function of such a name.
//!
//! A walk over a tree, item by item.

use crate::proved::glob_pattern::{MatchOptions, PatternError};
use crate::proved::glob_tree::Tree;
use crate::proved::glob_walk::{GlobResult, Step, WalkMachine};
use std::fmt;

/// The items of a walk: the paths that a pattern leads to in a tree, in order, and an error for each directory that
/// could not be listed. Over files `x` and `y`, `*` gives `x` and then `y`.
///
/// The last item may be a refusal: the limit was reached, at the path of the item. After a refusal, and after the first
/// `None`, only `None` follows.
///
/// ```
/// use cadmiumdove::walk::{glob_in, Disk, Paths};
/// use cadmiumdove::MatchOptions;
///
/// let mut paths: Paths<Disk> = glob_in(Disk::new(), "Cargo.tom?", MatchOptions::new(), 1_000)?;
/// assert_eq!(paths.next().unwrap()?.to_str(), Some("Cargo.toml"));
/// # Ok::<(), Box<dyn std::error::Error>>(())
/// ```
pub struct Paths<T: Tree> {
    tree: T,
    machine: WalkMachine,
}

/// How many units were charged, and how many items given.
impl<T: Tree> fmt::Debug for Paths<T> {
    fn fmt(&self, f: &mut fmt::Formatter<'_>) -> fmt::Result {
        f.debug_struct("Paths").field("spent", &self.spent()).field("given", &self.given()).finish()
    }
}

impl<T: Tree> Paths<T> {
    /// A walk that has done nothing yet, whose questions the tree answers.
    pub(crate) fn new(tree: T, machine: WalkMachine) -> Self {
        Paths { tree, machine }
    }

    /// How many units of work were charged: never more than the limit. It is 0 before the first call of `next`.
    pub(crate) fn spent(&self) -> u64 {
        self.machine.spent()
    }

    /// How many items `next` gave, including a refusal: at most one more than `spent`. After two paths it is 2.
    pub(crate) fn given(&self) -> u128 {
        self.machine.given()
    }
}

impl<T: Tree> Iterator for Paths<T> {
    type Item = GlobResult;

    /// The next item, or `None` if none is left. A walk by `*` over a file `x` gives `Ok` of `x`, and then
    /// `None`.
    ///
    /// The cause of an error is `Read` if a directory could not be listed, and the walk goes on; `Limit` if the next
    /// unit of work does not fit the limit. After any cause other than `Read` only `None` follows.
    fn next(&mut self) -> Option<GlobResult> {
        loop {
            match self.machine.advance(&mut self.tree) {
                Step::Item(item) => return Some(item),
                Step::Done => return None,
                Step::Look | Step::List | Step::ListNames => {}
            }
        }
    }
}

/// Walks `tree` for a pattern, with at most `limit` units of work: one for each lookup, one for each listing, and one
/// for each entry of a listing. Nothing is looked up before the first call of `next`.
///
/// If `b` is the only entry of `a`, then `a/*` gives `a/b`, for 4 units: the lookups of the start and of `a`, the
/// listing of `a`, and its entry.
///
/// ```
/// use cadmiumdove::walk::{glob_in, Disk};
/// use cadmiumdove::MatchOptions;
///
/// let links_stay = Disk::new().follow_links(false);
/// assert!(glob_in(links_stay, "**/*.rs", MatchOptions::new(), 100_000)?.flatten().count() > 1);
/// # Ok::<(), cadmiumdove::PatternError>(())
/// ```
///
/// # Errors
///
/// A pattern with a fault is refused: the fault of the whole text, or else the fault of the first component with one,
/// for example if a bracket has a `/`. Its place is in characters, from the start of the text or of that component: for
/// `x/a[/]b` it is 1. A refusal drops the tree.
///
/// <details><summary>Contract</summary>
///
/// ```text
/// ensures accepted { IfOk result (λ _. walk_fault pattern.now ≡ None) }
/// ensures refused { IfErr result (RefusesWith (walk_fault pattern.now)) }
/// ensures tree { IfOk result (λ p. p.tree ≡ tree) }
/// ensures fresh { IfOk result (λ p. IsFresh limit p.machine) }
/// ensures aim { IfOk result
///     (λ p. (c : Content) → listing_of c p.machine.aim ≡ listing c options pattern.now) }
/// ensures listing { (c : Content)
///     → IfOk result (λ p. HasGiven (listing c options pattern.now) c [] p.machine) }
/// ```
///
/// </details>
pub fn glob_in<T: Tree>(tree: T, pattern: &str, options: MatchOptions, limit: u64) -> Result<Paths<T>, PatternError> {
    let machine = WalkMachine::new(pattern, options, limit)?;
    Ok(Paths::new(tree, machine))
}
