//! Made by `bin/rust_crate` from `crates/glob_search/src/searcher/entering.rt`, where its contracts are: sha256 a56effd03a3cd65b.
//!
//! How a directory is entered.

use crate::proved::glob_search::entries::{list, look_up};
use crate::proved::glob_search::fault::SearchFault;
use crate::proved::glob_search::frame::{Frame, Opening, Source};
use crate::proved::glob_search::searcher::Searcher;
use crate::proved::glob_tree::{Entry, Tree};

impl Searcher {
    /// Enters a directory: learns its entries, and makes it the last one.
    pub(super) fn enter<T: Tree>(&mut self, tree: &mut T, opening: Opening) -> Result<(), SearchFault> {
        let source = self.source_of(&opening);
        let entries = self.entries(tree, &opening, source)?;
        self.step_into(opening, source, entries)
    }

    /// Makes a directory the last one, unless it has no entries.
    fn step_into(&mut self, opening: Opening, source: Source, entries: Vec<Entry>) -> Result<(), SearchFault> {
        if entries.is_empty() {
            return Ok(());
        }
        let active = self.active.files.len();
        let Opening { path, alive } = opening;
        self.way.frames.push(Frame { path, alive, source, entries, files: 0, active });
        Ok(())
    }

    /// How to learn the entries of a directory. If only literals lead on, their names are looked up. Otherwise the
    /// directory is listed, with kinds only if the caller wants them or entries that wildcards take may be entered.
    fn source_of(&self, opening: &Opening) -> Source {
        let alive = opening.alive.as_slice();
        if self.beginnings.is_literal(alive) {
            return Source::LookedUp;
        }
        let enters = self.way.frames.len() + 1 < self.depth && self.beginnings.enters_many(alive);
        if enters || self.kinds {
            Source::Listed
        } else {
            Source::Named
        }
    }

    /// The entries of a directory, in descending order of names.
    fn entries<T: Tree>(&mut self, tree: &mut T, opening: &Opening, source: Source) -> Result<Vec<Entry>, SearchFault> {
        match source {
            Source::LookedUp => look_up(&mut self.meter, tree, &self.beginnings, opening),
            Source::Listed | Source::Named => list(&mut self.meter, tree, opening, source),
        }
    }
}
