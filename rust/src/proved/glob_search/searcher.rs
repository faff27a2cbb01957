//! Made by `bin/rust_crate` from `crates/glob_search/src/searcher.rt`, where its contracts are: sha256 8807a9ad0f800e8e.
//!
//! The turns of a search.
//!
//! A search has a frame for each directory on the way down to where it is. A turn enters a directory, reads one of its
//! ignore files, meets one of its entries, or leaves it.

mod entering;

use crate::proved::glob_search::active::{ActiveRules, FileRules};
use crate::proved::glob_search::beginnings::Beginnings;
use crate::proved::glob_search::entries::look_at;
use crate::proved::glob_search::fault::SearchFault;
use crate::proved::glob_search::found::Found;
use crate::proved::glob_search::frame::Opening;
use crate::proved::glob_search::meter::Meter;
use crate::proved::glob_search::rule_texts::{read_list, RuleTexts};
use crate::proved::glob_search::settings::{Settings, Wanted};
use crate::proved::glob_search::way::{Way, Work};
use crate::proved::glob_set::SetRefusal;
use crate::proved::glob_tree::{child, Entry, Tree};

/// What a search keeps between its turns.
pub struct Searcher {
    beginnings: Beginnings,
    depth: usize,
    wanted: Wanted,
    kinds: bool,
    rule_files: Vec<String>,
    active: ActiveRules,
    meter: Meter,
    way: Way,
}

impl Searcher {
    /// A search that has asked nothing.
    pub fn new(patterns: &[&str], settings: Settings) -> Result<Self, SetRefusal> {
        let Settings { options, depth, wanted, kinds, limit, first, last, rule_files } = settings;
        let beginnings = Beginnings::of(patterns, options)?;
        let path = String::from(".");
        let alive = beginnings.at_start();
        let entering = if depth > 0 { Some(Opening { path, alive }) } else { None };
        let active = ActiveRules::of_lists(first, last);
        Ok(Searcher {
            beginnings,
            depth,
            wanted,
            kinds,
            rule_files,
            active,
            meter: Meter { limit, spent: 0 },
            way: Way { entering, frames: Vec::new() },
        })
    }

    /// The next path that is found, or what could not be done.
    pub fn next<T: Tree, R: RuleTexts>(&mut self, tree: &mut T, texts: &mut R) -> Option<Result<Found, SearchFault>> {
        while let Some(work) = self.way.next(self.rule_files.as_slice()) {
            match self.turn(work, tree, texts) {
                Ok(None) => {}
                Ok(Some(found)) => return Some(Ok(found)),
                Err(fault) => {
                    if fault.is_last() {
                        self.end();
                    }
                    return Some(Err(fault));
                }
            }
        }
        None
    }

    /// How many units of work were charged.
    pub fn spent(&self) -> u64 {
        self.meter.spent
    }

    /// Drops what is left, after the last fault.
    fn end(&mut self) {
        self.way = Way { entering: None, frames: Vec::new() };
    }

    /// One turn, which may find a path.
    fn turn<T: Tree, R: RuleTexts>(
        &mut self,
        work: Work,
        tree: &mut T,
        texts: &mut R,
    ) -> Result<Option<Found>, SearchFault> {
        match work {
            Work::Enter(opening) => self.enter(tree, opening)?,
            Work::Read(number) => self.read_rules(texts, number)?,
            Work::Meet(entry) => return self.meet(tree, texts, entry),
            Work::Leave(active) => self.active.files.truncate(active),
        }
        Ok(None)
    }

    /// Meets an entry of the last directory. It may be found, and it may be entered next.
    fn meet<T: Tree, R: RuleTexts>(
        &mut self,
        tree: &mut T,
        texts: &mut R,
        entry: Entry,
    ) -> Result<Option<Found>, SearchFault> {
        let Some(frame) = self.way.frames.last() else {
            return Ok(None);
        };
        let alive = self.beginnings.after(frame.alive.as_slice(), entry.name.as_str());
        let is_found = self.beginnings.is_found(alive.as_slice());
        let goes_on = self.way.frames.len() < self.depth && self.beginnings.goes_on(alive.as_slice());
        if !is_found && !goes_on {
            return Ok(None);
        }
        let known = frame.kind_of(&entry);
        let may_enter = known.unwrap_or(true);
        if !is_found && !may_enter {
            return Ok(None);
        }
        let path = child(frame.path.as_str(), entry.name.as_str());
        let is_dir = self.kind_at(tree, path.as_str(), known, goes_on)?;
        if self.is_left_out(texts, path.as_str(), is_dir.unwrap_or(false)) {
            return Ok(None);
        }
        self.take(path, alive, is_dir, is_found, goes_on)
    }

    /// Whether the entry at a path is a directory; `None` if that is unknown and does not matter.
    fn kind_at<T: Tree>(
        &mut self,
        tree: &mut T,
        path: &str,
        known: Option<bool>,
        goes_on: bool,
    ) -> Result<Option<bool>, SearchFault> {
        if known.is_some() || !(goes_on || self.needs_kind(path)) {
            return Ok(known);
        }
        let seen = look_at(&mut self.meter, tree, path)?;
        Ok(Some(seen.is_dir()))
    }

    /// Whether the rules ignore a path, or the caller leaves it out.
    fn is_left_out<R: RuleTexts>(&self, texts: &mut R, path: &str, is_dir: bool) -> bool {
        if self.active.ignores(path, is_dir) {
            return true;
        }
        texts.leaves_out(path, is_dir)
    }

    /// Finds an entry, if it is wanted, and enters it next, if it is a directory and patterns go on.
    fn take(
        &mut self,
        path: String,
        alive: Vec<usize>,
        is_dir: Option<bool>,
        is_found: bool,
        goes_on: bool,
    ) -> Result<Option<Found>, SearchFault> {
        let enters = is_dir.unwrap_or(false);
        self.way.enter_if(goes_on && enters, &path, alive);
        if is_found && self.wanted.takes(enters) {
            return Ok(Some(Found { path, is_dir }));
        }
        Ok(None)
    }

    /// Whether the kind of what is found at a path matters: to the caller, or to the rules.
    fn needs_kind(&self, path: &str) -> bool {
        if self.kinds || self.wanted != Wanted::All {
            return true;
        }
        let ignores_directory = self.active.ignores(path, true);
        let ignores_file = self.active.ignores(path, false);
        ignores_directory != ignores_file
    }

    /// Reads, in the last directory, the ignore file with the name at index `number`.
    fn read_rules<R: RuleTexts>(&mut self, texts: &mut R, number: usize) -> Result<(), SearchFault> {
        self.meter.charge(1)?;
        let Some(frame) = self.way.frames.last() else {
            return Ok(());
        };
        let Some(name) = self.rule_files.get(number) else {
            return Ok(());
        };
        let path = child(frame.path.as_str(), name.as_str());
        let above = path.len().saturating_sub(name.len());
        let Some((list, refusals)) = read_list(texts, path.as_str())? else {
            return Ok(());
        };
        self.active.files.push(FileRules { above, list });
        if refusals.is_empty() {
            return Ok(());
        }
        Err(SearchFault::RefusedRules(path, refusals))
    }
}
