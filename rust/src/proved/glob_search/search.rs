//! Made by `bin/rust_crate` from `crates/glob_search/src/search.rt`, where its contracts are: sha256 b5b373f228c3b9d2.
//!
//! A search, as its callers see it.

use crate::proved::glob_search::fault::SearchFault;
use crate::proved::glob_search::found::Found;
use crate::proved::glob_search::rule_texts::RuleTexts;
use crate::proved::glob_search::searcher::Searcher;
use crate::proved::glob_search::settings::Settings;
use crate::proved::glob_set::SetRefusal;
use crate::proved::glob_tree::Tree;

/// A search for the paths below the current directory of a tree that at least one of many patterns matches, each once
/// and in ascending order of names.
///
/// ```text
/// let mut search = Search::new(&["src/*.rs", "docs/**"], Settings::new())?;
/// search.next(&mut tree, &mut NoRuleTexts)    // Some(Ok(found)), and found.path is "docs/index.md"
/// search.next(&mut tree, &mut NoRuleTexts)    // Some(Ok(found)), and found.path is "src/main.rs"
/// search.next(&mut tree, &mut NoRuleTexts)    // None
/// ```
pub struct Search {
    searcher: Searcher,
}

impl Search {
    /// A search that has not begun: it has asked nothing and given nothing.
    ///
    /// A pattern is read as a whole, and then each of its components, so that `a/[/]` is refused for its `[`. The error
    /// is the number of the first pattern with a fault, counted from 0, and its first fault.
    pub fn new(patterns: &[&str], settings: Settings) -> Result<Self, SetRefusal> {
        let searcher = Searcher::new(patterns, settings)?;
        Ok(Search { searcher })
    }

    /// The next path that is found, or what could not be done; `None` once nothing is left.
    ///
    /// If the content of the tree and the texts of ignore files are known, the paths, and the directories that cannot
    /// be listed, are exactly those that the search has to give, one after another, and then comes `None`. If an ignore
    /// file has refused lines, the search goes on with its other lines; if a file cannot be read, with the other files.
    /// Both happen only if ignore files were asked for.
    ///
    /// Each path and each fault leaves less to come, so a loop of calls up to `None` ends.
    pub fn next<T: Tree, R: RuleTexts>(&mut self, tree: &mut T, texts: &mut R) -> Option<Result<Found, SearchFault>> {
        self.searcher.next(tree, texts)
    }

    /// How many units of work were charged: never more than the limit.
    pub fn spent(&self) -> u64 {
        self.searcher.spent()
    }
}
