//! Made by `bin/rust_crate` from `crates/glob_search/src/lib.rt`, where its contracts are: sha256 8b8dff2a6153e02a.
//!
//! Searches: the paths below a directory that at least one of many patterns matches, each once and in order, without
//! those that ignore files exclude.
//!
//! A [`Search`] for `src/*.c` and `lib/**/*.h` lists only `src`, `lib` and the directories below `lib`.
//!
//! Over a known content, the calls of [`Search::next`] return exactly what `specs/Visiting.antt` lists, one after
//! another, and then `None`: each path that a filter of all keys takes (`specs/Searching.antt`), once and in ascending
//! order, and each directory that could not be listed. The [`laws`] tie the order to the filter. This holds until the
//! limit is reached, or memory runs out.
//!
//! Over any tree, even if its answers contradict each other, a search is safe: each call returns; paths come in strictly
//! ascending order of names; a pattern takes each, and the rules that the search holds do not ignore it; what was asked
//! of the tree was charged, and never more than the limit. A name that a listing repeats counts once. If it comes with
//! two kinds, either may count.
//!
//! `PathRules` answers for paths from elsewhere, in any order: it ignores what a search by the same rules leaves out,
//! and names the rule that decides (`specs/Asking.antt`).
//!
//! A refused line of an ignore file is reported, and makes no rule. A pattern with an empty component, `.` or `..`
//! finds nothing.

mod active;
mod beginnings;
mod entries;
mod fault;
mod found;
mod frame;
mod meter;
mod outer;
mod rule_texts;
mod search;
mod searcher;
mod settings;
mod way;

pub use fault::SearchFault;
pub use outer::{entered, ignores_directory, OuterRules};
pub use rule_texts::{NoRuleTexts, RuleTexts};
pub use search::Search;
pub use settings::{Settings, Wanted};
