//! Made by `bin/rust_crate` from `crates/glob_search/src/entries.rt`, where its contracts are: sha256 4146dea54ef6064e.
//!
//! The entries of a directory, looked up or listed.

use crate::proved::glob_search::beginnings::Beginnings;
use crate::proved::glob_search::fault::SearchFault;
use crate::proved::glob_search::frame::{Opening, Source};
use crate::proved::glob_search::meter::Meter;
use crate::proved::glob_tree::{child, Entry, Look, Name, Tree};
use std::io;

/// Looks up a path, for one unit.
pub fn look_at<T: Tree>(meter: &mut Meter, tree: &mut T, path: &str) -> Result<Look, SearchFault> {
    meter.charge(1)?;
    Ok(tree.look(path))
}

/// Looks up the literal names by which beginnings lead on: the entries that exist, in descending order.
pub fn look_up<T: Tree>(
    meter: &mut Meter,
    tree: &mut T,
    beginnings: &Beginnings,
    opening: &Opening,
) -> Result<Vec<Entry>, SearchFault> {
    let mut names = beginnings.literal_names(opening.alive.as_slice());
    let mut entries = Vec::new();
    while let Some(name) = names.pop() {
        if let Some(entry) = entry_at(meter, tree, opening.path.as_str(), name)? {
            entries.push(entry);
        }
    }
    Ok(entries)
}

/// Looks up a name in a directory: its entry, if it exists.
fn entry_at<T: Tree>(
    meter: &mut Meter,
    tree: &mut T,
    directory: &str,
    name: &str,
) -> Result<Option<Entry>, SearchFault> {
    let Ok(name) = Name::new(String::from(name)) else {
        return Ok(None);
    };
    let path = child(directory, name.as_str());
    match look_at(meter, tree, path.as_str())? {
        Look::Missing => Ok(None),
        Look::Dir => Ok(Some(Entry { name, is_dir: true })),
        Look::Other => Ok(Some(Entry { name, is_dir: false })),
    }
}

/// Lists a directory: its entries, in descending order of names, each once.
pub fn list<T: Tree>(
    meter: &mut Meter,
    tree: &mut T,
    opening: &Opening,
    source: Source,
) -> Result<Vec<Entry>, SearchFault> {
    meter.charge(1)?;
    let mut entries = match listed(tree, opening.path.as_str(), source) {
        Ok(entries) => entries,
        Err(error) => {
            return Err(SearchFault::Unread(opening.path.clone(), error));
        }
    };
    meter.charge(entries.len())?;
    put_in_order(&mut entries);
    Ok(entries)
}

/// The listing of a directory: only names if the source is `Named`, and otherwise kinds as well.
fn listed<T: Tree>(tree: &mut T, path: &str, source: Source) -> Result<Vec<Entry>, io::Error> {
    if source == Source::Named {
        tree.list_names(path)
    } else {
        tree.list(path)
    }
}

/// Sorts entries in descending order of names, and keeps each name once.
fn put_in_order(entries: &mut Vec<Entry>) {
    entries.sort_unstable_by(|a, b| b.name.as_str().cmp(a.name.as_str()));
    entries.dedup_by(|a, b| a.name.as_str() == b.name.as_str());
}
