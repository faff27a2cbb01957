//! The rules of git from the top of a repository down to the start of a search.

use std::path::Path;

use crate::ignore::IgnoreList;
use crate::proved::glob_search::{entered, ignores_directory, OuterRules, RuleTexts};

/// The names from the top of a directory's repository down to the directory, with symbolic links resolved. The top is
/// the nearest directory upwards that has a `.git`. There are no names if the directory is the top, or if it is in no
/// repository.
pub(crate) fn place_of(directory: &Path) -> Vec<String> {
    let directory = if directory.as_os_str().is_empty() { Path::new(".") } else { directory };
    let Ok(whole) = directory.canonicalize() else {
        return Vec::new();
    };
    let top = whole.ancestors().find(|top| top.join(".git").symlink_metadata().is_ok());
    let place = top.and_then(|top| whole.strip_prefix(top).ok()).unwrap_or(Path::new(""));
    place.iter().map(|name| name.to_string_lossy().into_owned()).collect()
}

/// The lists that the lists of a search's own directories override; `None` if they ignore the start, or a directory
/// above it. `place` has the names from the top of the repository down to the start.
pub(crate) fn rules_above(place: &[String], texts: &mut impl RuleTexts) -> Option<Vec<OuterRules>> {
    let mut lists = Vec::new();
    add_rules(&mut lists, texts, place.len(), ".git/info/exclude");
    for (number, name) in place.iter().enumerate() {
        add_rules(&mut lists, texts, place.len() - number, ".gitignore");
        if ignores_directory(&lists, name) {
            return None;
        }
        lists = entered(lists, name);
    }
    Some(lists)
}

/// Adds the rules of a file, if it can be read, in the directory this many levels above the start.
fn add_rules(lists: &mut Vec<OuterRules>, texts: &mut impl RuleTexts, levels: usize, file: &str) {
    if let Ok(Some(text)) = texts.text(&format!("{}{file}", "../".repeat(levels))) {
        lists.push(OuterRules::at_start(IgnoreList::lenient(&text).0));
    }
}
