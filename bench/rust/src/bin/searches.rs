//! A search, as `globs find` has it: prints the paths that it finds, or how many directories it lists, how many entries
//! these have, how many paths it looks up, and how many of all these are alive: they may be found or entered, and no rule
//! ignores them. Its words are `paths` or `counts`, `-i` or `-`, the greatest depth or 0, the number of rules, the rules,
//! and the patterns.

use cadmiumdove::ignore::IgnoreList;
use cadmiumdove::search::{NoRuleTexts, Search};
use cadmiumdove::walk::{Disk, Entry, Look, Tree};
use cadmiumdove::MatchOptions;
use std::env;
use std::error::Error;
use std::io::{self, BufWriter, Write};
use std::os::unix::ffi::OsStrExt;
use std::sync::atomic::{AtomicUsize, Ordering};
use std::sync::Arc;

/// The file system, and how much was asked of it.
struct Counted {
    disk: Disk,
    directories: usize,
    entries: usize,
    looks: usize,
}

impl Tree for Counted {
    fn look(&mut self, path: &str) -> Look {
        self.looks += 1;
        self.disk.look(path)
    }

    fn list(&mut self, path: &str) -> io::Result<Vec<Entry>> {
        let entries = self.disk.list(path)?;
        self.directories += 1;
        self.entries += entries.len();
        Ok(entries)
    }
}

/// Prints how much a search asks.
fn count(search: Search) -> Result<(), Box<dyn Error>> {
    let alive = Arc::new(AtomicUsize::new(0));
    let seen = Arc::clone(&alive);
    let search = search.exclude(move |_path, _is_dir| {
        seen.fetch_add(1, Ordering::Relaxed);
        false
    });
    let mut tree = Counted { disk: Disk::new().follow_links(false), directories: 0, entries: 0, looks: 0 };
    for found in search.over(&mut tree, NoRuleTexts) {
        found?;
    }
    println!("{} {} {} {}", tree.directories, tree.entries, tree.looks, alive.load(Ordering::Relaxed));
    Ok(())
}

fn main() -> Result<(), Box<dyn Error>> {
    let words: Vec<String> = env::args().skip(1).collect();
    let [what, case, depth, number, words @ ..] = &words[..] else {
        return Err("usage: searches paths|counts -i|- DEPTH NUMBER RULE .. PATTERN ..".into());
    };
    let (rules, patterns) = words.split_at(number.parse()?);
    let options = MatchOptions { case_sensitive: case != "-i", ..MatchOptions::new() };
    let mut search = Search::new(patterns)?.options(options);
    if depth != "0" {
        search = search.max_depth(depth.parse()?);
    }
    if !rules.is_empty() {
        search = search.rules(IgnoreList::new(&rules.join("\n"))?);
    }
    if what == "counts" {
        return count(search);
    }
    let mut writer = BufWriter::new(io::stdout().lock());
    for found in search {
        writer.write_all(found?.path.as_os_str().as_bytes())?;
        writer.write_all(b"\n")?;
    }
    Ok(writer.flush()?)
}
