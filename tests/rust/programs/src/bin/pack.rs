//! Packs assets: `pack ROOT RULES` prints a manifest. A line of RULES is `bundle NAME`, and below it `add PATTERN`,
//! `add-any-case PATTERN`, `skip PATTERN`, `into FOLDER PATTERN`, or `must PATTERN`; `#` begins a comment.

use std::collections::btree_map::{BTreeMap, Entry};
use std::error::Error;
use std::fmt;
use std::fs;
use std::io;
use std::path::{Path, PathBuf};
use std::{env, process};

use glob::{glob_with, MatchOptions, Pattern, PatternError};

#[derive(Debug)]
enum PackError {
    Pattern { line: usize, text: String, cause: PatternError },
    Rule { line: usize, text: String },
    Missing { bundle: String, pattern: Pattern },
    Io(io::Error),
}

impl fmt::Display for PackError {
    fn fmt(&self, f: &mut fmt::Formatter<'_>) -> fmt::Result {
        match self {
            PackError::Pattern { line, text, cause } => {
                writeln!(f, "line {line}: {cause}\n  {text}")?;
                write!(f, "  {:>width$}", '^', width = cause.pos + 1)
            }
            PackError::Rule { line, text } => write!(f, "line {line}: no rule: {text}"),
            PackError::Missing { bundle, pattern } => write!(f, "bundle {bundle} has nothing for {pattern}"),
            PackError::Io(error) => write!(f, "{:?}", error.kind()),
        }
    }
}

impl Error for PackError {
    fn source(&self) -> Option<&(dyn Error + 'static)> {
        match self {
            PackError::Pattern { cause, .. } => Some(cause),
            PackError::Io(error) => Some(error),
            _ => None,
        }
    }
}

impl From<io::Error> for PackError {
    fn from(error: io::Error) -> PackError {
        PackError::Io(error)
    }
}

#[derive(Clone, PartialEq, Default)]
struct Bundle {
    name: String,
    adds: Vec<(Pattern, bool)>,
    skips: Vec<Pattern>,
    moves: Vec<(Pattern, PathBuf)>,
    musts: Vec<Pattern>,
}

fn parse(rules: &str) -> Result<Vec<Bundle>, PackError> {
    let mut bundles: Vec<Bundle> = Vec::new();
    for (number, text) in rules.lines().enumerate() {
        let line = number + 1;
        let text = text.split('#').next().unwrap_or("").trim();
        if text.is_empty() {
            continue;
        }
        let refused = || PackError::Rule { line, text: text.to_owned() };
        let pattern = |text: &str| -> Result<Pattern, PackError> {
            text.parse().map_err(|cause| PackError::Pattern { line, text: text.to_owned(), cause })
        };
        let (word, rest) = text.split_once(' ').ok_or_else(refused)?;
        if word == "bundle" {
            bundles.push(Bundle { name: rest.to_owned(), ..Bundle::default() });
            continue;
        }
        let bundle = bundles.last_mut().ok_or_else(refused)?;
        match word {
            "add" => bundle.adds.push((pattern(rest)?, true)),
            "add-any-case" => bundle.adds.push((pattern(rest)?, false)),
            "skip" => bundle.skips.push(pattern(rest)?),
            "must" => bundle.musts.push(pattern(rest)?),
            "into" => {
                let (folder, rest) = rest.split_once(' ').ok_or_else(refused)?;
                bundle.moves.push((pattern(rest)?, folder.into()));
            }
            _ => return Err(refused()),
        }
    }
    Ok(bundles)
}

struct Asset {
    source: PathBuf,
    size: usize,
    hash: u64,
}

impl Asset {
    fn read(root: &Path, source: &Path) -> io::Result<Asset> {
        let bytes = fs::read(root.join(source))?;
        let hash = bytes.iter().fold(0xcbf2_9ce4_8422_2325, |hash, &byte| {
            (hash ^ u64::from(byte)).wrapping_mul(0x100_0000_01b3)
        });
        Ok(Asset { source: source.to_owned(), size: bytes.len(), hash })
    }
}

/// The options of a bundle's own rules, which are asked about paths below the root.
fn rules() -> MatchOptions {
    MatchOptions { require_literal_separator: true, ..MatchOptions::new() }
}

impl Bundle {
    /// Where the asset goes, if it is packed.
    fn place(&self, source: &Path) -> Option<PathBuf> {
        if self.skips.iter().any(|skip| skip.matches_path_with(source, rules())) {
            return None;
        }
        let moved = self.moves.iter().find(|(pattern, _)| pattern.matches_path_with(source, rules()));
        Some(match (moved, source.file_name()) {
            (Some((_, folder)), Some(name)) => folder.join(name),
            _ => source.to_owned(),
        })
    }

    fn pack(&self, root: &Path, warnings: &mut Vec<String>) -> Result<BTreeMap<PathBuf, Asset>, PackError> {
        let mut assets = BTreeMap::new();
        let base = Pattern::escape(&root.to_string_lossy());
        for (pattern, case_sensitive) in &self.adds {
            let whole = format!("{base}/{pattern}");
            let options = MatchOptions { case_sensitive: *case_sensitive, ..MatchOptions::new() };
            let paths = glob_with(&whole, options).map_err(|cause| PackError::Pattern { line: 0, text: whole, cause })?;
            for item in paths {
                let path = match item {
                    Ok(path) if path.is_dir() => continue,
                    Ok(path) => path,
                    Err(error) => {
                        warnings.push(error.to_string());
                        continue;
                    }
                };
                let source = path.strip_prefix(root).unwrap_or(&path);
                let Some(place) = self.place(source) else { continue };
                match assets.entry(place) {
                    Entry::Vacant(entry) => match Asset::read(root, source) {
                        Ok(asset) => drop(entry.insert(asset)),
                        Err(error) => warnings.push(format!("{}: {:?}", source.display(), error.kind())),
                    },
                    Entry::Occupied(entry) if entry.get().source != source => {
                        warnings.push(format!("{} is taken: {}", entry.key().display(), source.display()));
                    }
                    Entry::Occupied(_) => {}
                }
            }
        }
        let missing = self.musts.iter().find(|must| !assets.keys().any(|place| must.matches_path(place)));
        match missing {
            Some(pattern) => Err(PackError::Missing { bundle: self.name.clone(), pattern: pattern.clone() }),
            None => Ok(assets),
        }
    }
}

fn run(root: &Path, rules: &Path) -> Result<(), PackError> {
    let mut warnings = Vec::new();
    for bundle in parse(&fs::read_to_string(rules)?)? {
        println!("bundle {}", bundle.name);
        let assets = bundle.pack(root, &mut warnings)?;
        for (place, asset) in &assets {
            let Asset { source, size, hash } = asset;
            println!("  {} <- {} {size} {hash:016x}", place.display(), source.display());
        }
        println!("  {} assets, {} bytes", assets.len(), assets.values().map(|asset| asset.size).sum::<usize>());
        for warning in warnings.drain(..) {
            println!("  warning: {warning}");
        }
    }
    Ok(())
}

fn main() {
    let words: Vec<PathBuf> = env::args_os().skip(1).map(PathBuf::from).collect();
    let [root, rules] = &words[..] else {
        eprintln!("usage: pack ROOT RULES");
        process::exit(2);
    };
    if let Err(error) = run(root, rules) {
        println!("{error}, because of {:?}", error.source().map(ToString::to_string));
        process::exit(1);
    }
}
