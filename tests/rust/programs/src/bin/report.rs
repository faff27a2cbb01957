//! Finds files, and prints what there is: `report [-i] [-d] [-e] [-x PATTERN].. PATTERN..`. `-i` ignores case, `-d`
//! hides dotted names, `-e` ends at the first error, and `-x` excludes: a pattern without `/` is asked about each name.

use std::collections::{BTreeMap, BTreeSet};
use std::error::Error;
use std::fs;
use std::iter;
use std::path::{Path, PathBuf};
use std::{env, process};

use glob::{glob_with, GlobError, GlobResult, MatchOptions, Paths, Pattern, PatternError};

enum Exclude {
    Name(Pattern),
    Whole(Pattern),
}

impl Exclude {
    fn new(text: &str) -> Result<Exclude, PatternError> {
        let text = text.trim_end_matches('/');
        Ok(if text.contains('/') { Exclude::Whole(Pattern::new(text)?) } else { Exclude::Name(Pattern::new(text)?) })
    }

    fn excludes(&self, path: &Path, options: MatchOptions) -> bool {
        match self {
            Exclude::Name(pattern) => path.iter().any(|name| pattern.matches_path_with(Path::new(name), options)),
            Exclude::Whole(pattern) => path.ancestors().any(|above| pattern.matches_path_with(above, options)),
        }
    }
}

struct Finder {
    options: MatchOptions,
    excludes: Vec<Exclude>,
    patterns: Vec<String>,
    ends: bool,
}

impl Finder {
    fn parse(words: impl Iterator<Item = String>) -> Result<Finder, Box<dyn Error>> {
        let mut finder =
            Finder { options: MatchOptions::new(), excludes: Vec::new(), patterns: Vec::new(), ends: false };
        let mut words = words;
        while let Some(word) = words.next() {
            match word.as_str() {
                "-i" => finder.options.case_sensitive = false,
                "-d" => finder.options.require_literal_leading_dot = true,
                "-e" => finder.ends = true,
                "-x" => finder.excludes.push(Exclude::new(&words.next().ok_or("-x has no pattern")?)?),
                _ => finder.patterns.push(word),
            }
        }
        if finder.patterns.is_empty() {
            return Err("no pattern".into());
        }
        Ok(finder)
    }

    /// The paths of one pattern that are not excluded, and the errors.
    fn walk<'a>(&'a self, pattern: &str) -> Result<impl Iterator<Item = GlobResult> + 'a, PatternError> {
        let paths: Paths = glob_with(pattern, self.options)?;
        let options = MatchOptions { require_literal_separator: true, ..self.options };
        Ok(paths.filter(move |item| match item {
            Ok(path) => !self.excludes.iter().any(|exclude| exclude.excludes(path, options)),
            Err(_) => true,
        }))
    }

    fn find(&self, report: &mut Report) -> Result<(), Box<dyn Error>> {
        for pattern in &self.patterns {
            let items = self.walk(pattern)?;
            if self.ends {
                let paths = items.collect::<Result<Vec<PathBuf>, GlobError>>().map_err(GlobError::into_error)?;
                paths.into_iter().for_each(|path| report.add(pattern, Ok(path)));
            } else {
                items.for_each(|item| report.add(pattern, item));
            }
        }
        Ok(())
    }
}

#[derive(Default)]
struct Tally {
    files: usize,
    bytes: u64,
}

#[derive(Default)]
struct Report {
    seen: BTreeSet<PathBuf>,
    order: Vec<PathBuf>,
    by_pattern: BTreeMap<String, usize>,
    by_kind: BTreeMap<String, Tally>,
    largest: Vec<(u64, PathBuf)>,
    errors: Vec<GlobError>,
}

impl Report {
    fn add(&mut self, pattern: &str, item: GlobResult) {
        let path = match item {
            Ok(path) => path,
            Err(error) => return self.errors.push(error),
        };
        *self.by_pattern.entry(pattern.to_owned()).or_default() += 1;
        if !self.seen.insert(path.clone()) {
            return;
        }
        let (kind, bytes) = match fs::symlink_metadata(&path) {
            Ok(metadata) if metadata.is_dir() => ("folders".to_owned(), 0),
            Ok(metadata) if metadata.file_type().is_symlink() => ("links".to_owned(), 0),
            Ok(metadata) => {
                let extension = path.extension().map(|extension| format!(".{}", extension.to_string_lossy()));
                (extension.unwrap_or_else(|| "none".to_owned()), metadata.len())
            }
            Err(_) => ("unknown".to_owned(), 0),
        };
        let tally = self.by_kind.entry(kind).or_default();
        tally.files += 1;
        tally.bytes += bytes;
        self.largest.push((bytes, path.clone()));
        self.order.push(path);
    }

    fn print(mut self) -> usize {
        for (pattern, count) in &self.by_pattern {
            println!("{pattern}: {count}");
        }
        for (kind, tally) in &self.by_kind {
            println!("{kind:>10} {:6} {:9}", tally.files, tally.bytes);
        }
        self.largest.sort_by(|a, b| b.0.cmp(&a.0).then_with(|| a.1.cmp(&b.1)));
        for (bytes, path) in self.largest.iter().take(5) {
            println!("{bytes:9} {}", path.display());
        }
        let previous = iter::once(None).chain(self.order.iter().map(Some));
        for (previous, path) in previous.zip(&self.order) {
            let same = previous.is_some_and(|previous| previous.parent() == path.parent());
            println!("{}{}", if same { "  " } else { "" }, path.display());
        }
        let failed = self.errors.len();
        for error in self.errors {
            println!("! {error}, {}: {:?}", error.path().display(), error.error().kind());
        }
        failed
    }
}

fn main() {
    let mut report = Report::default();
    let found = Finder::parse(env::args().skip(1)).and_then(|finder| finder.find(&mut report));
    let failed = report.print();
    if let Err(error) = found {
        println!("ended: {error}");
        process::exit(2);
    }
    process::exit((failed > 0) as i32);
}
