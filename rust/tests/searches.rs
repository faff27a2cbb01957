//! Random searches beside a filter of all paths, and beside git.

use std::collections::btree_map::{BTreeMap, Entry as Place};
use std::error::Error;
use std::fs;
use std::io;
use std::path::{Path, PathBuf};
use std::process::Command;

use cadmiumdove::search::{NoRuleTexts, Search, SearchError, SearchRefusal, Wanted};
use cadmiumdove::walk::{Entry, Look, Name, Tree};
use cadmiumdove::{MatchOptions, Pattern};

/// Numbers that look random, the same in each run.
struct Dice(u64);

impl Dice {
    fn below(&mut self, end: usize) -> usize {
        self.0 = self.0.wrapping_mul(6364136223846793005).wrapping_add(1442695040888963407);
        (self.0 >> 33) as usize % end
    }

    fn is_one_of(&mut self, number: usize) -> bool {
        self.below(number) == 0
    }

    fn of<'a>(&mut self, texts: &[&'a str]) -> &'a str {
        texts[self.below(texts.len())]
    }
}

/// The kinds of some paths: whether each is a directory. `asked` has what was looked up and listed.
#[derive(Clone, Default)]
struct Paths {
    kinds: BTreeMap<String, bool>,
    listed: Vec<String>,
}

impl Paths {
    fn random(dice: &mut Dice) -> Self {
        let mut directories = vec![String::new()];
        let mut kinds = BTreeMap::new();
        for _ in 0..dice.below(25) {
            let above = &directories[dice.below(directories.len())];
            let path = format!("{above}{}", dice.of(&["a", "b", "ab", "A", ".a", "c.rs", "b.RS", "é", "-"]));
            let is_dir = dice.is_one_of(2);
            if let Place::Vacant(free) = kinds.entry(path.clone()) {
                free.insert(is_dir);
                if is_dir {
                    directories.push(format!("{path}/"));
                }
            }
        }
        Paths { kinds, listed: Vec::new() }
    }
}

impl Tree for Paths {
    fn look(&mut self, path: &str) -> Look {
        match self.kinds.get(path) {
            _ if path == "." => Look::Dir,
            Some(true) => Look::Dir,
            Some(false) => Look::Other,
            None => Look::Missing,
        }
    }

    fn list(&mut self, path: &str) -> io::Result<Vec<Entry>> {
        self.listed.push(path.to_owned());
        let front = if path == "." { String::new() } else { format!("{path}/") };
        let mut entries = Vec::new();
        // In descending order, so that the search has to sort them.
        for (below, &is_dir) in self.kinds.iter().rev() {
            if let Some(name) = below.strip_prefix(&front) {
                if let Ok(name) = Name::new(name.to_owned()) {
                    entries.push(Entry { name, is_dir });
                }
            }
        }
        Ok(entries)
    }
}

fn random_pattern(dice: &mut Dice) -> String {
    let mut components = Vec::new();
    for _ in 0..=dice.below(4) {
        components
            .push(dice.of(&["a", "b", "A", "*", "**", "**", "?", "*.rs", "[a-c]*", "a*", ".*", "ab", "é", "[!a]*"]));
    }
    components.join("/")
}

/// The names of a path, in which order paths are found.
fn names(path: &str) -> Vec<&str> {
    path.split('/').collect()
}

#[test]
fn a_search_finds_what_a_filter_of_all_paths_leaves() {
    let mut dice = Dice(1);
    for _ in 0..20_000 {
        let tree = Paths::random(&mut dice);
        let patterns: Vec<String> = (0..=dice.below(4)).map(|_| random_pattern(&mut dice)).collect();
        let options = MatchOptions {
            case_sensitive: dice.is_one_of(2),
            require_literal_separator: true,
            require_literal_leading_dot: dice.is_one_of(2),
        };
        let depth = if dice.is_one_of(3) { 1 + dice.below(3) } else { usize::MAX };
        let wanted = [Wanted::All, Wanted::Directories, Wanted::Others][dice.below(3)];
        let read: Vec<Pattern> = patterns.iter().map(|pattern| Pattern::new(pattern).unwrap()).collect();
        let mut expected: Vec<&str> = tree
            .kinds
            .iter()
            .filter(|(path, &is_dir)| {
                read.iter().any(|pattern| pattern.matches_with(path, options))
                    && names(path).len() <= depth
                    && match wanted {
                        Wanted::All => true,
                        Wanted::Directories => is_dir,
                        _ => !is_dir,
                    }
            })
            .map(|(path, _)| path.as_str())
            .collect();
        expected.sort_by_key(|path| names(path));
        let search = Search::new(&patterns).unwrap().options(options).max_depth(depth).wanted(wanted);
        let mut searching = search.over(tree.clone(), NoRuleTexts);
        let found: Vec<_> = searching.by_ref().map(Result::unwrap).collect();
        let paths: Vec<&str> = found.iter().map(|found| found.path.to_str().unwrap()).collect();
        assert_eq!(paths, expected, "{patterns:?} {options:?} {depth} {wanted:?} {:?}", tree.kinds);
        assert!(found.iter().all(|found| found.is_dir == tree.kinds[found.path.to_str().unwrap()]));
    }
}

/// A directory for a test, which is removed at the end.
struct Scratch(PathBuf);

impl Scratch {
    fn new(name: &str) -> Self {
        let at = std::env::temp_dir().join(format!("cadmiumdove-{name}-{}", std::process::id()));
        let _ = fs::remove_dir_all(&at);
        fs::create_dir_all(&at).unwrap();
        Scratch(at)
    }
}

impl Drop for Scratch {
    fn drop(&mut self) {
        let _ = fs::remove_dir_all(&self.0);
    }
}

/// Random files below a directory, and `.gitignore` files among them.
fn grow(dice: &mut Dice, at: &Path) {
    let mut directories = vec![at.to_owned()];
    for _ in 0..3 + dice.below(30) {
        let path = directories[dice.below(directories.len())]
            .join(dice.of(&["a", "b", "ab", "c.o", "d.rs", ".e", "!f", "g h"]));
        if path.exists() {
            continue;
        }
        if dice.is_one_of(2) {
            fs::create_dir(&path).unwrap();
            directories.push(path);
        } else {
            fs::write(path, "").unwrap();
        }
    }
    for directory in directories {
        if dice.is_one_of(3) {
            let lines: Vec<_> = (0..1 + dice.below(4)).map(|_| random_rule(dice)).collect();
            fs::write(directory.join(".gitignore"), lines.join("\n")).unwrap();
        }
    }
}

fn random_rule(dice: &mut Dice) -> String {
    let front = dice.of(&["", "", "", "!", "/", "!/", "**/", "a/", "b/"]);
    let name = dice.of(&["a", "b", "ab", "*.o", "*", "?", "[a-b]", "d.rs", ".e", "a*", "\\!f", "g h", "#", "", "**"]);
    let back = dice.of(&["", "", "", "/", "/**", "/*", " ", "/a"]);
    format!("{front}{name}{back}")
}

fn git(at: &Path, words: &[&str]) -> String {
    // No ignore file of the user or the system counts.
    let of_user = [("GIT_CONFIG_GLOBAL", "/dev/null"), ("GIT_CONFIG_NOSYSTEM", "1"), ("XDG_CONFIG_HOME", "/dev/null")];
    let ran = Command::new("git").envs(of_user).arg("-C").arg(at).args(words).output().expect("git is installed");
    assert!(ran.status.success(), "{words:?}");
    String::from_utf8(ran.stdout).unwrap()
}

/// What a search by `.gitignore` files finds below a directory.
fn unignored(at: &Path, patterns: &[String]) -> Vec<String> {
    let search = Search::new(patterns).unwrap().git().wanted(Wanted::Others).below(at);
    let paths = search.into_iter().filter_map(|item| match item {
        Ok(found) => Some(found.path.into_os_string().into_string().unwrap()),
        Err(SearchError::RefusedRules(..)) => None,
        Err(error) => panic!("{error}"),
    });
    paths.collect()
}

#[test]
fn a_search_by_ignore_files_finds_what_git_does() {
    let mut dice = Dice(2);
    for _ in 0..200 {
        let scratch = Scratch::new("git");
        git(&scratch.0, &["init", "-q"]);
        grow(&mut dice, &scratch.0);
        if dice.is_one_of(2) {
            fs::write(scratch.0.join(".git/info/exclude"), random_rule(&mut dice)).unwrap();
        }
        let listed = git(&scratch.0, &["ls-files", "-co", "-z", "--exclude-standard"]);
        let mut listed: Vec<&str> = listed.split_terminator('\0').collect();
        listed.sort_by_key(|path| names(path));
        assert_eq!(unignored(&scratch.0, &["**/*".to_owned()]), listed);
        for _ in 0..100 {
            let patterns: Vec<String> = (0..=dice.below(3)).map(|_| random_pattern(&mut dice)).collect();
            let read: Vec<Pattern> = patterns.iter().map(|pattern| Pattern::new(pattern).unwrap()).collect();
            let options = MatchOptions { require_literal_separator: true, ..MatchOptions::new() };
            let mut expected = listed.clone();
            expected.retain(|path| read.iter().any(|pattern| pattern.matches_with(path, options)));
            assert_eq!(unignored(&scratch.0, &patterns), expected, "{patterns:?} in {listed:?}");
        }
    }
}

#[test]
fn a_search_below_the_top_finds_what_git_does() {
    let mut dice = Dice(3);
    for _ in 0..50 {
        let scratch = Scratch::new("git-below");
        git(&scratch.0, &["init", "-q"]);
        grow(&mut dice, &scratch.0);
        if dice.is_one_of(2) {
            fs::write(scratch.0.join(".git/info/exclude"), random_rule(&mut dice)).unwrap();
        }
        for start in directories(&scratch.0) {
            let listed = git(&start, &["ls-files", "-co", "-z", "--exclude-standard"]);
            let mut listed: Vec<&str> = listed.split_terminator('\0').collect();
            listed.sort_by_key(|path| names(path));
            assert_eq!(unignored(&start, &["**/*".to_owned()]), listed, "{}", start.display());
        }
    }
}

/// The directories below one, except for `.git`.
fn directories(at: &Path) -> Vec<PathBuf> {
    let search = Search::new(["**/*"]).unwrap().wanted(Wanted::Directories).below(at);
    let paths = search.into_iter().map(|found| found.unwrap().path);
    paths.filter(|path| !path.starts_with(".git")).map(|path| at.join(path)).collect()
}

#[test]
fn a_search_lists_only_where_something_may_be_found() {
    let kinds = ["src", "src/a", "src/a/b", "lib", "lib/x"].map(|path| (path.to_owned(), true));
    let files = ["src/a.c", "src/a/b/d.c", "lib/b.h"].map(|path| (path.to_owned(), false));
    let tree = Paths { kinds: kinds.into_iter().chain(files).collect(), listed: Vec::new() };
    for (patterns, listed) in [
        (&["src/*.c", "lib/*.h"][..], &["lib", "src"][..]),
        (&["src/a.c", "lib/b.h", "none"], &[]),
        (&["s*/a/**"], &[".", "src/a", "src/a/b"]),
        (&["*"], &["."]),
        (&["*/*"], &[".", "lib", "src"]),
    ] {
        let mut tree = tree.clone();
        let count = Search::new(patterns).unwrap().over(&mut tree, NoRuleTexts).count();
        assert!(count > 0, "{patterns:?}");
        assert_eq!(tree.listed, listed, "{patterns:?}");
    }
}

/// All texts of one to three of these components.
fn joined(components: &[&str]) -> Vec<String> {
    let mut texts: Vec<String> = components.iter().map(ToString::to_string).collect();
    for _ in 1..3 {
        let longer = texts.iter().flat_map(|text| components.iter().map(move |it| format!("{text}/{it}")));
        texts.extend(longer.collect::<Vec<_>>());
    }
    texts.sort();
    texts.dedup();
    texts
}

/// A pattern is refused exactly if it matches no path of names, which are not empty, `.` or `..`.
#[test]
fn patterns_that_match_no_path_are_refused() {
    let options = MatchOptions { require_literal_separator: true, ..MatchOptions::new() };
    let paths = joined(&["a", "b", ".a", "..."]);
    let mut refused = 0;
    for text in joined(&["a", "*", "?", ".*", "...", ".?", "", ".", ".."]) {
        let pattern = Pattern::new(&text).unwrap();
        let matches_some = paths.iter().any(|path| pattern.matches_with(path, options));
        let answer = Search::new(["b", &text]).map(|_search| ()).map_err(|refusal| {
            let (number, source) = (refusal.number(), refusal.source().is_some());
            (refusal.clone(), number, source)
        });
        assert_eq!(answer, if matches_some { Ok(()) } else { Err((SearchRefusal::NoPath(1), 1, false)) }, "{text}");
        refused += usize::from(!matches_some);
    }
    assert!(refused > 400, "{refused}");
    for text in ["./src/*", "src/", "/tmp/*", "", "../x", "**/", "./**", "a//b", "/", ".", "..", "**/.", "**/../**"] {
        let refusal = Search::new(["a", text]).unwrap_err();
        assert_eq!(
            refusal.to_string(),
            "pattern 1: no path of a search matches it: leave out `./`, `..`, `//`, and a `/` at either end"
        );
    }
}

#[test]
fn the_first_text_is_refused() {
    let refused = |texts: &[&str]| Search::new(texts).unwrap_err();
    let fault = "Pattern syntax error near position 4: invalid range pattern";
    for (texts, number, text, source) in [
        (&["a", "b/[", "/c"][..], 1, "pattern 1: Pattern syntax error near position 2: invalid range pattern", true),
        (&["a", "/c", "b/["], 1, "pattern 1: no path of a search matches it", false),
        (&["../["], 0, "pattern 0: Pattern syntax error near position 3: invalid range pattern", true),
    ] {
        let refusal = refused(texts);
        assert_eq!(refusal.number(), number);
        assert!(refusal.to_string().starts_with(text), "{refusal}");
        assert_eq!(refusal.source().is_some(), source);
    }
    assert_eq!(refused(&["src/["]).source().unwrap().to_string(), fault);
    let braces = Search::from_braces(["a", "{b,src/[}"]).unwrap_err();
    assert_eq!(braces.source().unwrap().to_string(), fault);
    assert_eq!(Search::new([""; 0]).unwrap().into_iter().count(), 0);
}
