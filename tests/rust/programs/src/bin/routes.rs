//! Routes texts by a table that threads share: `routes TABLE TEXTS`. A line of TABLE is `HANDLER PATTERN`, where a
//! handler that begins with `~` ignores case; a pattern comes once. Each line of TEXTS goes to the first pattern that
//! matches it. Then the routes that nothing took are dropped, the others are ordered by use, and all texts are routed
//! once more.

use std::collections::hash_map::HashMap;
use std::collections::{BTreeMap, BTreeSet, HashSet};
use std::error::Error;
use std::fs;
use std::path::PathBuf;
use std::str::FromStr;
use std::sync::{mpsc, Arc, Mutex, RwLock};
use std::thread;
use std::{env, process};

use glob::{glob, MatchOptions, Pattern};

const THREADS: usize = 4;

#[derive(Clone)]
struct Route {
    handler: String,
    pattern: Pattern,
    options: MatchOptions,
}

impl FromStr for Route {
    type Err = Box<dyn Error + Send + Sync>;

    fn from_str(line: &str) -> Result<Route, Self::Err> {
        let (handler, pattern) = line.split_once(' ').ok_or_else(|| format!("no pattern: {line}"))?;
        Ok(Route {
            handler: handler.trim_start_matches('~').to_owned(),
            pattern: pattern.parse::<Pattern>()?,
            options: MatchOptions {
                case_sensitive: !handler.starts_with('~'),
                require_literal_separator: true,
                require_literal_leading_dot: pattern.starts_with("**"),
            },
        })
    }
}

/// The routes, and what each text led to before.
#[derive(Default)]
struct Table {
    routes: RwLock<Arc<Vec<Route>>>,
    kept: Mutex<HashMap<String, Option<usize>>>,
}

impl Table {
    fn replace(&self, routes: Vec<Route>) {
        *self.routes.write().unwrap() = Arc::new(routes);
        self.kept.lock().unwrap().clear();
    }

    fn route(&self, text: &str) -> Option<usize> {
        if let Some(&kept) = self.kept.lock().unwrap().get(text) {
            return kept;
        }
        let routes = Arc::clone(&self.routes.read().unwrap());
        let found = routes.iter().position(|route| route.pattern.matches_with(text, route.options));
        self.kept.lock().unwrap().insert(text.to_owned(), found);
        found
    }
}

/// Routes all texts, by threads that take every fourth: the route of each.
fn route_all(table: &Arc<Table>, texts: &Arc<Vec<String>>) -> Vec<Option<usize>> {
    let (sender, receiver) = mpsc::channel();
    let threads: Vec<_> = (0..THREADS)
        .map(|first| {
            let (table, texts, sender) = (Arc::clone(table), Arc::clone(texts), sender.clone());
            thread::spawn(move || {
                for (number, text) in texts.iter().enumerate().skip(first).step_by(THREADS) {
                    sender.send((number, table.route(text))).unwrap();
                }
            })
        })
        .collect();
    drop(sender);
    let mut found = vec![None; texts.len()];
    for (number, route) in receiver {
        found[number] = route;
    }
    threads.into_iter().for_each(|thread| thread.join().unwrap());
    found
}

/// How often each pattern was taken, in the order of the patterns.
fn uses(routes: &[Route], found: &[Option<usize>]) -> BTreeMap<Pattern, usize> {
    let mut uses: BTreeMap<Pattern, usize> = routes.iter().map(|route| (route.pattern.clone(), 0)).collect();
    for &number in found.iter().flatten() {
        *uses.get_mut(&routes[number].pattern).unwrap() += 1;
    }
    uses
}

fn files(route: &Route) -> Vec<PathBuf> {
    glob(route.pattern.as_str()).into_iter().flatten().filter_map(Result::ok).collect()
}

/// The files of the routes that are patterns of files, each walked by a thread of its own.
fn watched(routes: &[Route]) -> BTreeSet<PathBuf> {
    thread::scope(|scope| {
        let walks: Vec<_> = routes
            .iter()
            .filter(|route| !route.pattern.as_str().starts_with('/'))
            .map(|route| scope.spawn(|| files(route)))
            .collect();
        walks.into_iter().flat_map(|walk| walk.join().unwrap()).collect()
    })
}

fn load(table: &str) -> Result<Vec<Route>, Box<dyn Error + Send + Sync>> {
    let mut known = HashSet::new();
    let mut routes = Vec::new();
    for (number, line) in table.lines().enumerate() {
        match line.parse::<Route>() {
            Ok(route) if known.insert(route.pattern.clone()) => routes.push(route),
            Ok(route) => println!("line {}: {} comes again", number + 1, route.pattern),
            Err(error) => println!("line {}: {error}", number + 1),
        }
    }
    if routes.is_empty() {
        return Err("no route".into());
    }
    Ok(routes)
}

fn run(table: &str, texts: &str) -> Result<(), Box<dyn Error + Send + Sync>> {
    let mut routes = load(&fs::read_to_string(table)?)?;
    let texts: Arc<Vec<String>> = Arc::new(fs::read_to_string(texts)?.lines().map(str::to_owned).collect());
    let shared = Arc::new(Table::default());
    for round in 1..=2 {
        shared.replace(routes.clone());
        let found = route_all(&shared, &texts);
        println!("round {round}: {} routes, {} texts", routes.len(), shared.kept.lock().unwrap().len());
        for (text, number) in texts.iter().zip(&found) {
            let handler = number.map_or("-", |number| routes[number].handler.as_str());
            println!("{handler:>8} {text}");
        }
        let uses = uses(&routes, &found);
        for (pattern, count) in &uses {
            println!("{count:8} {pattern}");
        }
        routes.retain(|route| uses[&route.pattern] > 0);
        routes.sort_by(|a, b| uses[&b.pattern].cmp(&uses[&a.pattern]).then_with(|| a.pattern.cmp(&b.pattern)));
    }
    for path in watched(&routes) {
        println!("watched {}", path.display());
    }
    Ok(())
}

fn main() {
    let words: Vec<String> = env::args().skip(1).collect();
    let [table, texts] = &words[..] else {
        eprintln!("usage: routes TABLE TEXTS");
        process::exit(2);
    };
    if let Err(error) = run(table, texts) {
        println!("{error}");
        process::exit(1);
    }
}
