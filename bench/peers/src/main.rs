//! `globset`'s sets, as a program that takes the words `set` and `make` of `crates/glob_bench`. A set is asked about all
//! lines once before the time begins, since it keeps what it learns from texts.
//!
//! These measure ours beside others in turns, where each side works for about so many microseconds in a round:
//!
//! - `turns ROUNDS MICROSECONDS SECONDS`: a line of standard input is the letters of options, how many patterns there are,
//!   those patterns, and paths, with tabs in between. Prints for each line the least nanoseconds of all numbers that match
//!   a path, by our set and by globset's, and those of making each set; or `differ`. Begins no line after so many seconds.
//! - `match LETTERS PATTERN FILE ROUNDS MICROSECONDS`: prints the least nanoseconds of a match of a line of a file, by ours
//!   and by globset; and in a further line by ours and wildmatch, if the pattern has neither brackets nor `/`.

use cadmiumdove::set::PatternSet;
use globset::{Glob, GlobBuilder, GlobSet, GlobSetBuilder};
use sides::{answer_lines, nanoseconds, ours, repeated};
use std::env;
use std::error::Error;
use std::fs;
use std::hint::black_box;
use std::time::Instant;
use wildmatch::WildMatch;

type Result<T> = std::result::Result<T, Box<dyn Error>>;

fn glob_of(letters: &str, pattern: &str) -> Result<Glob> {
    let mut builder = GlobBuilder::new(pattern);
    builder.case_insensitive(letters.contains('i')).literal_separator(letters.contains('s'));
    Ok(builder.build()?)
}

fn set_of(letters: &str, patterns: &[&str]) -> Result<GlobSet> {
    let mut builder = GlobSetBuilder::new();
    for pattern in patterns {
        builder.add(glob_of(letters, pattern)?);
    }
    Ok(builder.build()?)
}

/// The sum of the numbers of all patterns that match each line, counted from 1.
fn sum_of_all(lines: &[&str], matches_into: impl Fn(&str, &mut Vec<usize>)) -> u64 {
    let mut numbers = Vec::new();
    let mut sum = 0u64;
    for line in lines {
        matches_into(line, &mut numbers);
        numbers.iter().for_each(|number| sum += *number as u64 + 1);
    }
    sum
}

/// The answer to a line of `turns`.
fn answer(line: &str, rounds: usize, round: i64) -> Result<String> {
    let [letters, count, rest @ ..] = &line.split('\t').collect::<Vec<_>>()[..] else {
        return Err("see the comment at the top".into());
    };
    let (patterns, paths) = rest.split_at(count.parse()?);
    let make_ours = || PatternSet::from_texts(patterns, ours::options_of(letters)).unwrap();
    let make_theirs = || set_of(letters, patterns).unwrap();
    let (of_ours, of_theirs) = (make_ours(), make_theirs());
    if paths.iter().any(|path| of_ours.matches(path) != of_theirs.matches(path)) {
        return Ok("differ".into());
    }
    let look_ups = [
        repeated(|| sum_of_all(paths, |path, numbers| of_ours.matches_into(path, numbers)) as usize),
        repeated(|| sum_of_all(paths, |path, numbers| of_theirs.matches_into(path, numbers)) as usize),
    ];
    let makings = [repeated(|| make_ours().len()), repeated(|| make_theirs().len())];
    let found = [look_ups, makings].map(|sides| nanoseconds(&sides, rounds, round));
    let [[ours, theirs], [ours_made, theirs_made]] = found;
    let many = paths.len() as f64;
    Ok(format!("{:.2} {:.2} {ours_made:.0} {theirs_made:.0}", ours / many, theirs / many))
}

/// Measures ours and globset on a pattern and lines, and ours and wildmatch where the pattern is `?`, `*` and literals.
fn compare_match(letters: &str, text: &str, lines: &[&str], rounds: usize, round: i64) -> Result<()> {
    let (pattern, options) = (cadmiumdove::Pattern::new(text)?, ours::options_of(letters));
    let ours = || repeated(|| count(lines, |line| pattern.matches_with(line, options)));
    let glob = glob_of(letters, text)?.compile_matcher();
    let beside_globset = [ours(), repeated(|| count(lines, |line| glob.is_match(line)))];
    let wild = WildMatch::new(text);
    let beside_wildmatch = [ours(), repeated(|| count(lines, |line| wild.matches(line)))];
    let print = |sides| {
        let [ours, theirs] = nanoseconds(&sides, rounds, round).map(|it| it / lines.len() as f64);
        println!("{ours:.2} {theirs:.2}");
    };
    print(beside_globset);
    if !text.contains(['[', '/']) {
        print(beside_wildmatch);
    }
    Ok(())
}

fn count(lines: &[&str], is_match: impl Fn(&str) -> bool) -> usize {
    lines.iter().filter(|line| is_match(black_box(line))).count()
}

/// The sum of what the question answers for each line: 1 if a pattern matches, or the numbers of those that do, counted
/// from 1.
fn sum(set: &GlobSet, question: &str, lines: &[&str]) -> Result<u64> {
    let mut numbers = Vec::new();
    let mut sum = 0u64;
    let mut add = |number: Option<&usize>| sum += number.map_or(0, |number| *number as u64 + 1);
    match question {
        "any" => lines.iter().filter(|line| set.is_match(line)).for_each(|_| add(Some(&0))),
        "first" => lines.iter().for_each(|line| {
            set.matches_into(line, &mut numbers);
            add(numbers.first());
        }),
        "last" => lines.iter().for_each(|line| {
            set.matches_into(line, &mut numbers);
            add(numbers.last());
        }),
        "all" => return Ok(sum_of_all(lines, |line, numbers| set.matches_into(line, numbers))),
        _ => return Err("no question".into()),
    }
    Ok(sum)
}

/// Does what the words of `crates/glob_bench` say, and prints as it does.
fn time_words(words: &[&str]) -> Result<()> {
    let texts = fs::read_to_string(words.get(2).ok_or("no patterns")?)?;
    let texts = texts.lines().collect::<Vec<&str>>();
    let mut count = 0u64;
    let elapsed = match words[..] {
        ["set", letters, _, question, file, times] => {
            let set = set_of(letters, &texts)?;
            let text = fs::read_to_string(file)?;
            let lines = text.lines().collect::<Vec<&str>>();
            sum(&set, question, &lines)?;
            let start = Instant::now();
            for _ in 0..times.parse::<u32>()? {
                count = count.wrapping_add(sum(&set, question, &lines)?);
            }
            start.elapsed()
        }
        ["make", letters, _, times] => {
            let start = Instant::now();
            for _ in 0..times.parse::<u32>()? {
                count += set_of(letters, &texts)?.len() as u64;
            }
            start.elapsed()
        }
        _ => return Err("usage: set LETTERS PATTERNS QUESTION FILE TIMES | make LETTERS PATTERNS TIMES".into()),
    };
    println!("{count}");
    eprintln!("{}", elapsed.as_nanos());
    Ok(())
}

fn main() -> Result<()> {
    let arguments = env::args().skip(1).collect::<Vec<String>>();
    match arguments.iter().map(String::as_str).collect::<Vec<&str>>()[..] {
        ["turns", rounds, round, seconds] => {
            let (rounds, round) = (rounds.parse()?, round.parse()?);
            answer_lines(seconds, |line| answer(line, rounds, round).unwrap());
            Ok(())
        }
        ["match", letters, pattern, file, rounds, round] => {
            let text = fs::read_to_string(file)?;
            compare_match(letters, pattern, &text.lines().collect::<Vec<&str>>(), rounds.parse()?, round.parse()?)
        }
        ref words => time_words(words),
    }
}
