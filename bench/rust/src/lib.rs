//! The same work over both crates, in the modules `ours` and `theirs`, and how long it takes.

use std::ffi::c_long;
use std::io;
use std::sync::LazyLock;
use std::time::{Duration, Instant};

extern "C" {
    /// The processor's time of this process, in microseconds.
    fn clock() -> c_long;
}

/// A clock, in nanoseconds.
type Clock = fn() -> i64;

/// The processor's time: what others do in between does not count.
pub fn processor_time() -> i64 {
    1000 * unsafe { clock() }
}

/// The time that passes, for work so short that others rarely come in between.
fn passing_time() -> i64 {
    static START: LazyLock<Instant> = LazyLock::new(Instant::now);
    START.elapsed().as_nanos() as i64
}

/// Work that is done as many times over as asked, and counts what it finds.
pub type Work<'a> = Box<dyn Fn(u32) -> usize + 'a>;

pub fn repeated<'a>(once: impl Fn() -> usize + 'a) -> Work<'a> {
    Box::new(move |times| (0..times).map(|_| once()).sum())
}

fn timed(work: &Work, times: u32, clock: Clock) -> (usize, i64) {
    let start = clock();
    let count = work(times);
    (count, clock() - start)
}

/// The least time of both, which take turns at being first, and have to count the same.
pub fn least_in_turns(sides: [(&Work, u32); 2], rounds: usize, clock: Clock) -> [i64; 2] {
    let (mut counts, mut least) = ([0; 2], [i64::MAX; 2]);
    for round in 0..rounds {
        for at in [round % 2, (round + 1) % 2] {
            let (work, times) = sides[at];
            let (count, took) = timed(work, times, clock);
            counts[at] = count / times as usize;
            least[at] = least[at].min(took);
        }
        assert_eq!(counts[0], counts[1], "the answers differ");
    }
    least
}

/// How many times over work is to be done, so that it takes about so many nanoseconds, or once; and how long that took.
fn times_within(work: &Work, most: i64) -> (u32, i64) {
    let mut times = 1;
    loop {
        let mut took = timed(work, times, passing_time).1;
        // What is first done takes longer.
        if took < 16 * most {
            took = took.min(timed(work, times, passing_time).1);
        }
        if 2 * took >= most {
            return (times, took);
        }
        times *= 4;
    }
}

/// The nanoseconds of doing the work of each side once: the least of all rounds, of about so many microseconds each. Two
/// rounds are enough for work that takes longer, and one for work that takes much longer.
pub fn nanoseconds(sides: &[Work; 2], rounds: usize, round: i64) -> [f64; 2] {
    let most = 1000 * round;
    let found = [0, 1].map(|at| times_within(&sides[at], most));
    let times = found.map(|(times, _)| times);
    let (rounds, clock): (_, Clock) = match found.iter().map(|(_, took)| took / most).max() {
        _ if !times.contains(&1) => (rounds, passing_time),
        Some(0..25) => (rounds.min(2), processor_time),
        _ => (1, processor_time),
    };
    let least = least_in_turns([0, 1].map(|at| (&sides[at], times[at])), rounds, clock);
    [0, 1].map(|at| least[at] as f64 / f64::from(times[at]))
}

/// Prints the answer to each line of standard input. Begins none after so many seconds.
pub fn answer_lines(seconds: &str, answer: impl Fn(&str) -> String) {
    let end = Instant::now() + Duration::from_secs(seconds.parse().unwrap());
    for line in io::stdin().lines().take_while(|_| Instant::now() < end) {
        println!("{}", answer(&line.unwrap()));
    }
}

macro_rules! side {
    ($name:ident, $crate_name:ident) => {
        pub mod $name {
            use super::{repeated, Work};
            use ::$crate_name::{glob, MatchOptions, Pattern};
            use std::hint::black_box;

            /// The options of the letters of a word.
            pub fn options_of(letters: &str) -> MatchOptions {
                MatchOptions {
                    case_sensitive: !letters.contains('i'),
                    require_literal_separator: letters.contains('s'),
                    require_literal_leading_dot: letters.contains('d'),
                }
            }

            /// The work of words, which counts the lines that match, or the bytes of patterns, copies or paths.
            pub fn work<'a>(words: &[&'a str], lines: &'a [&'a str]) -> Work<'a> {
                match *words {
                    ["match", letters, pattern, _] => {
                        let (pattern, options) = (Pattern::new(pattern).unwrap(), options_of(letters));
                        repeated(move || {
                            lines.iter().filter(|line| pattern.matches_with(black_box(line), options)).count()
                        })
                    }
                    ["once", letters, pattern, _] => {
                        let options = options_of(letters);
                        let is_match =
                            move |line| Pattern::new(black_box(pattern)).unwrap().matches_with(line, options);
                        repeated(move || lines.iter().filter(|line| is_match(line)).count())
                    }
                    ["compile", text] => repeated(move || Pattern::new(black_box(text)).unwrap().as_str().len()),
                    ["clone", text] => {
                        let pattern = Pattern::new(text).unwrap();
                        repeated(move || black_box(&pattern).clone().as_str().len())
                    }
                    ["escape", text] => repeated(move || Pattern::escape(black_box(text)).len()),
                    ["find", text] => {
                        repeated(move || glob(text).unwrap().map(|path| path.unwrap().as_os_str().len()).sum())
                    }
                    _ => panic!("work is match or once LETTERS PATTERN FILE, compile, clone, escape or find PATTERN"),
                }
            }
        }
    };
}

side!(ours, cadmiumdove);
side!(theirs, glob);
