//! Matches texts by both crates, in turns: `shapes ROUNDS MICROSECONDS SECONDS`. A line of standard input is the letters of
//! options, a pattern and a text, with tabs in between. Prints a line for each: the least nanoseconds of a match by ours
//! and by the crate, and those of parsing and a match; or `differ`. Each side works for about so many microseconds in a
//! round. Begins no line after so many seconds.

use sides::{answer_lines, nanoseconds, ours, theirs};
use std::env;

/// The answer to a line.
fn answer(line: &str, rounds: usize, round: i64) -> String {
    let [letters, pattern, text] = line.split('\t').collect::<Vec<_>>()[..] else {
        panic!("see the comment at the top");
    };
    let lines = [text];
    let sides = |verb| {
        let words = [verb, letters, pattern, ""];
        [ours::work(&words, &lines), theirs::work(&words, &lines)]
    };
    let [matches, once] = ["match", "once"].map(sides);
    let counts = [&matches, &once].map(|of| [of[0](1), of[1](1)]);
    if counts != [counts[0]; 2] || counts[0][0] != counts[0][1] {
        return "differ".into();
    }
    let [[ours, theirs], [ours_once, theirs_once]] = [matches, once].map(|it| nanoseconds(&it, rounds, round));
    format!("{ours:.2} {theirs:.2} {ours_once:.2} {theirs_once:.2}")
}

fn main() {
    let [rounds, round, seconds] = &env::args().skip(1).collect::<Vec<String>>()[..] else {
        panic!("see the comment at the top");
    };
    let (rounds, round) = (rounds.parse().unwrap(), round.parse().unwrap());
    answer_lines(seconds, |line| answer(line, rounds, round));
}
