//! Does work over one crate, or over both in turns:
//!
//! ```text
//! library ours|theirs WORK .. TIMES          as `crates/glob_bench`: prints the count, and as an error the nanoseconds
//! library turns ROUNDS OURS THEIRS WORK ..   each crate does it so many times over in a round: prints the least
//!                                            nanoseconds of each
//! ```

use sides::{least_in_turns, ours, processor_time, theirs};
use std::env;
use std::fs;
use std::time::Instant;

fn main() {
    let arguments = env::args().skip(1).collect::<Vec<String>>();
    let words = arguments.iter().map(String::as_str).collect::<Vec<&str>>();
    let file = words.iter().skip_while(|word| **word != "match").nth(3);
    let text = file.map_or(String::new(), |file| fs::read_to_string(file).unwrap());
    let lines = text.lines().collect::<Vec<&str>>();
    match *words {
        ["turns", rounds, of_ours, of_theirs, ref words @ ..] => {
            let ours = (&ours::work(words, &lines), of_ours.parse().unwrap());
            let theirs = (&theirs::work(words, &lines), of_theirs.parse().unwrap());
            let [ours, theirs] = least_in_turns([ours, theirs], rounds.parse().unwrap(), processor_time);
            println!("{ours} {theirs}");
        }
        [side, ref words @ .., times] => {
            let work = if side == "ours" { ours::work(words, &lines) } else { theirs::work(words, &lines) };
            let start = Instant::now();
            let count = work(times.parse().unwrap());
            eprintln!("{}", start.elapsed().as_nanos());
            println!("{count}");
        }
        _ => panic!("see the comment at the top"),
    }
}
