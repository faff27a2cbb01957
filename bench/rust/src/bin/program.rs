//! `glob_run match` and `glob_run find`, over the crate `glob`: prints the lines of standard input, or the paths of the
//! disk, that a pattern matches. A line that is not UTF-8 never matches.

use glob::{glob, Pattern};
use sides::theirs::options_of;
use std::env;
use std::error::Error;
use std::io::{self, BufRead, BufWriter, Write};
use std::os::unix::ffi::OsStrExt;
use std::str;

/// Does what the words `match [-i] [-s] [-d] PATTERN` or `find PATTERN` say.
fn run(words: &[String]) -> Result<(), Box<dyn Error>> {
    let [command, letters @ .., pattern] = words else {
        return Err("usage: program match [-i] [-s] [-d] PATTERN | find PATTERN".into());
    };
    let mut writer = BufWriter::new(io::stdout().lock());
    if command == "find" {
        for path in glob(pattern)? {
            writer.write_all(path?.as_os_str().as_bytes())?;
            writer.write_all(b"\n")?;
        }
        return Ok(writer.flush()?);
    }
    let (pattern, options) = (Pattern::new(pattern)?, options_of(&letters.concat()));
    let (mut reader, mut line) = (io::stdin().lock(), Vec::new());
    while reader.read_until(b'\n', &mut line)? > 0 {
        if line.last() == Some(&b'\n') {
            line.pop();
        }
        if str::from_utf8(&line).is_ok_and(|text| pattern.matches_with(text, options)) {
            line.push(b'\n');
            writer.write_all(&line)?;
        }
        line.clear();
    }
    Ok(writer.flush()?)
}

fn main() {
    run(&env::args().skip(1).collect::<Vec<String>>()).unwrap();
}
