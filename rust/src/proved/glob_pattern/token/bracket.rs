//! Made by `bin/rust_crate` from `crates/glob_pattern/src/token/bracket.rt`, where its contracts are: sha256 44a57d0ae76b22f7.
//!
//! Brackets: which characters they hold.

use std::slice;

/// The initial capacity of a list of entries. Most brackets never need more.
const FEW: usize = 16;

/// An entry of a bracket.
#[derive(Clone, Copy)]
pub enum Entry {
    /// One character.
    Single(char),
    /// The characters from the first to the second, by code point.
    Range(char, char),
}

impl Entry {
    /// The first and the last character, which are equal for a single one.
    pub fn ends(self) -> (char, char) {
        match self {
            Entry::Single(x) => (x, x),
            Entry::Range(x, y) => (x, y),
        }
    }

    /// Whether the entry holds `c`.
    fn holds(self, c: char, case_sensitive: bool) -> bool {
        match self {
            Entry::Single(x) => is_same(case_sensitive, c, x),
            Entry::Range(x, y) => (x <= c && c <= y) || (!case_sensitive && is_in_folded_range(x, y, c)),
        }
    }
}

/// The content of a bracket: its entries, in the order of the pattern.
pub struct Bracket {
    entries: Entries,
}

/// The entries of a bracket.
enum Entries {
    One(Entry),
    Many(Vec<Entry>),
}

impl Bracket {
    /// Reads the entries of a bracket's content.
    pub fn read(content: &[char]) -> Self {
        let entries = match content {
            [only] => Entries::One(Entry::Single(*only)),
            [first, '-', last] => Entries::One(Entry::Range(*first, *last)),
            _ => Entries::Many(read_entries(content)),
        };
        Bracket { entries }
    }

    /// The entries, in the order of the pattern.
    pub fn entries(&self) -> &[Entry] {
        match &self.entries {
            Entries::One(entry) => slice::from_ref(entry),
            Entries::Many(entries) => entries.as_slice(),
        }
    }

    /// Whether an entry holds `c`. Case-insensitively, a single ASCII letter holds either case, and a range between two
    /// of them also holds the ASCII characters whose lower case is between those of its ends.
    pub fn holds(&self, c: char, case_sensitive: bool) -> bool {
        self.entries().iter().any(|entry| entry.holds(c, case_sensitive))
    }
}

impl Clone for Bracket {
    fn clone(&self) -> Self {
        let entries = match &self.entries {
            Entries::One(entry) => Entries::One(*entry),
            Entries::Many(entries) => Entries::Many(Vec::from(entries.as_slice())),
        };
        Bracket { entries }
    }
}

/// Reads the entries of a bracket's content into a list.
fn read_entries(content: &[char]) -> Vec<Entry> {
    let mut entries = Vec::with_capacity(content.len().min(FEW));
    let mut rest = content;
    while let [first, others @ ..] = rest {
        let (entry, after) = match others {
            [hyphen, last, after @ ..] if *hyphen == '-' => (Entry::Range(*first, *last), after),
            _ => (Entry::Single(*first), others),
        };
        entries.push(entry);
        rest = after;
    }
    entries
}

/// Whether `c` and `x` are equal, or, case-insensitively, are ASCII characters with the same lower case.
pub fn is_same(case_sensitive: bool, c: char, x: char) -> bool {
    c == x || (!case_sensitive && c.is_ascii() && x.is_ascii() && c.to_ascii_lowercase() == x.to_ascii_lowercase())
}

/// Whether `c` is in the range from `x` to `y` once all are in lower case. False unless all three are ASCII and both
/// ends are letters.
fn is_in_folded_range(x: char, y: char, c: char) -> bool {
    if !x.is_ascii() || !y.is_ascii() || !c.is_ascii() {
        return false;
    }
    let first = x.to_ascii_lowercase();
    let last = y.to_ascii_lowercase();
    let lower = c.to_ascii_lowercase();
    first.is_ascii_lowercase() && last.is_ascii_lowercase() && first <= lower && lower <= last
}
