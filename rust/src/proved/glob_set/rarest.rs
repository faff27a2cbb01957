//! Made by `bin/rust_crate` from `crates/glob_set/src/rarest.rt`, where its contracts are: sha256 ff774153b30e54f4.
//! `Vec::with_capacity` and `resize` are there `vec![x; n]`: memory that is asked for as zeros is never what was freed
//! last, and costs more.
//!
//! The key by which each pattern is found: the rarest of its keys.

use crate::proved::glob_pattern::Pattern;
use crate::proved::glob_set::components::slot_of;
use crate::proved::glob_set::key::Key;
use crate::proved::glob_set::keyed::slots_for;
use crate::proved::glob_set::pattern_keys::find_keys;

/// The least number of patterns with keys. If there are fewer, no pattern gets one: asking them one by one is faster
/// than looking up keys.
const FEWEST_WITH_KEYS: usize = 64;

/// A key is rare if the number of keys in its slot plus the cost of its lookup is below this.
const COMMON: u8 = 32;

/// The number of slots per pattern, so that few rare keys share a slot with a common one.
const SLOTS: usize = 16;

/// The keys of patterns, one pattern after the other.
struct Listed {
    keys: Vec<Key>,
    // where the keys of each pattern begin, and where the last keys end
    starts: Vec<usize>,
}

impl Listed {
    /// All keys of the patterns.
    fn new(patterns: &[Pattern]) -> Self {
        let mut keys = Vec::new();
        let mut starts = Vec::new();
        let mut found = Vec::new();
        for pattern in patterns {
            starts.push(keys.len());
            find_keys(pattern, &mut found);
            keys.append(&mut found);
        }
        starts.push(keys.len());
        Listed { keys, starts }
    }
}

/// The rarest key of each pattern, if it is rare enough: for `src/mod17/*.rs`, the key of `mod17`. If few patterns have
/// such a key, no pattern gets one.
pub fn keys_of(patterns: &[Pattern]) -> Vec<Option<Key>> {
    if patterns.len() < FEWEST_WITH_KEYS {
        return no_keys(patterns);
    }
    let listed = Listed::new(patterns);
    let keys = rarest_of(patterns, &listed);
    if count_some(keys.as_slice()) < FEWEST_WITH_KEYS {
        return no_keys(patterns);
    }
    keys
}

/// No key for any pattern.
fn no_keys(patterns: &[Pattern]) -> Vec<Option<Key>> {
    vec![None; patterns.len()]
}

/// The number of keys.
fn count_some(keys: &[Option<Key>]) -> usize {
    let mut count = 0;
    for key in keys {
        if key.is_some() {
            count += 1;
        }
    }
    count
}

/// The rarest key of each pattern, if it is rare.
fn rarest_of(patterns: &[Pattern], listed: &Listed) -> Vec<Option<Key>> {
    let all = listed.keys.as_slice();
    let starts = listed.starts.as_slice();
    let slots = slots_for(patterns.len().saturating_mul(SLOTS));
    let counts = counts_of(all, slots);
    let mut keys = Vec::new();
    for number in 0..patterns.len() {
        let own = keys_between(all, starts[number], starts[number + 1]);
        keys.push(rarest(own, counts.as_slice()));
    }
    keys
}

/// The keys from `start` up to `end`.
fn keys_between(keys: &[Key], start: usize, end: usize) -> &[Key] {
    &keys[start..end]
}

/// The number of keys in each slot, which stops at 255.
fn counts_of(keys: &[Key], slots: usize) -> Vec<u8> {
    let mut counts = Vec::with_capacity(slots);
    counts.resize(slots, 0_u8);
    for key in keys {
        let slot = count_slot(*key, slots);
        counts[slot] = counts[slot].saturating_add(1);
    }
    counts
}

/// The key for which the number of keys in its slot plus the cost of its lookup is lowest, if that sum is low enough.
fn rarest(keys: &[Key], counts: &[u8]) -> Option<Key> {
    let mut rarest = None;
    let mut least = COMMON;
    for key in keys {
        let count = counts[count_slot(*key, counts.len())];
        let cost = count.saturating_add(cost_of(*key));
        if cost < least {
            rarest = Some(*key);
            least = cost;
        }
    }
    rarest
}

/// The slot in which a key is counted. Keys of different kinds are counted apart, even if their hashes are equal.
fn count_slot(key: Key, slots: usize) -> usize {
    let salt = match key {
        Key::Component(_) => 0,
        Key::Beginning(..) => 0x5555_5555,
        Key::Ending(..) => 0xAAAA_AAAA,
        Key::Extension(..) => 0xFFFF_FFFF,
    };
    slot_of(key.hash() ^ salt, slots)
}

/// What it costs to look each text up by this key, measured in patterns asked. A text is looked up once for each length
/// of beginnings or endings that occurs.
fn cost_of(key: Key) -> u8 {
    match key {
        Key::Component(_) => 0,
        Key::Extension(..) => 1,
        Key::Beginning(..) | Key::Ending(..) => 16,
    }
}
