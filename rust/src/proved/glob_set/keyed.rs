//! Made by `bin/rust_crate` from `crates/glob_set/src/keyed.rt`, where its contracts are: sha256 a1ee249b9d9f94c9.
//! Not derived there: `Keyed`.
//! `Vec::with_capacity` and `resize` are there `vec![x; n]`: memory that is asked for as zeros is never what was freed
//! last, and costs more.
//!
//! Patterns by their keys, in a hash table.

use crate::proved::glob_set::components::{hash_after, slot_of, Component};
use crate::proved::glob_set::found::Found;
use crate::proved::glob_set::key::{has_length, kinds_of, Key, Kinds};

/// The keys of patterns, and the patterns by the slots of their keys.
#[derive(Clone)]
pub struct Keyed {
    keys: Vec<Option<Key>>,
    // The first pattern of each slot, and for each pattern the next one in its slot. If there is none, it is the number
    // of patterns. The last slot has the patterns without a key.
    first: Vec<usize>,
    next: Vec<usize>,
    // the kinds of keys that occur; texts are looked up only by these
    kinds: Kinds,
}

impl Keyed {
    /// The table of the patterns with these keys, with `slots` slots for keys.
    pub fn new(keys: Vec<Option<Key>>, slots: usize) -> Self {
        let count = keys.len();
        let mut first = Vec::with_capacity(slots + 1);
        first.resize(slots + 1, count);
        let mut next = Vec::with_capacity(count);
        next.resize(count, count);
        link(keys.as_slice(), first.as_mut_slice(), next.as_mut_slice());
        let kinds = kinds_of(keys.as_slice());
        Keyed { keys, first, next, kinds }
    }

    /// Puts the patterns that have a key of the text into `found`, perhaps with others of the same hash, in ascending
    /// order.
    #[inline(always)]
    pub fn find_in(&self, text: &[u8], found: &mut Found) {
        self.find_components(text, found);
        self.find_endings(text, found);
        found.sort();
    }

    /// Adds the patterns whose key is a component of the text, or the beginning of one, if there are such keys.
    #[inline(always)]
    fn find_components(&self, text: &[u8], found: &mut Found) {
        if self.kinds.components {
            self.find_each(text, found);
        }
    }

    /// Adds the patterns whose key is an ending of the text.
    #[inline(always)]
    fn find_endings(&self, text: &[u8], found: &mut Found) {
        let mut hash = 0;
        let mut len = 0;
        while (len as usize) < text.len() {
            let byte = text[text.len() - 1 - len as usize];
            let is_used = has_length(self.kinds.endings, len);
            self.find_if(is_asked(byte, b'.', is_used), hash, found);
            if len == self.kinds.longest {
                return;
            }
            hash = hash_after(hash, byte);
            len += 1;
        }
        self.find_if(has_length(self.kinds.endings, len), hash, found);
    }

    /// Adds the patterns whose key is a component of the text, or the beginning of one.
    fn find_each(&self, text: &[u8], found: &mut Found) {
        let mut component = Component::start();
        for byte in text {
            self.find_before(*byte, component, found);
            component = component.after(*byte);
        }
        self.find(component.hash, found);
    }

    /// Adds the patterns whose key is this component, if it ends before this byte, or is this beginning of a component.
    #[inline(always)]
    fn find_before(&self, byte: u8, component: Component, found: &mut Found) {
        let is_used = has_length(self.kinds.beginnings, component.len);
        self.find_if(is_asked(byte, b'/', is_used), component.hash, found);
    }

    /// Adds the patterns whose keys have this hash, if `is_asked`.
    #[inline(always)]
    fn find_if(&self, is_asked: bool, hash: u32, found: &mut Found) {
        if is_asked {
            self.find(hash, found);
        }
    }

    /// Adds the patterns whose keys have this hash.
    fn find(&self, hash: u32, found: &mut Found) {
        let mut number = self.first[slot_of(hash, self.first.len() - 1)];
        while number < self.keys.len() {
            self.push_if(number, hash, found);
            number = self.next[number];
        }
    }

    /// Adds the pattern if its key has this hash.
    fn push_if(&self, number: usize, hash: u32, found: &mut Found) {
        if has_hash(self.keys[number], hash) {
            found.push(number);
        }
    }
}

/// Whether the text is looked up right before this byte: always before a mark, elsewhere only if a key has the length
/// read so far.
#[inline(always)]
fn is_asked(byte: u8, mark: u8, is_used: bool) -> bool {
    byte == mark || is_used
}

/// Whether there is a key with this hash.
fn has_hash(key: Option<Key>, hash: u32) -> bool {
    match key {
        Some(key) => key.hash() == hash,
        None => false,
    }
}

/// Links the patterns of each slot, starting with the last one.
fn link(keys: &[Option<Key>], first: &mut [usize], next: &mut [usize]) {
    let mut number = keys.len();
    while number > 0 {
        number -= 1;
        let slot = key_slot(keys[number], first.len() - 1);
        next[number] = first[slot];
        first[slot] = number;
    }
}

/// The slot of a key in a table of `slots`. Patterns without a key have the slot after these.
fn key_slot(key: Option<Key>, slots: usize) -> usize {
    match key {
        Some(key) => slot_of(key.hash(), slots),
        None => slots,
    }
}

/// The number of slots for this many keys.
pub fn slots_for(keys: usize) -> usize {
    keys.min(1 << 62).next_power_of_two()
}
