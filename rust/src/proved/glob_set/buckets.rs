//! Made by `bin/rust_crate` from `crates/glob_set/src/buckets.rt`, where its contracts are: sha256 3141f9c318016333.
//! Not derived there: `Bucket`, `Buckets`.
//!
//! The patterns without a key that may match a text, listed by the class of the text's last two bytes: a number below
//! 128 that `pair_class` makes of them. `rarest` says which patterns have keys.

use crate::proved::glob_set::key::Key;
use crate::proved::glob_set::pairs::Need;

/// The number of classes: each is a bit of a `u128` (`class_bit`), so there cannot be more.
const CLASSES: usize = 128;

/// Numbers of patterns, in ascending order.
#[derive(Clone)]
pub struct Bucket {
    numbers: Vec<usize>,
}

impl Bucket {
    /// No numbers.
    fn new() -> Self {
        Bucket { numbers: Vec::new() }
    }

    /// The numbers of the patterns in this bucket.
    #[inline(always)]
    pub fn numbers(&self) -> &[usize] {
        self.numbers.as_slice()
    }

    /// Adds a number.
    fn push(&mut self, number: usize) {
        self.numbers.push(number);
    }

    /// Adds a number. Before the first one it adds the numbers of `others`.
    fn push_behind(&mut self, others: &Bucket, number: usize) {
        if self.numbers.is_empty() {
            self.numbers.extend_from_slice(others.numbers());
        }
        self.push(number)
    }

    /// Adds a number, unless it would be the first.
    fn push_another(&mut self, number: usize) {
        if !self.numbers.is_empty() {
            self.push(number);
        }
    }
}

/// The numbers of the patterns without a key, by the class of the texts that they may match.
#[derive(Clone)]
pub struct Buckets {
    // for each class that some pattern needs: the patterns that need it, and the patterns that need no class; empty for
    // other classes
    classes: Vec<Bucket>,
    // the patterns that need no class, for all other classes
    rest: Bucket,
}

impl Buckets {
    /// The patterns that may match a text of the class.
    #[inline(always)]
    pub fn of_class(&self, class: u8) -> &[usize] {
        let own = self.classes[class as usize].numbers();
        if own.is_empty() {
            return self.rest.numbers();
        }
        own
    }

    /// Adds a pattern that needs the class, if there is one.
    fn push(&mut self, number: usize, class: Option<u8>) {
        match class {
            Some(class) => self.classes[class as usize].push_behind(&self.rest, number),
            None => self.push_to_all(number),
        }
    }

    /// Adds a pattern that needs no class.
    fn push_to_all(&mut self, number: usize) {
        for bucket in self.classes.iter_mut() {
            bucket.push_another(number);
        }
        self.rest.push(number)
    }

    /// Sorts the patterns without a key into buckets, by what a text needs to match them.
    pub fn new(needs: &[Need], keys: &[Option<Key>]) -> Self {
        let mut buckets = Buckets::empty();
        for number in 0..needs.len() {
            if keys[number].is_none() {
                buckets.push(number, needs[number].class);
            }
        }
        buckets
    }

    /// No patterns.
    fn empty() -> Self {
        let mut classes = Vec::new();
        for _class in 0..CLASSES {
            let own = Bucket::new();
            classes.push(own);
        }
        let rest = Bucket::new();
        Buckets { classes, rest }
    }
}
