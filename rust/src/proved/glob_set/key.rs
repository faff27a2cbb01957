//! Made by `bin/rust_crate` from `crates/glob_set/src/key.rt`, where its contracts are: sha256 2420783efaa23fda.
//!
//! Keys, by which a text finds the few patterns that may match it.

/// Something that all texts matched by a pattern have.
#[derive(Clone, Copy)]
pub enum Key {
    /// A component with this hash.
    Component(u32),
    /// A component that begins with this many bytes, with this hash.
    Beginning(u32, u8),
    /// An ending of the text, of this many bytes, with this hash when read backwards.
    Ending(u32, u8),
    /// Such an ending right after a `.`.
    Extension(u32, u8),
}

impl Key {
    /// The hash.
    #[inline(always)]
    pub fn hash(self) -> u32 {
        match self {
            Key::Component(hash) => hash,
            Key::Beginning(hash, _) => hash,
            Key::Ending(hash, _) => hash,
            Key::Extension(hash, _) => hash,
        }
    }
}

/// Which kinds of keys occur.
#[derive(Clone, Copy)]
pub struct Kinds {
    /// Whether components or beginnings of components occur.
    pub components: bool,
    /// The lengths of the beginnings in bytes, one bit each.
    pub beginnings: u64,
    /// The lengths of the endings in bytes, one bit each.
    pub endings: u64,
    /// The length of the longest ending or extension, in bytes.
    pub longest: u8,
}

impl Kinds {
    /// Adds the kind of a key, if there is a key.
    fn add(&mut self, key: Option<Key>) {
        match key {
            Some(Key::Component(_)) => self.components = true,
            Some(Key::Beginning(_, len)) => {
                self.components = true;
                self.beginnings |= length_bit(len);
            }
            Some(Key::Ending(_, len)) => {
                self.endings |= length_bit(len);
                self.longest = self.longest.max(len);
            }
            Some(Key::Extension(_, len)) => self.longest = self.longest.max(len),
            None => {}
        }
    }
}

/// The kinds of the keys.
pub fn kinds_of(keys: &[Option<Key>]) -> Kinds {
    let mut kinds = Kinds { components: false, beginnings: 0, endings: 0, longest: 0 };
    for key in keys {
        kinds.add(*key);
    }
    kinds
}

/// The bit of a length in bytes. Lengths from 64 on share the bits of shorter ones, and texts are then looked up by
/// both.
#[inline(always)]
fn length_bit(len: u8) -> u64 {
    1 << (len % 64)
}

/// Whether the bit of this length is among these.
#[inline(always)]
pub fn has_length(lengths: u64, len: u8) -> bool {
    lengths | length_bit(len) == lengths
}
