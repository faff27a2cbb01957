//! Made by `bin/rust_crate` from `crates/glob_set/src/components.rt`, where its contracts are: sha256 405136be1650067f.
//!
//! Components of texts and their beginnings, and the hashes by which texts are looked up.

/// A component as far as it has been read: a hash of its bytes, the same in upper and lower case, and their number,
/// which stops at 255.
#[derive(Clone, Copy)]
pub struct Component {
    pub hash: u32,
    pub len: u8,
}

impl Component {
    /// A component before its first byte.
    #[inline(always)]
    pub fn start() -> Component {
        Component { hash: 0, len: 0 }
    }

    /// The component with one more byte. A `/` begins the next component.
    #[inline(always)]
    pub fn after(self, byte: u8) -> Component {
        if byte == b'/' {
            return Component::start();
        }
        Component { hash: hash_after(self.hash, byte), len: self.len.saturating_add(1) }
    }

    /// The component with one more character. A `/` begins the next component.
    pub fn after_char(self, c: char) -> Component {
        let mut buffer = [0; 4];
        let mut component = self;
        for byte in c.encode_utf8(&mut buffer).as_bytes() {
            component = component.after(*byte);
        }
        component
    }
}

/// The hash with one more byte, the same in upper and lower case. The hash of no bytes is 0.
#[inline(always)]
pub fn hash_after(hash: u32, byte: u8) -> u32 {
    ((u64::from(hash) * 33 + u64::from(byte % 32)) % (1 << 32)) as u32
}

/// The hash of bytes read backwards, with one more character: the one before them.
pub fn hash_before(hash: u32, c: char) -> u32 {
    let mut buffer = [0; 4];
    let bytes = c.encode_utf8(&mut buffer).as_bytes();
    let mut hash = hash;
    let mut left = bytes.len();
    while left > 0 {
        left -= 1;
        hash = hash_after(hash, bytes[left]);
    }
    hash
}

/// The slot of a hash in a table of `slots`.
#[inline(always)]
pub fn slot_of(hash: u32, slots: usize) -> usize {
    hash as usize & (slots - 1)
}
