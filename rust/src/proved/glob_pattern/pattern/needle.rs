//! Made by `bin/rust_crate` from `crates/glob_pattern/src/pattern/needle.rt`, where its contracts are: sha256 4cab8b93d6385609.
//! `use crate::lanes::u8x16` is there `use std::simd::prelude::*`: SIMD of std is not stable, so `crate::lanes` has the
//! one type that is used.
//!
//! Needles: bytes that every text matched by a pattern contains, searched for at sixteen offsets at a time.

use crate::lanes::u8x16;
use crate::proved::glob_pattern::token::bracket::Bracket;
use crate::proved::glob_pattern::token::Token;

/// The number of offsets searched at once, and the greatest length of a needle in bytes.
const LANES: usize = 16;

/// A needle of so many bytes is long enough: there may be no room for another character, and few texts contain it.
const ENOUGH: usize = LANES - 3;

/// The one bit in which upper and lower case of an ASCII letter differ.
const CASE: u8 = 0x20;

/// Bytes that every matching text contains, in either case.
#[derive(Clone, Copy)]
pub struct Needle {
    bytes: [u8; LANES],
    len: usize,
}

impl Needle {
    /// No bytes.
    pub const NONE: Needle = Needle { bytes: [0; LANES], len: 0 };

    /// The UTF-8 of the longest stretch of neighbouring literals, or of the first one that is long enough. Stretches
    /// beyond 16 bytes are cut into pieces. A needle of fewer than two bytes is useless, and is never searched for.
    pub fn of(tokens: &[Token<Bracket>]) -> Needle {
        let mut longest = Needle::NONE;
        let mut needle = Needle::NONE;
        for token in tokens {
            if longest.len >= ENOUGH {
                break;
            }
            match token {
                Token::Literal(c) => needle.add(*c),
                _ => needle.len = 0,
            }
            if needle.len > longest.len {
                longest = needle;
            }
        }
        longest
    }

    /// Appends a character, or starts over with it if there would be more than 16 bytes. In place, since copying an
    /// array that was just written byte by byte is slow.
    fn add(&mut self, c: char) {
        if c.is_ascii() {
            let at = if self.len < LANES { self.len } else { 0 };
            self.bytes[at] = c as u8;
            self.len = at + 1;
            return;
        }
        let mut buffer = [0; 4];
        let char = c.encode_utf8(&mut buffer).as_bytes();
        let start = if self.len + char.len() > LANES { 0 } else { self.len };
        let len = start + char.len();
        self.bytes[start..len].copy_from_slice(char);
        self.len = len;
    }

    /// Whether the bytes may contain the needle. True without a search if the needle has fewer than two bytes, since
    /// most texts contain those, or if the text has fewer than 16.
    #[inline(always)]
    pub fn may_be_in(&self, bytes: &[u8]) -> bool {
        let Some(needle) = self.bytes.get(..self.len) else {
            return true;
        };
        needle.len() < 2 || bytes.len() < LANES || may_hold(bytes, needle)
    }
}

/// Searches the bytes for the needle. Compares only at offsets where both its first and its last byte are.
#[inline(never)]
fn may_hold(bytes: &[u8], needle: &[u8]) -> bool {
    let gap = needle.len() - 1;
    let mut start = 0;
    while start < bytes.len() - gap {
        let first = same_lanes(bytes, start, needle[0]);
        let found = first & same_lanes(bytes, start + gap, needle[gap]);
        if is_at_any(bytes, needle, start, found) {
            return true;
        }
        start += LANES;
    }
    false
}

/// Whether the needle is at one of the offsets in `found`, in either case. Bit k is for the offset `start` + k.
#[inline(always)]
fn is_at_any(bytes: &[u8], needle: &[u8], start: usize, found: u64) -> bool {
    let mut left = found;
    while left != 0 {
        if is_at(bytes, needle, start + left.trailing_zeros() as usize) {
            return true;
        }
        left &= left - 1;
    }
    false
}

/// Which of the sixteen bytes from an offset on are `x`, in either case: bit k is for the kth. A few other bytes count
/// too, as `[` for `{`.
#[inline(always)]
fn same_lanes(bytes: &[u8], from: usize, x: u8) -> u64 {
    let start = from.min(bytes.len() - LANES);
    let lanes = u8x16::from_slice(&bytes[start..]) | u8x16::splat(CASE);
    lanes.simd_eq(u8x16::splat(x | CASE)).to_bitmask() >> (from - start)
}

/// Whether the needle is at the offset, in either case.
#[inline(always)]
fn is_at(bytes: &[u8], needle: &[u8], offset: usize) -> bool {
    let Some(rest) = bytes.get(offset..) else {
        return false;
    };
    rest.len() >= needle.len() && rest[..needle.len()].eq_ignore_ascii_case(needle)
}
