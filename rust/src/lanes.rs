//! Sixteen bytes at once, in two words: the part of `std::simd`, which stable Rust lacks, that the search for a needle
//! uses.

use std::ops::BitOr;

/// Sixteen bytes.
#[allow(non_camel_case_types)]
#[derive(Clone, Copy)]
pub struct u8x16([u64; 2]);

/// A word with this byte eight times is the byte times this.
const EACH: u64 = 0x0101_0101_0101_0101;

impl u8x16 {
    #[inline(always)]
    pub fn from_slice(bytes: &[u8]) -> Self {
        let bytes = &bytes[..16]; // so that the bound is tested once
        let word = |at: usize| u64::from_le_bytes(std::array::from_fn(|lane| bytes[at + lane]));
        u8x16([word(0), word(8)])
    }

    #[inline(always)]
    pub fn splat(byte: u8) -> Self {
        u8x16([u64::from(byte) * EACH; 2])
    }

    /// The last bit of each byte that is the same.
    #[inline(always)]
    pub fn simd_eq(self, other: Self) -> Self {
        u8x16(std::array::from_fn(|n| {
            let differs = self.0[n] ^ other.0[n];
            let sums = (differs & (0x7f * EACH)) + 0x7f * EACH;
            (!(sums | differs) >> 7) & EACH
        }))
    }

    /// The last bits of the bytes.
    #[inline(always)]
    pub fn to_bitmask(self) -> u64 {
        let bits = |word: u64| word.wrapping_mul(0x0102_0408_1020_4080) >> 56;
        bits(self.0[0]) | (bits(self.0[1]) << 8)
    }
}

impl BitOr for u8x16 {
    type Output = Self;

    #[inline(always)]
    fn bitor(self, other: Self) -> Self {
        u8x16(std::array::from_fn(|n| self.0[n] | other.0[n]))
    }
}

#[cfg(test)]
mod tests {
    use super::u8x16;

    /// Bytes whose bits are at the ends, and those of texts.
    const BYTES: [u8; 12] = [0, 1, 0x20, b'A', b'a', 0x7f, 0x80, 0x81, 0xa9, 0xc3, 0xe0, 0xff];

    /// Bit k of the mask belongs to byte k, whatever its neighbours are.
    #[test]
    fn lanes_are_compared_one_by_one() {
        for (x, y) in BYTES.iter().flat_map(|x| BYTES.iter().map(move |y| (*x, *y))) {
            for at in 0..16 {
                let bytes: [u8; 16] = std::array::from_fn(|lane| if lane == at { x } else { y });
                for z in BYTES {
                    let mask = |is_one: &dyn Fn(u8) -> bool| {
                        (0..16).map(|lane| u64::from(is_one(bytes[lane])) << lane).sum::<u64>()
                    };
                    let lanes = u8x16::from_slice(&bytes);
                    assert_eq!(lanes.simd_eq(u8x16::splat(z)).to_bitmask(), mask(&|byte| byte == z));
                    let either = (lanes | u8x16::splat(0x20)).simd_eq(u8x16::splat(z | 0x20));
                    assert_eq!(either.to_bitmask(), mask(&|byte| byte | 0x20 == z | 0x20));
                }
            }
        }
    }
}
