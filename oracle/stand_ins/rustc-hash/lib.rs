//! Stands for the crate rustc-hash, version 2.1.1, on 64-bit machines: add, multiply, and rotate by 26 at the end.
//! (Versions 2.0.0 and 2.1.0 rotate by 20.)

use std::hash::Hasher;

const MULTIPLIER: u64 = 0xf135_7aea_2e62_a9c5;
const ROTATION: u32 = 26;

#[derive(Clone, Copy, Default)]
pub struct FxHasher {
    hash: u64,
}

impl FxHasher {
    #[inline]
    fn add(&mut self, word: u64) {
        self.hash = self.hash.wrapping_add(word).wrapping_mul(MULTIPLIER);
    }
}

impl Hasher for FxHasher {
    fn write(&mut self, _bytes: &[u8]) {
        unreachable!("only numbers are hashed here");
    }

    #[inline]
    fn write_u32(&mut self, word: u32) {
        self.add(u64::from(word));
    }

    #[inline]
    fn write_u64(&mut self, word: u64) {
        self.add(word);
    }

    #[inline]
    fn write_usize(&mut self, word: usize) {
        self.add(word as u64);
    }

    #[inline]
    fn finish(&self) -> u64 {
        self.hash.rotate_left(ROTATION)
    }
}
