//! Stand-in for the crate `ahash`: a fast hasher with fixed seeds, so that the maps of the Rust
//! program have the same order in every run. Only what that program uses is here.

use std::hash::{BuildHasher, Hasher};

const MULTIPLE: u64 = 6_364_136_223_846_793_005;

fn folded(a: u64, b: u64) -> u64 {
    let product = u128::from(a) * u128::from(b);
    (product as u64) ^ ((product >> 64) as u64)
}

#[derive(Clone, Debug)]
pub struct RandomState {
    start: u64,
    pad: u64,
}

impl RandomState {
    #[must_use]
    pub fn with_seeds(a: u64, b: u64, c: u64, d: u64) -> Self {
        Self {
            start: folded(a ^ 0x243f_6a88_85a3_08d3, c ^ 0x1319_8a2e_0370_7344),
            pad: folded(b ^ 0xa409_3822_299f_31d0, d ^ 0x082e_fa98_ec4e_6c89) | 1,
        }
    }
}

impl BuildHasher for RandomState {
    type Hasher = AHasher;

    fn build_hasher(&self) -> AHasher {
        AHasher { state: self.start, pad: self.pad }
    }
}

pub struct AHasher {
    state: u64,
    pad: u64,
}

impl Hasher for AHasher {
    #[inline]
    fn write_u64(&mut self, word: u64) {
        self.state = folded(self.state ^ word, MULTIPLE);
    }

    fn write(&mut self, bytes: &[u8]) {
        for &byte in bytes {
            self.write_u64(u64::from(byte));
        }
    }

    #[inline]
    fn finish(&self) -> u64 {
        folded(self.state, self.pad).rotate_left((self.state & 63) as u32)
    }
}
