//! Random numbers that a seed decides, and arguments around the places where answers change.

pub struct Random(u64);

/// One step of the generator (splitmix64), also used to mix names and numbers into seeds.
pub fn mix(x: u64) -> u64 {
    let x = x.wrapping_add(0x9e37_79b9_7f4a_7c15);
    let x = (x ^ (x >> 30)).wrapping_mul(0xbf58_476d_1ce4_e5b9);
    let x = (x ^ (x >> 27)).wrapping_mul(0x94d0_49bb_1331_11eb);
    x ^ (x >> 31)
}

impl Random {
    /// A generator for one purpose: the same seed and name give the same numbers, whatever else runs.
    pub fn new(seed: u64, name: &str) -> Self {
        Self(name.bytes().fold(mix(seed), |s, b| mix(s ^ u64::from(b))))
    }

    pub fn next(&mut self) -> u64 {
        self.0 = self.0.wrapping_add(0x9e37_79b9_7f4a_7c15);
        mix(self.0)
    }

    /// A number below `n`.
    pub fn below(&mut self, n: u64) -> u64 {
        self.next() % n
    }

    /// A number from `low` to `high`, both included.
    pub fn between(&mut self, low: u64, high: u64) -> u64 {
        low + self.below(high - low + 1)
    }

    /// True in one of `n` cases.
    pub fn one_in(&mut self, n: u64) -> bool {
        self.below(n) == 0
    }

    pub fn pick<T: Copy>(&mut self, from: &[T]) -> T {
        from[self.below(from.len() as u64) as usize]
    }

    /// Any u64: spread out, small, of a random length in bits, or close to a power of two.
    pub fn word(&mut self) -> u64 {
        let x = self.next();
        match self.below(5) {
            0 | 1 => x,
            2 => x % 300,
            3 => x >> self.below(64),
            _ => (1u64 << self.below(64)).wrapping_add(x % 9).wrapping_sub(4),
        }
    }

    /// Any u32, mostly small.
    pub fn number(&mut self) -> u64 {
        match self.below(8) {
            0 => self.next() & 0xffff_ffff,
            1 => self.pick(&CORNER_NUMBERS),
            2 => self.word() & 0xffff_ffff,
            _ => self.below(300),
        }
    }

    /// A width, mostly between 0 and 70, where the ranges of all calls end.
    pub fn width(&mut self) -> u64 {
        match self.below(16) {
            0 => self.pick(&[0, 1, 2, 63, 64, 65]),
            1 => self.number(),
            2 => self.between(0, 70),
            _ => self.between(1, 64),
        }
    }

    /// A byte, often one of its corners.
    pub fn byte(&mut self) -> u64 {
        match self.below(4) {
            0 => self.pick(&[0, 1, 2, 127, 128, 254, 255]),
            1 => self.below(8),
            _ => self.below(256),
        }
    }

    pub fn bytes(&mut self, len: u64) -> Vec<u64> {
        (0..len).map(|_| self.byte()).collect()
    }

    pub fn words(&mut self, len: u64) -> Vec<u64> {
        (0..len).map(|_| self.word()).collect()
    }
}

/// Numbers of 32 bits at which something ends: byte, half and sign limits, and where the Rust's
/// loops stop ending.
pub const CORNER_NUMBERS: [u64; 20] = [
    127,
    128,
    254,
    255,
    256,
    257,
    299,
    300,
    65_535,
    65_536,
    2_147_483_647,
    2_147_483_648,
    2_684_354_560,
    2_684_354_561,
    4_294_967_263,
    4_294_967_264,
    4_294_967_265,
    4_294_967_293,
    4_294_967_294,
    4_294_967_295,
];

/// 0 to 70, then the corners of 32 bits.
pub fn all_widths() -> Vec<u64> {
    (0..=70).chain(CORNER_NUMBERS).collect()
}

/// Every power of two with its two neighbours on either side, in rising order.
pub fn corner_words() -> Vec<u64> {
    let near = |k: u32| (0..5).map(move |i| (1u64 << k).wrapping_add(i).wrapping_sub(2));
    let mut words: Vec<u64> = (0..64).flat_map(near).collect();
    words.extend([0x5555_5555_5555_5555, 0xaaaa_aaaa_aaaa_aaaa, 0xffff_ffff_0000_0000]);
    words.sort_unstable();
    words.dedup();
    words
}

/// A few words that meet every branch of the modular leaves, in rising order.
pub fn few_words() -> Vec<u64> {
    let mut words: Vec<u64> = (0..=9).collect();
    for k in [7, 8, 16, 31, 32, 33, 62, 63] {
        words.extend([(1u64 << k) - 1, 1 << k, (1 << k) + 1]);
    }
    words.extend([0x5555_5555_5555_5555, 0xaaaa_aaaa_aaaa_aaaa, u64::MAX - 1, u64::MAX]);
    words.sort_unstable();
    words.dedup();
    words
}
