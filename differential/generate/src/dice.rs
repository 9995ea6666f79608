//! Numbers that look random, from a seed.

/// Marsaglia's xorshift on 64 bits.
#[derive(Clone, Debug)]
pub struct Dice(u64);

impl Dice {
    /// Seeds that lie close together give sequences that do not.
    pub fn new(seed: u64) -> Self {
        let mut mixed = seed.wrapping_add(0x9E37_79B9_7F4A_7C15);
        mixed = (mixed ^ (mixed >> 30)).wrapping_mul(0xBF58_476D_1CE4_E5B9);
        mixed = (mixed ^ (mixed >> 27)).wrapping_mul(0x94D0_49BB_1331_11EB);
        Self((mixed ^ (mixed >> 31)) | 1)
    }

    pub fn any(&mut self) -> u64 {
        self.0 ^= self.0 << 13;
        self.0 ^= self.0 >> 7;
        self.0 ^= self.0 << 17;
        self.0.wrapping_mul(0x2545_F491_4F6C_DD1D)
    }

    /// A number below k; 0 if there is none.
    pub fn below(&mut self, k: u64) -> u64 {
        (self.any() >> 16) % k.max(1)
    }

    pub fn index(&mut self, k: usize) -> usize {
        self.below(k as u64) as usize
    }

    /// True once in k times; never if k is 0.
    pub fn one_in(&mut self, k: u64) -> bool {
        k > 0 && self.below(k) == 0
    }

    pub fn pick<T: Copy>(&mut self, from: &[T]) -> T {
        from[self.index(from.len())]
    }

    pub fn shuffle<T>(&mut self, list: &mut [T]) {
        for at in (1..list.len()).rev() {
            let with = self.index(at + 1);
            list.swap(at, with);
        }
    }
}
