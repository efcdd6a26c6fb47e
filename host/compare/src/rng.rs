//! Random numbers from a seed (SplitMix64), with a liking for the ends of ranges.

pub struct Rng(u64);

impl Rng {
    pub fn new(seed: u64) -> Rng {
        Rng(seed)
    }

    pub fn any(&mut self) -> u64 {
        self.0 = self.0.wrapping_add(0x9E37_79B9_7F4A_7C15);
        let z = (self.0 ^ (self.0 >> 30)).wrapping_mul(0xBF58_476D_1CE4_E5B9);
        let z = (z ^ (z >> 27)).wrapping_mul(0x94D0_49BB_1331_11EB);
        z ^ (z >> 31)
    }

    /// A number below `end`.
    pub fn below(&mut self, end: u64) -> u64 {
        self.any() % end
    }

    /// A number from `first` to `last`.
    pub fn between(&mut self, first: u64, last: u64) -> u64 {
        match last - first {
            u64::MAX => self.any(),
            span => first + self.below(span + 1),
        }
    }

    /// A length or place from `first` to `last`.
    pub fn place(&mut self, first: usize, last: usize) -> usize {
        self.between(first as u64, last as u64) as usize
    }

    /// True once in `times`.
    pub fn one_in(&mut self, times: u64) -> bool {
        self.below(times) == 0
    }

    pub fn pick<T: Copy>(&mut self, from: &[T]) -> T {
        from[self.place(0, from.len() - 1)]
    }

    pub fn fill(&mut self, octets: &mut [u8]) {
        for part in octets.chunks_mut(8) {
            let random = self.any().to_be_bytes();
            part.copy_from_slice(&random[..part.len()]);
        }
    }

    pub fn octets(&mut self, len: usize) -> Vec<u8> {
        let mut octets = vec![0; len];
        self.fill(&mut octets);
        octets
    }

    /// A number of at most `bits` bits: an end of the range, or any, long or short.
    pub fn number(&mut self, bits: u32) -> u64 {
        let last = u64::MAX >> (64 - bits);
        match self.below(8) {
            0 => 0,
            1 => last,
            2 => last - 1,
            3 => 1,
            _ => self.any() & (u64::MAX >> (64 - self.between(1, u64::from(bits)))),
        }
    }

    /// A number that `bits` bits can't hold: by one, or by a lot. `bits` is below 64.
    pub fn too_large(&mut self, bits: u32) -> u64 {
        let first = 1 << bits;
        match self.below(4) {
            0 => first,
            1 => u64::MAX,
            2 => first << self.below(64 - u64::from(bits)),
            _ => self.between(first, u64::MAX),
        }
    }
}
