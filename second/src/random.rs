//! A small seeded generator (splitmix64).

pub struct Random {
    state: u64,
}

impl Random {
    pub fn new(seed: u64) -> Self {
        Random { state: seed }
    }

    pub fn any(&mut self) -> u64 {
        self.state = self.state.wrapping_add(0x9E37_79B9_7F4A_7C15);
        let mut z = self.state;
        z = (z ^ (z >> 30)).wrapping_mul(0xBF58_476D_1CE4_E5B9);
        z = (z ^ (z >> 27)).wrapping_mul(0x94D0_49BB_1331_11EB);
        z ^ (z >> 31)
    }

    /// A number below `limit`, which is at least 1.
    pub fn below(&mut self, limit: u32) -> u32 {
        (((self.any() >> 32) * u64::from(limit)) >> 32) as u32
    }

    /// A number from `low` to `high`, both taken.
    pub fn from_to(&mut self, low: u32, high: u32) -> u32 {
        low + self.below(high - low + 1)
    }

    pub fn one_in(&mut self, times: u32) -> bool {
        self.below(times) == 0
    }

    pub fn pick<T: Copy>(&mut self, of: &[T]) -> T {
        of[self.below(of.len() as u32) as usize]
    }

    pub fn words(&mut self, length: usize) -> Vec<u32> {
        self.cut(length, |any| [any as u32, (any >> 32) as u32])
    }

    pub fn halfwords(&mut self, length: usize) -> Vec<u16> {
        self.cut(length, |any| [0, 16, 32, 48].map(|bit| (any >> bit) as u16))
    }

    pub fn bytes(&mut self, length: usize) -> Vec<u8> {
        self.cut(length, u64::to_le_bytes)
    }

    /// `length` numbers, several from each draw.
    fn cut<T: Clone, const N: usize>(&mut self, length: usize, parts: fn(u64) -> [T; N]) -> Vec<T> {
        let mut all = Vec::with_capacity(length + N);
        while all.len() < length {
            all.extend_from_slice(&parts(self.any()));
        }
        all.truncate(length);
        all
    }

    pub fn shuffle<T>(&mut self, items: &mut [T]) {
        for last in (1..items.len()).rev() {
            items.swap(last, self.below(last as u32 + 1) as usize);
        }
    }
}
