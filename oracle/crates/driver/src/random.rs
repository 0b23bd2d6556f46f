/// SplitMix64, so that a seed gives the same cases everywhere.
pub struct Random(pub u64);

impl Random {
    pub fn next(&mut self) -> u64 {
        self.0 = self.0.wrapping_add(0x9e37_79b9_7f4a_7c15);
        let mut z = self.0;
        z = (z ^ (z >> 30)).wrapping_mul(0xbf58_476d_1ce4_e5b9);
        z = (z ^ (z >> 27)).wrapping_mul(0x94d0_49bb_1331_11eb);
        z ^ (z >> 31)
    }
    /// A value of any bit length, each as likely.
    pub fn any_length(&mut self) -> u64 {
        let unused = self.below(65) as u32;
        self.next().checked_shr(unused).unwrap_or(0)
    }
    pub fn below(&mut self, bound: usize) -> usize {
        (self.next() % bound as u64) as usize
    }
    pub fn chance(&mut self, percent: usize) -> bool {
        self.below(100) < percent
    }
    pub fn pick<T: Copy>(&mut self, list: &[T]) -> T {
        list[self.below(list.len())]
    }
    pub fn octet(&mut self) -> u8 {
        self.next() as u8
    }
    pub fn octets<const COUNT: usize>(&mut self) -> [u8; COUNT] {
        std::array::from_fn(|_| self.octet())
    }
}
