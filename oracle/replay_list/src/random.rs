//! A small generator of pseudo-random numbers, the same on every machine: Marsaglia's
//! xorshift with 64 bits.

pub struct Random(u64);

impl Random {
    pub fn new(seed: u64) -> Self {
        assert_ne!(seed, 0, "xorshift stays at 0");
        Self(seed)
    }

    fn next(&mut self) -> u64 {
        self.0 ^= self.0 << 13;
        self.0 ^= self.0 >> 7;
        self.0 ^= self.0 << 17;
        self.0
    }

    /// A number from 0 to `most`.
    pub fn up_to(&mut self, most: u16) -> u16 {
        let choices = u64::from(most) + 1;
        u16::try_from((self.next() >> 16) % choices).expect("at most `most`")
    }

    /// Any number of 16 bits, with as many small as large ones: the size in bits
    /// is chosen first.
    pub fn any_size(&mut self) -> u16 {
        let bits = self.up_to(16);
        let most = (1u32 << bits) - 1;
        self.up_to(u16::try_from(most).expect("at most 16 bits"))
    }

    /// Any 32 bits.
    pub fn bits32(&mut self) -> u32 {
        u32::from(self.up_to(u16::MAX)) << 16 | u32::from(self.up_to(u16::MAX))
    }

    /// One of the items.
    pub fn one_of<T: Copy>(&mut self, items: &[T]) -> T {
        let last = u16::try_from(items.len() - 1).expect("few items");
        items[usize::from(self.up_to(last))]
    }
}

#[cfg(test)]
mod tests {
    use super::Random;

    #[test]
    fn the_same_numbers_each_time() {
        let mut random = Random::new(1);
        let numbers: Vec<u16> = (0..4).map(|_| random.up_to(9)).collect();
        let mut again = Random::new(1);
        assert_eq!(numbers, (0..4).map(|_| again.up_to(9)).collect::<Vec<_>>());
    }

    #[test]
    fn limits_are_reached() {
        let mut random = Random::new(7);
        let numbers: Vec<u16> = (0..1000).map(|_| random.up_to(3)).collect();
        assert!((0..=3).all(|number| numbers.contains(&number)));
        assert!(numbers.iter().all(|number| *number <= 3));
    }
}
