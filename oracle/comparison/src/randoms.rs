//! Numbers at random, the same for the same seed.

/// splitmix64: small, and good enough to choose inputs.
#[derive(Clone, Debug)]
pub struct Randoms {
    state: u64,
}

impl Randoms {
    /// A stream of its own for each task, so that the order of tasks does not matter.
    pub fn new(seed: u64, stream: u64) -> Self {
        let mut randoms = Self {
            state: seed ^ stream.wrapping_mul(0xd134_2543_de82_ef95),
        };
        randoms.next();
        randoms
    }

    pub fn next(&mut self) -> u64 {
        self.state = self.state.wrapping_add(0x9e37_79b9_7f4a_7c15);
        let mixed = (self.state ^ (self.state >> 30)).wrapping_mul(0xbf58_476d_1ce4_e5b9);
        let mixed = (mixed ^ (mixed >> 27)).wrapping_mul(0x94d0_49bb_1331_11eb);
        mixed ^ (mixed >> 31)
    }

    /// A number below `limit`, which is above 0.
    pub fn below(&mut self, limit: u64) -> u64 {
        self.next() % limit
    }

    /// A number from `low` to `high`.
    pub fn between(&mut self, low: u16, high: u16) -> u16 {
        low + self.below(u64::from(high - low) + 1) as u16
    }

    /// Any number of 16 bits, all equally likely.
    pub fn any(&mut self) -> u16 {
        self.next() as u16
    }

    /// Any number of 16 bits, with as many small ones as large ones.
    pub fn any_length(&mut self) -> u16 {
        self.any() >> self.below(16)
    }

    /// A number at a limit, or any number.
    pub fn limit_or_any(&mut self) -> u16 {
        if self.below(2) == 0 {
            self.of(&LIMITS)
        } else {
            self.any()
        }
    }

    /// Any key: one of 16 bits, as the original has them; any number of 32 signed
    /// bits; one with as many small ones as large ones, of both signs; or one at a
    /// limit.
    pub fn key(&mut self) -> i32 {
        match self.below(4) {
            0 => self.limit_or_any().into(),
            1 => self.next() as i32,
            2 => (self.next() as i32) >> self.below(32),
            _ => self.of(&KEY_LIMITS),
        }
    }

    pub fn of<T: Copy>(&mut self, values: &[T]) -> T {
        values[self.below(values.len() as u64) as usize]
    }

    pub fn bytes(&mut self, length: usize) -> Vec<u8> {
        (0..length).map(|_| self.next() as u8).collect()
    }
}

/// Numbers of 16 bits at which something changes: small ones, powers of two, those
/// whose square or product passes 31 bits, the program's largest octave.
pub const LIMITS: [u16; 26] = [
    0, 1, 2, 3, 5, 7, 8, 9, 12, 255, 256, 4095, 4096, 4097, 32_766, 32_767, 32_768, 32_769, 32_770,
    32_771, 46_340, 46_341, 46_342, 65_533, 65_534, 65_535,
];

/// Keys at which something changes: both ends of 32 signed bits, of document 02's range
/// from -32,768 to 65,535 and of 16 bits, and those around 0.
pub const KEY_LIMITS: [i32; 20] = [
    i32::MIN,
    i32::MIN + 1,
    -65_537,
    -65_536,
    -65_535,
    -32_769,
    -32_768,
    -32_767,
    -2,
    -1,
    0,
    1,
    32_767,
    32_768,
    65_534,
    65_535,
    65_536,
    65_537,
    i32::MAX - 1,
    i32::MAX,
];
