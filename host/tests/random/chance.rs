//! Numbers by chance, the same for the same seed.

/// What splitmix64 adds to its state for each number.
const STRIDE: u64 = 0x9E37_79B9_7F4A_7C15;

/// A splitmix64 generator.
pub struct Chance(u64);

impl Chance {
    /// The chance of one case. It depends on nothing but the seed, the part and the case's number, so that a case can be tried
    /// again whatever the threads did.
    pub fn of(seed: u64, part: &str, case: u64) -> Chance {
        let part = part.bytes().fold(seed, |sum, byte| Chance(sum ^ u64::from(byte)).number());
        Chance(Chance(part ^ case.wrapping_mul(STRIDE)).number())
    }

    /// The chance of a seed that another chance gave.
    pub fn from(seed: u64) -> Chance {
        Chance(seed)
    }

    pub fn number(&mut self) -> u64 {
        self.0 = self.0.wrapping_add(STRIDE);
        let mut mixed = self.0;
        mixed = (mixed ^ (mixed >> 30)).wrapping_mul(0xBF58_476D_1CE4_E5B9);
        mixed = (mixed ^ (mixed >> 27)).wrapping_mul(0x94D0_49BB_1331_11EB);
        mixed ^ (mixed >> 31)
    }

    /// 0 to the limit less one.
    pub fn below(&mut self, limit: usize) -> usize {
        (self.number() % limit as u64) as usize
    }

    pub fn between(&mut self, least: u16, most: u16) -> u16 {
        least + self.below(usize::from(most - least) + 1) as u16
    }

    pub fn one_in(&mut self, times: usize) -> bool {
        self.below(times) == 0
    }

    pub fn pick<T: Copy>(&mut self, from: &[T]) -> T {
        from[self.below(from.len())]
    }

    pub fn byte(&mut self) -> u8 {
        self.number() as u8
    }

    pub fn word(&mut self) -> u16 {
        self.number() as u16
    }

    /// The number itself, or one beside it: rules that are wrong at a limit show there.
    pub fn near(&mut self, number: u16) -> u16 {
        match self.below(3) {
            0 => number.saturating_sub(1),
            1 => number,
            _ => number.saturating_add(1),
        }
    }
}
