//! The generator of numbers that all others draw from.

/// splitmix64.
#[derive(Clone, Debug)]
pub struct Rng(u64);

impl Rng {
    pub fn new(seed: u64) -> Rng {
        Rng(seed)
    }

    /// The generator of one case: cases don't depend on those before them.
    pub fn of_case(seed: u64, group: u64, index: u64) -> Rng {
        let mut rng = Rng(seed ^ group.wrapping_mul(0xD6E8_FEB8_6659_FD93));
        let first = rng.next();
        Rng(first ^ index.wrapping_mul(0xA076_1D64_78BD_642F))
    }

    #[allow(clippy::should_implement_trait)]
    pub fn next(&mut self) -> u64 {
        self.0 = self.0.wrapping_add(0x9E37_79B9_7F4A_7C15);
        let mut z = self.0;
        z = (z ^ (z >> 30)).wrapping_mul(0xBF58_476D_1CE4_E5B9);
        z = (z ^ (z >> 27)).wrapping_mul(0x94D0_49BB_1331_11EB);
        z ^ (z >> 31)
    }

    /// 0 up to and without `end`, which is not 0.
    pub fn below(&mut self, end: usize) -> usize {
        ((u128::from(self.next()) * end as u128) >> 64) as usize
    }

    /// Both ends included.
    pub fn within(&mut self, least: i32, greatest: i32) -> i32 {
        let count = (i64::from(greatest) - i64::from(least) + 1) as usize;
        (i64::from(least) + self.below(count) as i64) as i32
    }

    pub fn percent(&mut self, percent: usize) -> bool {
        self.below(100) < percent
    }

    pub fn pick<T: Copy>(&mut self, from: &[T]) -> T {
        from[self.below(from.len())]
    }

    /// Any i32, the edges often.
    pub fn wild(&mut self) -> i32 {
        match self.below(4) {
            0 => self.pick(&[i32::MIN, i32::MIN + 1, -10_000, -9_999, -1, 0, 1, 9_999, 10_000, i32::MAX]),
            1 => self.within(-20, 300),
            2 => self.within(-10_001, 10_001),
            _ => self.next() as i32,
        }
    }
}
