//! Seeded numbers (splitmix64): the same seed gives the same run everywhere.

pub struct Random(u64);

impl Random {
    pub fn new(seed: u64) -> Self {
        Self(seed)
    }

    pub fn bits(&mut self) -> u64 {
        self.0 = self.0.wrapping_add(0x9e37_79b9_7f4a_7c15);
        let z = (self.0 ^ (self.0 >> 30)).wrapping_mul(0xbf58_476d_1ce4_e5b9);
        let z = (z ^ (z >> 27)).wrapping_mul(0x94d0_49bb_1331_11eb);
        z ^ (z >> 31)
    }

    /// So many numbers of any pattern.
    pub fn numbers(&mut self, n: usize) -> Vec<f64> {
        (0..n).map(|_| f64::from_bits(self.bits())).collect()
    }

    /// A whole number in 0..n; n is not 0.
    pub fn below(&mut self, n: usize) -> usize {
        (self.bits() % n as u64) as usize
    }

    /// A whole number in low..=high.
    pub fn whole(&mut self, low: usize, high: usize) -> usize {
        low + self.below(high - low + 1)
    }

    pub fn one_in(&mut self, n: usize) -> bool {
        self.below(n) == 0
    }

    /// In low..high.
    pub fn between(&mut self, low: f64, high: f64) -> f64 {
        let unit = (self.bits() >> 11) as f64 / (1_u64 << 53) as f64;
        low + (high - low) * unit
    }

    pub fn pick<T: Copy>(&mut self, from: &[T]) -> T {
        from[self.below(from.len())]
    }

    pub fn sign(&mut self) -> f64 {
        self.pick(&[1.0, -1.0])
    }

    /// A few units in the last place away from x, which is finite and not 0.
    pub fn near(&mut self, x: f64) -> f64 {
        let step = self.whole(0, 6) as u64;
        f64::from_bits((x.to_bits() + step).wrapping_sub(3))
    }

    /// Any number at all: every pattern, with the telling ones more often.
    pub fn wild(&mut self) -> f64 {
        const TELLING: [f64; 16] = [
            0.0,
            -0.0,
            1.0,
            -1.0,
            2.0,
            0.5,
            f64::INFINITY,
            f64::NEG_INFINITY,
            f64::NAN,
            f64::MAX,
            f64::MIN_POSITIVE,
            5e-324,
            1e-12,
            1e-10,
            1e-6,
            1_099_511_627_776.0,
        ];
        match self.below(5) {
            0 => f64::from_bits(self.bits()),
            1 => self.pick(&TELLING) * self.sign(),
            2 => {
                let x = self.pick(&[1e-12, 1e-10, 1e-6, 1.0, 2.0, 1_099_511_627_776.0]);
                self.near(x) * self.sign()
            }
            3 => self.between(-4.0, 4.0).round(),
            _ => self.scaled(-60, 60),
        }
    }

    /// A number of either sign whose power of two is in low..=high.
    pub fn scaled(&mut self, low: i32, high: i32) -> f64 {
        let power = low + self.below((high - low + 1) as usize) as i32;
        self.sign() * self.between(1.0, 2.0) * 2.0_f64.powi(power)
    }

    pub fn shuffle<T>(&mut self, list: &mut [T]) {
        for k in (1..list.len()).rev() {
            list.swap(k, self.below(k + 1));
        }
    }
}
