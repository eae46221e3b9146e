//! Numbers drawn from a seed: the same on every machine, so nothing here calls the C library.

/// Splitmix64.
#[derive(Debug, Clone)]
pub struct Random(u64);

/// The powers of ten from 0.000001 to 1,000,000,000.
const DECADES: [f64; 16] = [1e-6, 1e-5, 1e-4, 1e-3, 1e-2, 1e-1, 1e0, 1e1, 1e2, 1e3, 1e4, 1e5, 1e6, 1e7, 1e8, 1e9];

impl Random {
    /// The stream of one case: a case can be made again without those before it.
    pub fn of_case(seed: u64, case: u64) -> Self {
        let mut r = Self(seed.wrapping_mul(0xA24B_AED4_963E_E407) ^ case.wrapping_mul(0x9FB2_1C65_1E98_DF25));
        r.next();
        r
    }

    pub fn next(&mut self) -> u64 {
        self.0 = self.0.wrapping_add(0x9E37_79B9_7F4A_7C15);
        let mut z = self.0;
        z = (z ^ (z >> 30)).wrapping_mul(0xBF58_476D_1CE4_E5B9);
        z = (z ^ (z >> 27)).wrapping_mul(0x94D0_49BB_1331_11EB);
        z ^ (z >> 31)
    }

    /// A number below `n`, which is above 0.
    pub fn below(&mut self, n: u64) -> u64 {
        self.next() % n
    }

    /// A number from `a` to `b`, both among them.
    pub fn from_to(&mut self, a: i64, b: i64) -> i64 {
        a + self.below((b - a + 1) as u64) as i64
    }

    /// True once in `n` times.
    pub fn once_in(&mut self, n: u64) -> bool {
        self.below(n) == 0
    }

    pub fn pick<T: Copy>(&mut self, of: &[T]) -> T {
        of[self.below(of.len() as u64) as usize]
    }

    /// A number from 0 to 1, 1 left out.
    pub fn unit(&mut self) -> f64 {
        (self.next() >> 11) as f64 / 9_007_199_254_740_992.0
    }

    /// A length from 0.000001 to 1,000,000,000, each power of ten as likely as the next.
    pub fn log_uniform(&mut self) -> f64 {
        let decade = self.below(15) as usize;
        (DECADES[decade] * (1.0 + 9.0 * self.unit())).clamp(1e-6, 1e9)
    }

    /// `x` moved by up to `most` units in the last place, either way.
    pub fn nudged(&mut self, x: f64, most: i64) -> f64 {
        stepped(x, self.from_to(-most, most))
    }

    pub fn shuffle<T>(&mut self, list: &mut [T]) {
        for i in (1..list.len()).rev() {
            list.swap(i, self.below(i as u64 + 1) as usize);
        }
    }
}

/// `x` moved by `steps` units in the last place, through zero where it comes to that.
pub fn stepped(x: f64, steps: i64) -> f64 {
    let mut y = x;
    for _ in 0..steps.unsigned_abs() {
        y = if steps > 0 { y.next_up() } else { y.next_down() };
    }
    y
}

/// A NaN whose bits are settled: `f64::NAN`'s are not, by its documentation.
pub const NAN: f64 = f64::from_bits(0x7FF8_0000_0000_0000);
