//! What the comparison and the benchmark share: random numbers from printed seeds, and channel values of every kind.
#![allow(dead_code)] // each user takes a part of it

/// SplitMix64.
pub struct Random(pub u64);

impl Random {
    pub fn next(&mut self) -> u64 {
        self.0 = self.0.wrapping_add(0x9E37_79B9_7F4A_7C15);
        let z = (self.0 ^ (self.0 >> 30)).wrapping_mul(0xBF58_476D_1CE4_E5B9);
        let z = (z ^ (z >> 27)).wrapping_mul(0x94D0_49BB_1331_11EB);
        z ^ (z >> 31)
    }

    pub fn below(&mut self, n: usize) -> usize {
        (self.next() % n as u64) as usize
    }

    pub fn pick<T: Copy>(&mut self, from: &[T]) -> T {
        from[self.below(from.len())]
    }

    pub fn bytes(&mut self, n: usize) -> Vec<u8> {
        (0..n).map(|_| self.next() as u8).collect()
    }

    pub fn bits(&mut self, n: usize) -> Vec<u8> {
        (0..n).map(|_| self.next() as u8 & 1).collect()
    }

    /// From 0 to 1.
    pub fn unit(&mut self) -> f64 {
        (self.next() >> 11) as f64 / (1u64 << 53) as f64
    }

    /// A normal deviate, by Box and Muller.
    pub fn normal(&mut self) -> f64 {
        let r = (-2.0 * (1.0 - self.unit()).ln()).sqrt();
        r * (std::f64::consts::TAU * self.unit()).cos()
    }

    /// Any of the 2^32 bit patterns.
    pub fn pattern(&mut self) -> f32 {
        f32::from_bits(self.next() as u32)
    }
}

/// Values at which float arithmetic is apt to go wrong: zeros, infinities, NaN of both signs, subnormals, limits, the
/// cut of tanh and its neighbours.
pub const HOSTILE: [f32; 24] = [
    0.0,
    -0.0,
    f32::INFINITY,
    f32::NEG_INFINITY,
    f32::NAN,
    f32::from_bits(0xFFC0_0000),
    f32::from_bits(0x7F80_0001),
    f32::from_bits(1),
    f32::from_bits(0x8000_0001),
    f32::from_bits(0x007F_FFFF),
    f32::from_bits(0x807F_FFFF),
    f32::MIN_POSITIVE,
    -f32::MIN_POSITIVE,
    f32::MAX,
    f32::MIN,
    1.0,
    -1.0,
    9.94,
    -9.94,
    f32::from_bits(9.94f32.to_bits() + 1),
    f32::from_bits(9.94f32.to_bits() - 1),
    16_777_216.0,
    1e-30,
    -1e-30,
];

/// Channel values of a codeword at a noise of standard deviation `sigma`: 2/sigma^2 times what is received.
pub fn noisy(random: &mut Random, word: &[u8], sigma: f64) -> Vec<f32> {
    let gain = if sigma == 0.0 { 2.0 } else { 2.0 / (sigma * sigma) };
    word.iter().map(|&b| (gain * ((1.0 - 2.0 * f64::from(b & 1)) + sigma * random.normal())) as f32).collect()
}

/// Channel values of one of twelve kinds about a codeword.
pub fn frame(random: &mut Random, word: &[u8], kind: usize) -> Vec<f32> {
    let sigma = random.pick(&[0.0, 0.3, 0.5, 0.6, 0.7, 0.8, 0.9, 1.0, 1.5, 4.0]);
    let mut llr = noisy(random, word, sigma);
    match kind % 12 {
        // noise of every strength
        0..=3 => {}
        // the same, very small or very large
        4 => {
            let by = (10f64).powf(random.unit() * 80.0 - 40.0) as f32;
            llr.iter_mut().for_each(|v| *v *= by);
        }
        // a few values turned round
        5 => {
            llr = noisy(random, word, 0.0);
            for _ in 0..random.below(40) {
                let at = random.below(llr.len());
                llr[at] = -llr[at];
            }
        }
        // values of few kinds, so that many are equal
        6 => llr.iter_mut().for_each(|v| *v = (*v * 0.5).round().clamp(-3.0, 3.0) * 0.5),
        // a few hostile values among good ones
        7 => {
            for _ in 0..1 + random.below(30) {
                let at = random.below(llr.len());
                llr[at] = random.pick(&HOSTILE);
            }
        }
        // hostile values alone
        8 => llr.iter_mut().for_each(|v| *v = random.pick(&HOSTILE)),
        // any bits
        9 => llr.iter_mut().for_each(|v| *v = random.pattern()),
        // any bits here and there
        10 => {
            for _ in 0..1 + random.below(100) {
                let at = random.below(llr.len());
                llr[at] = random.pattern();
            }
        }
        // subnormals
        _ => llr.iter_mut().for_each(|v| *v = f32::from_bits((v.to_bits() & 0x8000_0000) | (random.next() as u32 & 0x007F_FFFF))),
    }
    llr
}
