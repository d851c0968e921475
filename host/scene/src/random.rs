//! The one generator of numbers: scenes, the comparison and the test vectors draw from it.

/// Numbers from a seed (splitmix64).
pub struct Random(u64);

impl Random {
    pub fn new(seed: u64) -> Random {
        Random(seed)
    }

    pub fn bits(&mut self) -> u64 {
        step(&mut self.0)
    }

    /// From 0 to n − 1.
    pub fn below(&mut self, n: usize) -> usize {
        (self.bits() % n as u64) as usize
    }

    /// From a to b, both counted.
    pub fn between(&mut self, a: usize, b: usize) -> usize {
        a + self.below(b - a + 1)
    }

    /// From a, counted, to b.
    pub fn within(&mut self, a: f64, b: f64) -> f64 {
        a + (b - a) * ((self.bits() >> 11) as f64 / (1u64 << 53) as f64)
    }

    pub fn chance(&mut self, p: f64) -> bool {
        self.within(0.0, 1.0) < p
    }

    pub fn one_of<T: Copy>(&mut self, l: &[T]) -> T {
        l[self.below(l.len())]
    }

    /// Two from the normal distribution with mean 0 and deviation 1 (Box and Muller).
    pub fn normals(&mut self) -> [f64; 2] {
        // 1 − u is above 0, so that the logarithm is finite.
        let (u, v) = (self.within(0.0, 1.0), self.within(0.0, 1.0));
        let radius = (-2.0 * (1.0 - u).ln()).sqrt();
        let (s, c) = (std::f64::consts::TAU * v).sin_cos();
        [radius * c, radius * s]
    }
}

/// One step of splitmix64.
pub fn step(state: &mut u64) -> u64 {
    *state = state.wrapping_add(0x9e37_79b9_7f4a_7c15);
    mix(*state)
}

pub fn mix(mut z: u64) -> u64 {
    z = (z ^ (z >> 30)).wrapping_mul(0xbf58_476d_1ce4_e5b9);
    z = (z ^ (z >> 27)).wrapping_mul(0x94d0_49bb_1331_11eb);
    z ^ (z >> 31)
}

#[cfg(test)]
mod tests {
    use super::*;

    #[test]
    fn normals_have_mean_0_and_deviation_1() {
        let mut r = Random::new(1);
        let all: Vec<f64> = (0..20000).flat_map(|_| r.normals()).collect();
        let n = all.len() as f64;
        let (mean, square) = (all.iter().sum::<f64>() / n, all.iter().map(|v| v * v).sum::<f64>() / n);
        let beyond = all.iter().filter(|v| v.abs() > 1.96).count() as f64 / n;
        assert!(mean.abs() < 0.02 && (square - 1.0).abs() < 0.03 && (beyond - 0.05).abs() < 0.005, "{mean} {square} {beyond}");
    }
}
