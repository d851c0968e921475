//! What falls on the sensor, before it becomes bytes.

/// Movement of the camera while the picture is taken.
#[derive(Clone, Copy, Debug)]
pub struct Motion {
    /// In pixels: 7 mixes 7 places, one pixel apart.
    pub length: usize,
    /// In radians from the picture's rows.
    pub direction: f64,
}

/// How light becomes brightness: multiplied by the gain, cut at white, then bent by gamma.
#[derive(Clone, Copy, Debug)]
pub struct Exposure {
    pub gain: f64,
    pub gamma: f64,
}

impl Exposure {
    pub const RIGHT: Exposure = Exposure { gain: 1.0, gamma: 1.0 };

    /// From 0 to 255, where either differs from 1.
    pub fn of(&self, v: f64) -> f64 {
        if self.gain == 1.0 && self.gamma == 1.0 {
            return v;
        }
        255.0 * (self.gain * v / 255.0).clamp(0.0, 1.0).powf(1.0 / self.gamma)
    }
}

/// Three values a pixel, by rows.
#[derive(Clone, Debug)]
pub struct Light {
    pub w: usize,
    pub h: usize,
    pub values: Vec<f64>,
}

impl Light {
    /// Each pixel becomes a weighted sum of pixels around it; beyond the edge the edge goes on.
    fn mixed(&self, parts: &[(i64, i64, f64)]) -> Light {
        let row = 3 * self.w;
        let mut values = vec![0.0; self.values.len()];
        for (y, sums) in values.chunks_exact_mut(row).enumerate() {
            for &(dx, dy, weight) in parts {
                let from = (y as i64 + dy).clamp(0, self.h as i64 - 1) as usize;
                add(sums, &self.values[from * row..][..row], dx, weight);
            }
        }
        Light { w: self.w, h: self.h, values }
    }

    /// Out of focus: a Gaussian of deviation sigma, cut at 3 sigma.
    pub fn blurred(self, sigma: f64) -> Light {
        if sigma <= 0.0 {
            return self;
        }
        let reach = (3.0 * sigma).ceil() as i64;
        let weights: Vec<f64> = (-reach..=reach).map(|i| (-0.5 * (i as f64 / sigma).powi(2)).exp()).collect();
        let sum: f64 = weights.iter().sum();
        let line = |i: usize| (i as i64 - reach, weights[i] / sum);
        let across: Vec<_> = (0..weights.len()).map(|i| (line(i).0, 0, line(i).1)).collect();
        let down: Vec<_> = (0..weights.len()).map(|i| (0, line(i).0, line(i).1)).collect();
        self.mixed(&across).mixed(&down)
    }

    /// Moved while it was taken; a place between pixels is read from the four around it.
    pub fn moved(self, motion: Motion) -> Light {
        if motion.length < 2 {
            return self;
        }
        let n = motion.length as f64;
        let (s, c) = motion.direction.sin_cos();
        let mut parts = Vec::new();
        for i in 0..motion.length {
            let t = i as f64 - (n - 1.0) / 2.0;
            let (x, y) = (t * c, t * s);
            let (fx, fy) = (x - x.floor(), y - y.floor());
            for (dx, dy, weight) in [(0, 0, (1.0 - fx) * (1.0 - fy)), (1, 0, fx * (1.0 - fy)), (0, 1, (1.0 - fx) * fy), (1, 1, fx * fy)] {
                if weight > 0.0 {
                    parts.push((x.floor() as i64 + dx, y.floor() as i64 + dy, weight / n));
                }
            }
        }
        self.mixed(&parts)
    }
}

/// Adds a row, weighted, pixel x + dx to pixel x.
fn add(sums: &mut [f64], row: &[f64], dx: i64, weight: f64) {
    let n = sums.len() as i64;
    // Between these no pixel of the row is clamped.
    let (low, high) = ((-3 * dx).clamp(0, n), (n - 3 * dx).clamp(0, n));
    let clamped = |i: i64| (i + 3 * dx).clamp(i % 3, n - 3 + i % 3) as usize;
    for i in (0..low.min(high)).chain(low.max(high)..n) {
        sums[i as usize] += weight * row[clamped(i)];
    }
    if low < high {
        let inside = &row[(low + 3 * dx) as usize..(high + 3 * dx) as usize];
        for (s, v) in sums[low as usize..high as usize].iter_mut().zip(inside) {
            *s += weight * v;
        }
    }
}

#[cfg(test)]
mod tests {
    use super::*;

    /// 7 by 5, no two values alike.
    fn light() -> Light {
        Light { w: 7, h: 5, values: (0..105).map(|i| (i * i % 211) as f64).collect() }
    }

    fn at(l: &Light, x: i64, y: i64, channel: usize) -> f64 {
        let (x, y) = (x.clamp(0, l.w as i64 - 1) as usize, y.clamp(0, l.h as i64 - 1) as usize);
        l.values[3 * (y * l.w + x) + channel]
    }

    #[test]
    fn mixing_takes_the_edge_beyond_the_edge() {
        let l = light();
        for dx in -9..=9 {
            for dy in -6..=6 {
                let moved = l.mixed(&[(dx, dy, 0.5), (0, 0, 0.25)]);
                for i in 0..105 {
                    let (x, y) = ((i / 3 % 7) as i64, (i / 21) as i64);
                    let wanted = 0.5 * at(&l, x + dx, y + dy, i % 3) + 0.25 * at(&l, x, y, i % 3);
                    assert_eq!(moved.values[i], wanted, "{dx} {dy} {i}");
                }
            }
        }
    }

    /// A point of light: its sum stays, and its spread is that of the Gaussian.
    #[test]
    fn blur_has_its_deviation() {
        let (side, sigma) = (41, 2.5);
        let mut values = vec![0.0; 3 * side * side];
        values[3 * (20 * side + 20)] = 1.0;
        let blurred = Light { w: side, h: side, values }.blurred(sigma);
        let (mut sum, mut squares) = (0.0, 0.0);
        for (i, pixel) in blurred.values.chunks(3).enumerate() {
            sum += pixel[0];
            squares += pixel[0] * (i as f64 % side as f64 - 20.0).powi(2);
        }
        assert!((sum - 1.0).abs() < 1e-12, "{sum}");
        assert!((squares.sqrt() / sigma - 1.0).abs() < 0.02, "{}", squares.sqrt());
    }

    /// A point of light becomes a line of the motion's length and direction.
    #[test]
    fn motion_draws_a_line() {
        let side = 21;
        let mut values = vec![0.0; 3 * side * side];
        values[3 * (10 * side + 10)] = 1.0;
        let point = Light { w: side, h: side, values };
        let level = point.clone().moved(Motion { length: 5, direction: 0.0 });
        for (i, pixel) in level.values.chunks(3).enumerate() {
            let on = i / side == 10 && (8..=12).contains(&(i % side));
            assert!((pixel[0] - if on { 0.2 } else { 0.0 }).abs() < 1e-12);
        }
        let aslant = point.moved(Motion { length: 9, direction: 0.6 });
        let mean = |f: &dyn Fn(f64, f64) -> f64| {
            let value = |(i, p): (usize, &[f64])| p[0] * f((i % side) as f64 - 10.0, (i / side) as f64 - 10.0);
            aslant.values.chunks(3).enumerate().map(value).sum::<f64>()
        };
        assert!((mean(&|_, _| 1.0) - 1.0).abs() < 1e-12);
        assert!((mean(&|x, y| x * x + y * y) - 60.0 / 9.0).abs() < 0.5);
        assert!((mean(&|x, y| x * y) / mean(&|x, _| x * x) - 0.6f64.tan()).abs() < 0.1);
    }
}
