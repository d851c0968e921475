//! The photograph of a card.

use crate::card::{Card, Cells, Frame, Rgb, BENCH_CELLS, BLACK};
use crate::light::{Exposure, Light, Motion};
use crate::pose::{apply, homography, Pose};
use crate::random::{mix, Random};

/// A grating in front of the lens: bars that brighten what is behind them.
#[derive(Clone, Copy, Debug)]
pub struct Grating {
    pub pitch: [f64; 2],
    pub bar: f64,
    /// Turned by this many radians.
    pub turn: f64,
    pub light: f64,
    /// It covers the picture from this row down.
    pub top: f64,
}

impl Grating {
    fn light(&self, x: f64, y: f64) -> f64 {
        if y < self.top {
            return 0.0;
        }
        let (s, c) = self.turn.sin_cos();
        let on = |t: f64, pitch: f64| pitch > 0.0 && t.rem_euclid(pitch) < self.bar;
        if on(x * c + y * s, self.pitch[0]) || on(y * c - x * s, self.pitch[1]) {
            self.light
        } else {
            0.0
        }
    }
}

/// A lamp mirrored in the panel: it adds light around a place of the picture, all of it up to the radius and less from there to
/// twice the radius.
#[derive(Clone, Copy, Debug)]
pub struct Glare {
    pub at: [f64; 2],
    pub radius: f64,
    pub light: f64,
}

impl Glare {
    fn light(&self, x: f64, y: f64) -> f64 {
        let away = ((x - self.at[0]).powi(2) + (y - self.at[1]).powi(2)).sqrt();
        self.light * (2.0 - away / self.radius).clamp(0.0, 1.0)
    }
}

/// Normal numbers one at a time; they are made in pairs.
struct Normals(Option<f64>);

impl Normals {
    fn next(&mut self, random: &mut Random) -> f64 {
        self.0.take().unwrap_or_else(|| {
            let [a, b] = random.normals();
            self.0 = Some(b);
            a
        })
    }
}

/// The photograph of a card.
#[derive(Clone, Debug)]
pub struct Scene {
    pub w: usize,
    pub h: usize,
    pub card: Card,
    /// Where the four marker centres lie in a picture without lens: TL, TR, BR, BL.
    pub at: [[f64; 2]; 4],
    pub k: f64,
    pub behind: Rgb,
    pub grating: Option<Grating>,
    pub glare: Option<Glare>,
    /// Deviation of the Gaussian of a lens out of focus, in pixels.
    pub blur: f64,
    pub motion: Motion,
    /// Brightness at the picture's corners, against 1 at its centre.
    pub vignette: f64,
    pub exposure: Exposure,
    /// Each byte is off by up to this much, all amounts alike.
    pub noise: f64,
    /// Each byte is off by normal noise of this deviation.
    pub normal_noise: f64,
    /// Samples a pixel, in each direction.
    pub samples: usize,
    pub seed: u64,
}

impl Scene {
    fn new(w: usize, h: usize, card: Card, at: [[f64; 2]; 4]) -> Scene {
        Scene {
            w,
            h,
            card,
            at,
            k: 0.0,
            behind: [70.0, 66.0, 60.0],
            grating: None,
            glare: None,
            blur: 0.0,
            motion: Motion { length: 0, direction: 0.0 },
            vignette: 1.0,
            exposure: Exposure::RIGHT,
            noise: 0.0,
            normal_noise: 0.0,
            samples: 1,
            seed: 0,
        }
    }

    /// A card that fills the middle `share` of a w by h picture, seen straight.
    pub fn straight(w: usize, h: usize, card: Card, share: f64) -> Scene {
        let (fw, fh) = (card.frame.width as f64, card.frame.height as f64);
        let scale = (w as f64 / fw).min(h as f64 / fh) * share;
        let (dx, dy) = ((w as f64 - scale * fw) / 2.0, (h as f64 - scale * fh) / 2.0);
        let at = card.centres().map(|c| [dx + scale * c[0], dy + scale * c[1]]);
        Scene::new(w, h, card, at)
    }

    /// A card that stands as the pose says.
    pub fn posed(w: usize, h: usize, card: Card, pose: &Pose) -> Scene {
        let sides = [card.frame.width as f64, card.frame.height as f64];
        let at = card.centres().map(|c| pose.place(sides, [w as f64, h as f64], c));
        Scene::new(w, h, card, at)
    }

    /// Moves each corner by up to `amount` pixels.
    pub fn shaken(mut self, random: &mut Random, amount: f64) -> Scene {
        for p in &mut self.at {
            p[0] += random.within(-amount, amount);
            p[1] += random.within(-amount, amount);
        }
        self
    }

    /// Turns the card about the picture's centre.
    pub fn turned(mut self, angle: f64) -> Scene {
        let (s, c) = angle.sin_cos();
        let (cx, cy) = (self.w as f64 / 2.0, self.h as f64 / 2.0);
        for p in &mut self.at {
            let (x, y) = (p[0] - cx, p[1] - cy);
            *p = [cx + c * x - s * y, cy + s * x + c * y];
        }
        self
    }

    pub fn moved(mut self, dx: f64, dy: f64) -> Scene {
        for p in &mut self.at {
            p[0] += dx;
            p[1] += dy;
        }
        self
    }

    /// The whole picture turned a quarter to the right.
    pub fn quarter_turned(mut self) -> Scene {
        let h = self.h as f64;
        self.at = self.at.map(|[x, y]| [h - y, x]);
        (self.w, self.h) = (self.h, self.w);
        self
    }

    /// The whole picture with left and right exchanged.
    pub fn mirrored(mut self) -> Scene {
        let w = self.w as f64;
        self.at = self.at.map(|[x, y]| [w - x, y]);
        self
    }

    fn centre(&self) -> [f64; 2] {
        [self.w as f64 / 2.0, self.h as f64 / 2.0]
    }

    /// Half the picture's diagonal.
    fn norm(&self) -> f64 {
        let [cx, cy] = self.centre();
        (cx * cx + cy * cy).sqrt()
    }

    /// Where a canonical point lies in the photograph; None where it is behind the camera.
    pub fn place(&self, p: [f64; 2]) -> Option<[f64; 2]> {
        let ideal = apply(&homography(&self.card.centres(), &self.at)?, p)?;
        let (c, norm) = (self.centre(), self.norm());
        let (dx, dy) = (ideal[0] - c[0], ideal[1] - c[1]);
        let f = 1.0 + self.k * (dx * dx + dy * dy) / (norm * norm);
        Some([c[0] + dx * f, c[1] + dy * f])
    }

    /// From points of the photograph to canonical points: the map that the photograph is drawn by.
    pub fn to_card(&self) -> impl Fn([f64; 2]) -> Option<[f64; 2]> + '_ {
        let (m, centre, norm) = (homography(&self.at, &self.card.centres()), self.centre(), self.norm());
        move |p| apply(&m?, self.without_lens(p, centre, norm))
    }

    /// Takes the photograph: 3·w·h bytes.
    pub fn take(&self) -> Vec<u8> {
        self.developed(&self.light().blurred(self.blur).moved(self.motion))
    }

    /// What a sharp and steady camera sees.
    pub fn light(&self) -> Light {
        let to_card = self.to_card();
        let mut values = Vec::with_capacity(3 * self.w * self.h);
        let n = self.samples.max(1);
        for y in 0..self.h {
            for x in 0..self.w {
                let mut sum = BLACK;
                for i in 0..n * n {
                    let px = x as f64 + ((i % n) as f64 + 0.5) / n as f64;
                    let py = y as f64 + ((i / n) as f64 + 0.5) / n as f64;
                    let c = self.seen_at(px, py, &to_card);
                    for (s, v) in sum.iter_mut().zip(c) {
                        *s += v;
                    }
                }
                values.extend(sum.map(|s| s / (n * n) as f64));
            }
        }
        Light { w: self.w, h: self.h, values }
    }

    /// The bytes that the sensor makes of light: vignette, exposure, then noise.
    pub fn developed(&self, light: &Light) -> Vec<u8> {
        let ([cx, cy], norm) = (self.centre(), self.norm());
        let mut random = Random::new(mix(self.seed));
        let mut normals = Normals(None);
        let mut data = Vec::with_capacity(light.values.len());
        for (i, pixel) in light.values.chunks_exact(3).enumerate() {
            let (x, y) = (i % self.w, i / self.w);
            let r2 = ((x as f64 + 0.5 - cx).powi(2) + (y as f64 + 0.5 - cy).powi(2)) / (norm * norm);
            let shade = 1.0 + (self.vignette - 1.0) * r2;
            for v in pixel {
                let mut noise = if self.noise > 0.0 { random.within(-self.noise, self.noise) } else { 0.0 };
                if self.normal_noise > 0.0 {
                    noise += self.normal_noise * normals.next(&mut random);
                }
                data.push((self.exposure.of(v * shade) + noise).round().clamp(0.0, 255.0) as u8);
            }
        }
        data
    }

    fn seen_at(&self, x: f64, y: f64, to_card: &impl Fn([f64; 2]) -> Option<[f64; 2]>) -> Rgb {
        let mut c = to_card([x, y]).and_then(|[x, y]| self.card.colour(x, y)).unwrap_or(self.behind);
        if let Some(g) = self.grating {
            c = c.map(|v| (v + g.light(x, y)).min(255.0));
        }
        if let Some(g) = self.glare {
            c = c.map(|v| v + g.light(x, y));
        }
        c
    }

    /// Solves u + k u³ = rd for the ideal radius.
    fn without_lens(&self, p: [f64; 2], c: [f64; 2], norm: f64) -> [f64; 2] {
        if self.k == 0.0 {
            return p;
        }
        let (dx, dy) = (p[0] - c[0], p[1] - c[1]);
        let rd = (dx * dx + dy * dy).sqrt() / norm;
        let mut u = rd;
        for _ in 0..8 {
            let next = u - (u + self.k * u * u * u - rd) / (1.0 + 3.0 * self.k * u * u);
            // Every further step would stay here.
            if next == u {
                break;
            }
            u = next;
        }
        let f = 1.0 + self.k * u * u;
        [c[0] + dx / f, c[1] + dy / f]
    }
}

/// The bench capture of a seed: 1280 by 720, a panel's card under perspective and lens.
pub fn bench(seed: u64) -> Scene {
    let mut random = Random::new(seed);
    let card = Card::new(Frame::BENCH, Cells::Mixed(BENCH_CELLS, random.bits()));
    let turn = random.within(-0.06, 0.06);
    let mut scene = Scene::straight(1280, 720, card, 0.88).turned(turn).shaken(&mut random, 18.0);
    scene.k = random.within(-0.06, 0.03);
    scene.vignette = 0.75;
    scene.noise = 1.5;
    scene.samples = 3;
    scene.seed = random.bits();
    scene
}

#[cfg(test)]
mod tests {
    use super::*;

    /// `to_card` undoes `place`, under perspective and either kind of lens.
    #[test]
    fn places_and_back() {
        for (k, turn) in [(0.0, 0.0), (-0.2, 14.0), (0.2, -30.0)] {
            let card = Card::new(Frame::BENCH, Cells::Flat([0.0; 3]));
            let pose = Pose { share: 0.7, sideways: 20.0, up: -15.0, roll: turn, shift: [9.0, -4.0] };
            let mut s = Scene::posed(1280, 720, card, &pose);
            s.k = k;
            let back = s.to_card();
            for p in [[0.0, 0.0], [848.0, 0.0], [848.0, 636.0], [3.5, 600.0], [424.0, 318.0]] {
                let q = back(s.place(p).unwrap()).unwrap();
                assert!((q[0] - p[0]).hypot(q[1] - p[1]) < 1e-6, "{p:?} {q:?}");
            }
        }
    }

    /// The pose's own geometry, against numbers worked out by hand: a camera 60 degrees wide, focal length w/2·√3.
    #[test]
    fn poses() {
        let (sides, picture) = ([800.0, 600.0], [1000.0, 600.0]);
        let near = |p: [f64; 2], x: f64, y: f64| assert!((p[0] - x).abs() < 1e-6 && (p[1] - y).abs() < 1e-6, "{p:?}");
        let straight = Pose::straight(0.5);
        near(straight.place(sides, picture, [0.0, 0.0]), 300.0, 150.0);
        near(straight.place(sides, picture, [800.0, 600.0]), 700.0, 450.0);
        near(Pose { roll: 90.0, ..straight }.place(sides, picture, [400.0, 0.0]), 650.0, 300.0);
        let focal = 500.0 * 3.0f64.sqrt();
        let away = focal * 2.0;
        let half = 3.0f64.sqrt() / 2.0;
        let aside = Pose { sideways: 30.0, ..straight }.place(sides, picture, [800.0, 300.0]);
        near(aside, 500.0 + focal * 400.0 * half / (away + 200.0), 300.0);
        let upward = Pose { up: 30.0, ..straight }.place(sides, picture, [400.0, 0.0]);
        near(upward, 500.0, 300.0 - focal * 300.0 * half / (away + 150.0));
    }

    /// A turned picture has the pixels of the picture, turned; a mirrored one mirrored.
    #[test]
    fn turned_and_mirrored() {
        let s = Scene { noise: 0.0, samples: 1, ..bench(3) };
        let (w, h, plain) = (s.w, s.h, s.take());
        let (turned, mirrored) = (s.clone().quarter_turned().take(), s.clone().mirrored().take());
        let same = |a: &[u8], b: &[u8]| a.iter().zip(b).all(|(a, b)| a.abs_diff(*b) <= 1);
        let (mut off_turned, mut off_mirrored) = (0, 0);
        for (i, pixel) in plain.chunks(3).enumerate() {
            let (x, y) = (i % w, i / w);
            off_turned += usize::from(!same(pixel, &turned[3 * (x * h + h - 1 - y)..][..3]));
            off_mirrored += usize::from(!same(pixel, &mirrored[3 * (y * w + w - 1 - x)..][..3]));
        }
        // Only where rounding decides on which side of a border a sample lies.
        assert!(off_turned < 20 && off_mirrored < 20, "{off_turned} {off_mirrored}");
    }

    /// Exposure and noise come after the light, and the light alone is what `take` begins from.
    #[test]
    fn exposure() {
        let e = Exposure { gain: 2.0, gamma: 2.0 };
        assert!((e.of(255.0 / 8.0) - 127.5).abs() < 1e-9 && e.of(200.0) == 255.0 && e.of(0.0) == 0.0);
        assert_eq!(Exposure::RIGHT.of(300.0), 300.0);
    }
}
