//! What the generators share; `patches` and `stages` serve the comparison too.

pub mod masks;
pub mod patches;
pub mod pictures;
pub mod stages;

use lpcorepub::frame::FrameSpec;
use lpcorepub::geometry::{adaptive_black_mask, label_blobs, luma_plane, marker_layout, Candidate};
use lpcorepub::image::RgbImage;
use std::fs;

/// The generator of host/scene, with the draws that vectors take.
pub struct Random(pub u64);

impl Random {
    #[allow(clippy::should_implement_trait)] // it never ends
    pub fn next(&mut self) -> u64 {
        scene::step(&mut self.0)
    }

    pub fn unit(&mut self) -> f64 {
        (self.next() >> 11) as f64 / (1u64 << 53) as f64
    }

    /// From lo up to hi.
    pub fn between(&mut self, lo: f64, hi: f64) -> f64 {
        lo + (hi - lo) * self.unit()
    }

    pub fn below(&mut self, n: u64) -> usize {
        (self.next() % n) as usize
    }
}

/// The bit pattern of x, every NaN as one.
pub fn bits(x: f64) -> u64 {
    if x.is_nan() {
        0x7ff8_0000_0000_0000
    } else {
        x.to_bits()
    }
}

/// x and y at least 0, x below w, y below h, and a NaN is not inside.
pub fn inside([x, y]: [f64; 2], w: usize, h: usize) -> bool {
    x >= 0.0 && y >= 0.0 && x < w as f64 && y < h as f64
}

/// How many pixels of a card of these sides a map puts where a picture of w by h has none.
pub fn beyond(map: impl Fn([f64; 2]) -> [f64; 2], [width, height]: [usize; 2], [w, h]: [usize; 2]) -> usize {
    let position = |i: usize| map([(i % width) as f64 + 0.5, (i / width) as f64 + 0.5]);
    (0..width * height).filter(|&i| !inside(position(i), w, h)).count()
}

/// How many patches there are, and the place in their list of each candidate: both stand in one order, so each is looked for after the last.
pub fn places(img: &RgbImage, spec: &FrameSpec, cands: &[Candidate]) -> (usize, Vec<usize>) {
    let (w, h) = (img.w, img.h);
    let (marker, _) = marker_layout(spec).unwrap();
    let radius = (marker as usize / 3).clamp(8, w.min(h) / 4);
    let mask = adaptive_black_mask(&luma_plane(img), w, h, radius, 8.0);
    let blobs = label_blobs(&mask, w, h);
    let mut found = Vec::new();
    let mut at = 0;
    for c in cands {
        while {
            let b = &blobs[at];
            let size = ((b.x1 - b.x0 + 1) as f64 + (b.y1 - b.y0 + 1) as f64) / 2.0;
            [b.sx / b.area as f64 + 0.5, b.sy / b.area as f64 + 0.5] != c.center || size != c.size
        } {
            at += 1;
        }
        found.push(at);
        at += 1;
    }
    (blobs.len(), found)
}

/// Questions as records of 64-bit words, lowest byte first, and answers as hexadecimal words, one a line.
#[derive(Default)]
pub struct Vectors {
    pub input: Vec<u8>,
    pub answers: String,
}

impl Vectors {
    /// A record of `length` words: those given, then zeros.
    pub fn ask(&mut self, words: &[u64], length: usize) {
        let mut words = words.to_vec();
        assert!(words.len() <= length);
        words.resize(length, 0);
        for w in words {
            self.input.extend(w.to_le_bytes());
        }
    }

    pub fn word(&mut self, w: u64) {
        self.answers += &format!("{w:016x}\n");
    }

    pub fn float(&mut self, x: f64) {
        self.word(bits(x));
    }

    pub fn write(&self, name: &str) {
        write(name, &self.input, &self.answers);
    }
}

/// The folder of the crate `name`.
pub fn place(name: &str) -> String {
    format!("{}/../../crates/{name}", env!("CARGO_MANIFEST_DIR"))
}

/// Writes stdin and stdout of the program crate `name`.
pub fn write(name: &str, stdin: &[u8], stdout: &str) {
    let there = place(name);
    fs::write(format!("{there}/stdin"), stdin).unwrap();
    fs::write(format!("{there}/stdout"), stdout).unwrap();
}
