// Vectors for the program crate test_fiducials: pictures of rectangles, and what the original finds in them.
// In host/vectors: `cargo run --release --offline --bin fiducials` writes crates/test_fiducials/stdin and stdout again.
//
// stdin: the number of pictures, a byte; for each its width, height and number of rectangles, a byte each, and five bytes a
// rectangle: x, y, width, height and grey level, drawn in order on white. Then quadrilaterals, eight f64 patterns each, the
// lowest byte first.
//
// stdout, for each picture under the frame 192, 192, 1, 48: the refusal number of `fiducial_candidates`, the numbers of patches
// and candidates, and a line a candidate: the patterns of centre, score and size, and the place of its patch. Then the refusal
// number of `detect_fiducials`, and where it is 0 a line a corner: the centre's patterns and the place. For each quadrilateral:
// whether its signs agree, and whether it is too small in a capture of 640 by 480.
//
// The original answers None for each refusal. Which one it was is read off its candidates: fewer than four (7), one that two
// of its `pick`s name (8), else 9. Its closures `pick`, `cross` and what follows them stand here as they stand there.
use lpcorepub::frame::FrameSpec;
use lpcorepub::geometry::*;
use lpcorepub::image::RgbImage;
use std::fmt::Write;
use vectors::{bits, places, Random};

struct Picture {
    w: usize,
    h: usize,
    rects: Vec<[usize; 5]>,
}

impl Picture {
    fn new(w: usize, h: usize) -> Self {
        Self { w, h, rects: Vec::new() }
    }

    fn rect(mut self, x: usize, y: usize, w: usize, h: usize, grey: usize) -> Self {
        self.rects.push([x, y, w, h, grey]);
        self
    }

    // A bullseye of side 6·u whose top left pixel is (x, y).
    fn ring(self, x: usize, y: usize, u: usize) -> Self {
        self.grey_ring(x, y, u, 0, 255)
    }

    fn grey_ring(self, x: usize, y: usize, u: usize, dark: usize, light: usize) -> Self {
        self.rect(x, y, 6 * u, 6 * u, dark).rect(x + u, y + u, 4 * u, 4 * u, light).rect(x + 2 * u, y + 2 * u, 2 * u, 2 * u, dark)
    }

    fn image(&self) -> RgbImage {
        let mut img = RgbImage::new(self.w, self.h);
        img.fill_rect(0, 0, self.w, self.h, [255; 3]);
        for r in &self.rects {
            img.fill_rect(r[0], r[1], r[2], r[3], [r[4] as u8; 3]);
        }
        img
    }
}

// A ring of one pixel's width, 10 by 10, with a gap at its top left corner, a dot in it, and one side bent in where a probe
// reads: 32 pixels, or 31.
fn thin_ring(area: usize) -> Picture {
    let (x, y) = (20, 20);
    let mut p = Picture::new(48, 48)
        .rect(x + 3, y + 3, 3, 3, 0)
        .rect(x + 4, y, 6, 1, 0)
        .rect(x + 9, y + 1, 1, 3, 0)
        .rect(x + 8, y + 3, 1, 3, 0)
        .rect(x + 9, y + 5, 1, 4, 0)
        .rect(x, y + 9, 10, 1, 0)
        .rect(x, y + 4, 1, 5, 0);
    if area == 32 {
        p = p.rect(x, y + 3, 1, 1, 0);
    }
    p
}

fn pictures() -> Vec<Picture> {
    let four = |w, h| Picture::new(w, h).ring(6, 6, 3).ring(w - 24, 8, 3).ring(w - 26, h - 25, 3).ring(7, h - 26, 3);
    let mut all = vec![
        // sides below 32, and 32
        Picture::new(31, 32).rect(5, 5, 9, 9, 0),
        Picture::new(32, 31),
        Picture::new(32, 32),
        // area 31 and 32
        thin_ring(31),
        thin_ring(32),
        // four markers, also in a picture that is not square
        four(96, 96),
        four(96, 72),
        // a fifth ring among them, and marks that are no rings
        four(96, 96).ring(40, 40, 2).rect(60, 45, 12, 12, 0).rect(44, 60, 3, 20, 0).rect(75, 40, 10, 3, 0),
        // three
        Picture::new(96, 96).ring(6, 6, 3).ring(72, 8, 3).ring(70, 71, 3),
        // ties: two candidates for TL and for BR, where the earlier in raster order is named
        Picture::new(96, 96).ring(26, 4, 2).ring(4, 26, 2).ring(80, 4, 2).ring(4, 80, 2).ring(80, 58, 2).ring(58, 80, 2),
        // .. and for TR and BL
        Picture::new(96, 96).ring(4, 4, 2).ring(58, 4, 2).ring(80, 26, 2).ring(4, 58, 2).ring(26, 80, 2).ring(80, 80, 2),
        // four in a line, across and aslant
        Picture::new(96, 48).ring(4, 15, 2).ring(26, 15, 2).ring(48, 15, 2).ring(70, 15, 2),
        Picture::new(96, 96).ring(4, 4, 2).ring(26, 26, 2).ring(48, 48, 2).ring(70, 70, 2),
        // a dent: the fourth marker lies inside the triangle of the others
        Picture::new(96, 96).ring(4, 4, 3).ring(74, 4, 3).ring(4, 74, 3).ring(30, 30, 3),
        // a quadrilateral that is too small
        Picture::new(96, 96).ring(40, 40, 2).ring(55, 40, 2).ring(55, 55, 2).ring(40, 55, 2),
        // sides of 9, 10, a quarter of the picture and one more
        Picture::new(64, 64)
            .rect(4, 4, 9, 9, 0)
            .rect(5, 5, 7, 7, 255)
            .rect(7, 7, 3, 3, 0)
            .rect(24, 4, 10, 10, 0)
            .rect(26, 6, 6, 6, 255)
            .rect(28, 8, 2, 2, 0)
            .rect(4, 24, 16, 16, 0)
            .rect(7, 27, 10, 10, 255)
            .rect(10, 30, 4, 4, 0)
            .rect(30, 24, 17, 17, 0)
            .rect(33, 27, 11, 11, 255)
            .rect(36, 30, 5, 5, 0),
        // aspect 2 and more, fill above 0.85
        Picture::new(96, 96)
            .rect(6, 6, 20, 10, 0)
            .rect(9, 8, 14, 6, 255)
            .rect(12, 9, 8, 4, 0)
            .rect(40, 6, 22, 10, 0)
            .rect(43, 8, 16, 6, 255)
            .rect(46, 9, 10, 4, 0)
            .rect(6, 40, 20, 20, 0)
            .rect(12, 46, 8, 8, 255)
            .rect(14, 48, 4, 4, 0),
        // light and dark 29, 30 and 31 apart
        Picture::new(96, 96)
            .rect(0, 0, 96, 96, 129)
            .grey_ring(6, 6, 3, 100, 129)
            .rect(40, 0, 56, 96, 130)
            .grey_ring(60, 6, 3, 100, 130)
            .rect(0, 48, 96, 48, 131)
            .grey_ring(30, 66, 3, 100, 131),
        // rings at the edges, whose quiet zone lies outside
        Picture::new(96, 96).ring(0, 0, 3).ring(78, 0, 3).ring(78, 78, 3).ring(0, 78, 3),
        // 15, 14 and 13 probes agree: of the dot three, two and one of the five pixels that probes read
        Picture::new(96, 96)
            .ring(10, 10, 3)
            .rect(16, 16, 6, 6, 255)
            .rect(18, 18, 2, 2, 0)
            .ring(60, 10, 3)
            .rect(66, 16, 6, 6, 255)
            .rect(68, 18, 2, 1, 0)
            .ring(10, 60, 3)
            .rect(16, 66, 6, 6, 255)
            .rect(18, 68, 1, 1, 0),
    ];
    // grey rectangles at random, and rings of any grey among them
    let mut random = Random(11);
    let mut next = |n: usize| random.below(n as u64);
    for _ in 0..8 {
        let mut p = Picture::new(64 + next(33), 64 + next(33));
        let (w, h) = (p.w, p.h);
        for _ in 0..20 {
            p = p.rect(next(w), next(h), 1 + next(30), 1 + next(30), 90 + next(166));
        }
        for _ in 0..6 {
            let u = 2 + next(2);
            p = p.grey_ring(next(w - 6 * u), next(h - 6 * u), u, next(120), 120 + next(136));
        }
        all.push(p);
    }
    all
}

fn quads() -> Vec<[[f64; 2]; 4]> {
    let mut all = vec![
        [[0.0, 0.0], [100.0, 0.0], [100.0, 100.0], [0.0, 100.0]],
        [[0.0, 0.0], [0.0, 100.0], [100.0, 100.0], [100.0, 0.0]],
        // a dent, a bow tie, a point twice
        [[0.0, 0.0], [100.0, 0.0], [30.0, 30.0], [0.0, 100.0]],
        [[0.0, 0.0], [100.0, 100.0], [100.0, 0.0], [0.0, 100.0]],
        [[0.0, 0.0], [0.0, 0.0], [100.0, 100.0], [0.0, 100.0]],
        // three in a line: +0 and -0
        [[0.0, 0.0], [50.0, 0.0], [100.0, 0.0], [0.0, 100.0]],
        [[100.0, 0.0], [50.0, 0.0], [0.0, 0.0], [0.0, 100.0]],
        [[0.0, 50.0], [0.0, 100.0], [0.0, 0.0], [100.0, 50.0]],
        [[0.0, -0.0], [0.0, -100.0], [-0.0, 100.0], [-100.0, 0.0]],
        // 0.04·640·480 = 12288, from either side
        [[0.0, 0.0], [128.0, 0.0], [128.0, 96.0], [0.0, 96.0]],
        [[0.0, 0.0], [128.0, 0.0], [128.0, 95.99], [0.0, 95.99]],
        [[0.0, 0.0], [128.0, 0.0], [128.0, 96.01], [0.0, 96.01]],
        // infinities and a NaN
        [[0.0, 0.0], [f64::INFINITY, 0.0], [100.0, 100.0], [0.0, 100.0]],
        [[0.0, 0.0], [100.0, f64::NAN], [100.0, 100.0], [0.0, 100.0]],
        [[0.0, 0.0], [1e300, 0.0], [1e300, 1e300], [0.0, 1e300]],
    ];
    let mut random = Random(7);
    let mut next = || random.between(0.0, 480.0);
    for _ in 0..40 {
        let mut q = [[0.0; 2]; 4];
        for p in q.iter_mut() {
            *p = [next(), next()];
        }
        all.push(q);
    }
    all
}

fn picked(cands: &[Candidate]) -> [usize; 4] {
    let pick = |f: &dyn Fn(&Candidate) -> f64| -> usize {
        let mut best = 0usize;
        for (i, c) in cands.iter().enumerate() {
            if f(c) < f(&cands[best]) {
                best = i;
            }
        }
        best
    };
    [
        pick(&|c| c.center[0] + c.center[1]),
        pick(&|c| -(c.center[0] - c.center[1])),
        pick(&|c| -(c.center[0] + c.center[1])),
        pick(&|c| c.center[0] - c.center[1]),
    ]
}

fn agree(quad: &[[f64; 2]; 4]) -> bool {
    let cross = |a: [f64; 2], b: [f64; 2], c: [f64; 2]| (b[0] - a[0]) * (c[1] - a[1]) - (b[1] - a[1]) * (c[0] - a[0]);
    let signs: Vec<f64> = (0..4).map(|i| cross(quad[i], quad[(i + 1) % 4], quad[(i + 2) % 4]).signum()).collect();
    !signs.iter().any(|s| *s != signs[0])
}

fn small(quad: &[[f64; 2]; 4], w: usize, h: usize) -> bool {
    let area = 0.5
        * ((0..4)
            .map(|i| {
                let (a, b) = (quad[i], quad[(i + 1) % 4]);
                a[0] * b[1] - b[0] * a[1]
            })
            .sum::<f64>())
        .abs();
    area < 0.04 * (w * h) as f64
}

fn main() {
    let spec = FrameSpec { width: 192, height: 192, cell: 1, margin: 48 };
    let pictures = pictures();
    let mut input = vec![pictures.len() as u8];
    let mut out = String::new();
    for p in &pictures {
        input.extend([p.w as u8, p.h as u8, p.rects.len() as u8]);
        input.extend(p.rects.iter().flatten().map(|v| *v as u8));
        let img = p.image();
        if p.w < 32 || p.h < 32 {
            assert!(fiducial_candidates(&img, &spec).is_empty() && detect_fiducials(&img, &spec).is_none());
            writeln!(out, "6 0 0\n6").unwrap();
            continue;
        }
        let cands = fiducial_candidates(&img, &spec);
        let (patches, at) = places(&img, &spec, &cands);
        writeln!(out, "0 {} {}", patches, cands.len()).unwrap();
        for (c, j) in cands.iter().zip(&at) {
            writeln!(out, "{:016x} {:016x} {:016x} {:016x} {}", bits(c.center[0]), bits(c.center[1]), bits(c.score), bits(c.size), j)
                .unwrap();
        }
        match detect_fiducials(&img, &spec) {
            None if cands.len() < 4 => writeln!(out, "7").unwrap(),
            None => {
                let idx = picked(&cands);
                let twice = (0..4).any(|i| (i + 1..4).any(|j| idx[i] == idx[j]));
                writeln!(out, "{}", if twice { 8 } else { 9 }).unwrap();
            }
            Some(quad) => {
                let idx = picked(&cands);
                writeln!(out, "0").unwrap();
                for (q, i) in quad.iter().zip(idx) {
                    assert!(cands[i].center == *q);
                    writeln!(out, "{:016x} {:016x} {}", bits(q[0]), bits(q[1]), at[i]).unwrap();
                }
            }
        }
    }
    for q in quads() {
        input.extend(q.iter().flatten().flat_map(|v| v.to_bits().to_le_bytes()));
        writeln!(out, "{} {}", agree(&q) as u8, small(&q, 640, 480) as u8).unwrap();
    }
    vectors::write("test_fiducials", &input, &out);
}
