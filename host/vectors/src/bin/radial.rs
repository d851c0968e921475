// Vectors for the program crate test_radial: the original's own answers, as bit patterns.
// In host/vectors: `cargo run --release --offline --bin radial` writes crates/test_radial/stdin and stdout again.
//
// stdin is records of 7 words of 64 bits, lowest byte first: what is asked (0 new, 1 distort, 2 undistort), then its
// arguments (w, h, k; or k, cx, cy, norm, x, y), and zeros. stdout has the answer's words, one a line, in hexadecimal:
// for new 2 where a side is outside its limit (the original has none), and else 0, k, cx, cy, norm. Every NaN is
// written as one.
use lpcore::geometry::Radial;
use vectors::{Random, Vectors};

#[derive(Default)]
struct Asked {
    words: Vectors,
    counts: [usize; 3],
}

impl Asked {
    fn ask(&mut self, kind: u64, arguments: &[u64]) {
        self.counts[kind as usize] += 1;
        self.words.ask(&[&[kind], arguments].concat(), 7);
    }

    #[allow(clippy::wrong_self_convention, clippy::new_ret_no_self)] // called as what is asked
    fn new(&mut self, w: usize, h: usize, k: f64) {
        self.ask(0, &[w as u64, h as u64, k.to_bits()]);
        if (1..=4096).contains(&w) && (1..=4096).contains(&h) {
            let l = Radial::new(w, h, k);
            self.words.word(0);
            for x in [l.k, l.cx, l.cy, l.norm] {
                self.words.float(x);
            }
        } else {
            self.words.word(2);
        }
    }

    fn both(&mut self, l: Radial, p: [f64; 2]) {
        let arguments = [l.k, l.cx, l.cy, l.norm, p[0], p[1]].map(f64::to_bits);
        self.ask(1, &arguments);
        for x in l.distort(p) {
            self.words.float(x);
        }
        self.ask(2, &arguments);
        for x in l.undistort(p) {
            self.words.float(x);
        }
    }
}

const ODD: [f64; 14] = [
    0.0,
    -0.0,
    f64::NAN,
    f64::INFINITY,
    f64::NEG_INFINITY,
    5e-324,
    -5e-324,
    2.2250738585072014e-308,
    1e-160,
    1e-12,
    1e160,
    f64::MAX,
    f64::MIN,
    9007199254740993.0,
];

fn main() {
    let mut v = Asked::default();
    let mut r = Random(11);
    for (w, h) in [(60, 80), (1, 1), (1, 2), (2, 2), (1, 4096), (4096, 1), (4096, 4096), (1280, 720), (123, 77)] {
        v.new(w, h, -0.125);
    }
    for (w, h) in [(0, 0), (0, 7), (7, 0), (4097, 7), (7, 4097), (4097, 4097), (usize::MAX, 1), (1, usize::MAX), (0, 4097)] {
        v.new(w, h, 0.5);
    }
    for k in ODD {
        v.new(640, 480, k);
    }
    for _ in 0..40 {
        let (w, h) = (1 + r.below(4096), 1 + r.below(4096));
        let k = r.between(-0.2, 0.2);
        v.new(w, h, k);
    }
    // every k of the first stage, at the centre, at the corners, at the sides and far outside
    for n in 0..41 {
        let l = Radial::new(123, 77, -0.20 + 0.01 * n as f64);
        for p in [[61.5, 38.5], [0.0, 0.0], [123.0, 77.0], [61.5, 0.0], [100.0, 80.0], [-150.0, 170.0], [900.0, -700.0], [1e6, 1e6]] {
            v.both(l, p);
        }
    }
    // a distance around 1e-12, and a point of an observed radius around that with no preimage
    for n in 0..20 {
        let l = Radial::new(2, 2, -0.15);
        v.both(l, [1.0 + 2f64.sqrt() * 1e-12 * (0.9 + 0.01 * n as f64), 1.0]);
        v.both(l, [0.01 * n as f64 - 0.1, 0.01 * n as f64 - 0.1]);
    }
    // six steps that go from 1 to 1.5 and back, and where their answer is observed
    for p in [[0.0, 0.0], [-0.25, -0.25]] {
        v.both(Radial::new(2, 2, -0.2), p);
    }
    // a slope of 0: 1 + 3 k u² at u = 1 and k = -1/3, in the first step and later
    for (k, x) in [(-1.0 / 3.0, 1.0), (-1.0 / 3.0, 1.0000000001), (-1.0 / 12.0, 2.0), (-3.0, 1.0 / 3.0), (-4.0 / 27.0, 1.0)] {
        v.both(Radial { k, cx: 0.0, cy: 0.0, norm: 1.0 }, [x, 0.0]);
    }
    for _ in 0..100 {
        let l = Radial::new(1 + r.below(2000), 1 + r.below(2000), r.between(-0.2, 0.2));
        let s = if r.below(3) == 0 { 5.0 } else { 1.0 };
        let p = [l.cx + r.between(-s, s) * l.cx, l.cy + r.between(-s, s) * l.cy];
        v.both(l, p);
    }
    // entries that are no ordinary number
    for n in 0..90 {
        let l = Radial::new(1 + r.below(200), 1 + r.below(200), r.between(-0.3, 0.3));
        let mut a = [l.k, l.cx, l.cy, l.norm, r.between(-100.0, 300.0), r.between(-100.0, 300.0)];
        for _ in 0..1 + n / 30 {
            a[r.below(6)] = ODD[r.below(ODD.len() as u64)];
        }
        v.both(Radial { k: a[0], cx: a[1], cy: a[2], norm: a[3] }, [a[4], a[5]]);
    }
    v.words.write("test_radial");
    println!("new, distort, undistort: {:?}", v.counts);
}
