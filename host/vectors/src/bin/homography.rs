// Vectors for the program crate test_homography: the original's own answers, as bit patterns.
// In host/vectors: `cargo run --release --offline --bin homography` writes crates/test_homography/stdin and stdout again.
//
// stdin is records of 19 words of 64 bits, lowest byte first: what is asked (0 from_points, 1 inverse, 2 apply,
// 3 mat3_mul, 4 rms_error), then its arguments, and zeros. stdout has the answer's words, one a line, in hexadecimal:
// for from_points and inverse 0 or the refusal's number, and the nine entries (the identity's where it is refused).
// Every NaN is written as one.
use lpcore::geometry::{mat3_mul, rms_error, Homography, Mat3};
use vectors::{Random, Vectors};

type Quad = [[f64; 2]; 4];

#[derive(Default)]
struct Asked {
    words: Vectors,
    counts: [usize; 5],
}

impl Asked {
    fn ask(&mut self, kind: u64, arguments: &[f64]) {
        self.counts[kind as usize] += 1;
        let arguments: Vec<u64> = arguments.iter().map(|x| x.to_bits()).collect();
        self.words.ask(&[vec![kind], arguments].concat(), 19);
    }

    fn solved(&mut self, h: Option<Homography>, refusal: u64) {
        self.words.word(if h.is_some() { 0 } else { refusal });
        for x in h.unwrap_or(Homography::identity()).m.concat() {
            self.words.float(x);
        }
    }

    #[allow(clippy::wrong_self_convention)] // called as what is asked
    fn from_points(&mut self, src: &Quad, dst: &Quad) {
        self.ask(0, &[src.concat(), dst.concat()].concat());
        self.solved(Homography::from_points(src, dst), 10);
    }

    fn inverse(&mut self, m: &Mat3) {
        self.ask(1, &m.concat());
        self.solved(Homography::from_mat(*m).inverse(), 11);
    }

    fn apply(&mut self, m: &Mat3, p: [f64; 2]) {
        self.ask(2, &[m.concat(), p.to_vec()].concat());
        for x in Homography::from_mat(*m).apply(p) {
            self.words.float(x);
        }
    }

    fn product(&mut self, a: &Mat3, b: &Mat3) {
        self.ask(3, &[a.concat(), b.concat()].concat());
        for x in mat3_mul(a, b).concat() {
            self.words.float(x);
        }
    }

    fn error(&mut self, a: &Quad, b: &Quad) {
        self.ask(4, &[a.concat(), b.concat()].concat());
        self.words.float(rms_error(a, b));
    }
}

const ODD: [f64; 16] = [
    0.0,
    -0.0,
    f64::NAN,
    f64::INFINITY,
    f64::NEG_INFINITY,
    5e-324,
    -5e-324,
    2.2250738585072014e-308,
    1e-160,
    1e-12,
    9.999999999999998e-13,
    -1e-12,
    1e160,
    f64::MAX,
    f64::MIN,
    9007199254740993.0,
];

fn quad(r: &mut Random, spread: f64) -> Quad {
    let base = [[0.0, 0.0], [1000.0, 0.0], [1000.0, 700.0], [0.0, 700.0]];
    base.map(|p| [p[0] + r.between(-spread, spread), p[1] + r.between(-spread, spread)])
}

fn matrix(r: &mut Random, size: f64) -> Mat3 {
    let mut m = [[0.0; 3]; 3];
    for row in m.iter_mut() {
        for x in row.iter_mut() {
            *x = r.between(-size, size);
        }
    }
    m
}

// a matrix as from_points gives them
fn plain(r: &mut Random) -> Mat3 {
    [
        [r.between(0.5, 2.0), r.between(-0.5, 0.5), r.between(-300.0, 300.0)],
        [r.between(-0.5, 0.5), r.between(0.5, 2.0), r.between(-300.0, 300.0)],
        [r.between(-0.001, 0.001), r.between(-0.001, 0.001), 1.0],
    ]
}

// one entry of a list is replaced
fn spoil(r: &mut Random, list: &mut [f64]) {
    list[r.below(list.len() as u64)] = ODD[r.below(ODD.len() as u64)];
}

fn spoil_quad(r: &mut Random, q: &mut Quad) {
    let p = &mut q[r.below(4)];
    spoil(r, p);
}

fn points(v: &mut Asked, r: &mut Random) {
    let square: Quad = [[0.0, 0.0], [1.0, 0.0], [1.0, 1.0], [0.0, 1.0]];
    let zero: Quad = [[0.0; 2]; 4];
    v.from_points(&zero, &zero);
    v.from_points(&square, &square);
    v.from_points(&square, &zero);
    v.from_points(&zero, &square);
    v.from_points(&[[-0.0; 2]; 4], &square);
    v.from_points(&[[f64::NAN; 2]; 4], &square);
    v.from_points(&square, &[[f64::NAN; 2]; 4]);
    v.from_points(&[[f64::INFINITY; 2]; 4], &square);
    v.from_points(&square, &[[f64::INFINITY; 2]; 4]);
    for n in 0..60 {
        let (src, dst) = (quad(r, 200.0), quad(r, 5.0 * n as f64));
        v.from_points(&src, &dst);
    }
    // whole numbers, whose rows have equal pivots
    for _ in 0..40 {
        let whole = |r: &mut Random| [[0.0; 2]; 4].map(|_: [f64; 2]| [r.below(5) as f64 - 2.0, r.below(5) as f64 - 2.0]);
        let (src, dst) = (whole(r), whole(r));
        v.from_points(&src, &dst);
    }
    // three points nearly in line, by every power of ten
    for n in 0..30 {
        let mut src = quad(r, 50.0);
        let t = r.unit();
        let off = 10f64.powi(-n);
        let [a, _, c, _] = src;
        src[1] = [a[0] + (c[0] - a[0]) * t + off, a[1] + (c[1] - a[1]) * t + off];
        let dst = quad(r, 50.0);
        if n % 2 == 0 {
            v.from_points(&src, &dst);
        } else {
            v.from_points(&dst, &src);
        }
    }
    // pivots around 1e-12
    for n in 0..20 {
        let s = 1e-12 * (0.9 + 0.01 * n as f64);
        v.from_points(&square.map(|p| [p[0] * s, p[1] * s]), &square);
    }
    // repeated points
    for _ in 0..20 {
        let (mut src, mut dst) = (quad(r, 100.0), quad(r, 100.0));
        let (a, b) = (r.below(4), r.below(4));
        src[a] = src[b];
        if r.below(2) == 0 {
            dst[a] = dst[b];
        }
        v.from_points(&src, &dst);
    }
    // entries that are no ordinary number
    for n in 0..80 {
        let (mut src, mut dst) = (quad(r, 100.0), quad(r, 100.0));
        for _ in 0..1 + n / 20 {
            if r.below(2) == 0 {
                spoil_quad(r, &mut src);
            } else {
                spoil_quad(r, &mut dst);
            }
        }
        v.from_points(&src, &dst);
    }
}

fn inverses(v: &mut Asked, r: &mut Random) {
    v.inverse(&[[0.0; 3]; 3]);
    v.inverse(&Homography::identity().m);
    v.inverse(&[[1.0, 2.0, 3.0], [4.0, 5.0, 6.0], [7.0, 8.0, 9.0]]);
    // a determinant around 1e-12, from above and below
    for n in 0..12 {
        let d = 1e-12 * (0.94 + 0.01 * n as f64) * if n % 2 == 0 { 1.0 } else { -1.0 };
        v.inverse(&[[1.0, 0.0, 0.0], [0.0, d, 0.0], [0.0, 0.0, 1.0]]);
    }
    for _ in 0..30 {
        let m = plain(r);
        v.inverse(&m);
        let m = matrix(r, 10.0);
        v.inverse(&m);
    }
    for n in 0..40 {
        let mut m = matrix(r, 3.0);
        for _ in 0..1 + n / 20 {
            let row = r.below(3);
            spoil(r, &mut m[row]);
        }
        v.inverse(&m);
    }
}

fn applied(v: &mut Asked, r: &mut Random) {
    v.apply(&[[0.0; 3]; 3], [3.0, 4.0]);
    v.apply(&[[f64::NAN; 3]; 3], [3.0, 4.0]);
    for _ in 0..40 {
        let m = plain(r);
        let p = [r.between(-2000.0, 4000.0), r.between(-2000.0, 4000.0)];
        v.apply(&m, p);
    }
    // w at 0 and around 1e-12 of either sign, the next float on each side of it too
    for w in
        [0.0, -0.0, 1e-12, -1e-12, 9.999999999999998e-13, -9.999999999999998e-13, 1.0000000000000002e-12, -5e-324, f64::NAN, f64::INFINITY]
    {
        v.apply(&[[1.0, 2.0, 3.0], [4.0, 5.0, -6.0], [0.0, 0.0, w]], [0.5, -0.25]);
    }
    for n in 0..40 {
        let mut m = plain(r);
        let mut p = [r.between(-10.0, 10.0), r.between(-10.0, 10.0)];
        for _ in 0..1 + n / 20 {
            if r.below(3) == 0 {
                spoil(r, &mut p);
            } else {
                let row = r.below(3);
                spoil(r, &mut m[row]);
            }
        }
        v.apply(&m, p);
    }
}

fn products(v: &mut Asked, r: &mut Random) {
    let m = matrix(r, 100.0);
    v.product(&[[0.0; 3]; 3], &m);
    v.product(&m, &[[-0.0; 3]; 3]);
    v.product(&m, &Homography::identity().m);
    v.product(&Homography::identity().m, &m);
    for n in 0..60 {
        let (mut a, mut b) = (matrix(r, 100.0), plain(r));
        for _ in 0..n / 20 {
            let row = r.below(3);
            if r.below(2) == 0 {
                spoil(r, &mut a[row]);
            } else {
                spoil(r, &mut b[row]);
            }
        }
        v.product(&a, &b);
    }
}

fn errors(v: &mut Asked, r: &mut Random) {
    let q = quad(r, 10.0);
    v.error(&q, &q);
    for n in 0..60 {
        let (mut a, mut b) = (quad(r, 100.0), quad(r, 10f64.powi(n % 7 - 4)));
        for _ in 0..n / 20 {
            if r.below(2) == 0 {
                spoil_quad(r, &mut a);
            } else {
                spoil_quad(r, &mut b);
            }
        }
        v.error(&a, &b);
    }
}

fn main() {
    let mut v = Asked::default();
    let mut r = Random(6);
    points(&mut v, &mut r);
    inverses(&mut v, &mut r);
    applied(&mut v, &mut r);
    products(&mut v, &mut r);
    errors(&mut v, &mut r);
    v.words.write("test_homography");
    println!("from_points, inverse, apply, mat3_mul, rms_error: {:?}", v.counts);
}
