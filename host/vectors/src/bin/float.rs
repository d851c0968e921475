// Vectors for the program crate test_float: inputs of each float helper with Rust's own answers, as bit patterns.
// In host/vectors: `cargo run --release --offline --bin float` writes crates/test_float/stdin and stdout again.
//
// stdin is 64-bit words, lowest byte first: how many vectors each helper has, ten words in the order of HELPERS, and
// then the vectors of each helper, its arguments and the answer. A NaN answer is written 0x7ff8000000000000, or
// 0x7fc00000 where it is an f32. stdout names each helper with its count.
use vectors::{bits, Random};

fn bits32(x: f32) -> u64 {
    if x.is_nan() {
        0x7fc0_0000
    } else {
        x.to_bits() as u64
    }
}

// x, its two neighbours, and the same with the other sign
fn around(list: &mut Vec<f64>, x: f64) {
    let b = x.to_bits();
    for p in [b, b.wrapping_sub(1), b + 1] {
        let y = f64::from_bits(p);
        list.push(y);
        list.push(-y);
    }
}

// what every helper is tried on
fn common() -> Vec<f64> {
    let mut l = vec![0.0, -0.0, f64::INFINITY, f64::NEG_INFINITY, f64::NAN, -f64::NAN];
    for p in [0x7ff0_0000_0000_0001, 0xfff0_0000_0000_0001, 0x7fff_ffff_ffff_ffff, 0xffff_ffff_ffff_ffff, 0x7ff4_0000_0000_0000u64] {
        l.push(f64::from_bits(p));
    }
    for p in [1u64, 2, 3, 0x8_0000_0000_0000, 0xf_ffff_ffff_fffe, 0xf_ffff_ffff_ffff] {
        l.push(f64::from_bits(p));
        l.push(-f64::from_bits(p));
    }
    for e in [1u64, 2, 800, 1021, 1022, 1023, 1024, 1030, 1031, 1054, 1055, 1074, 1075, 1076, 1086, 1087, 1500, 2045, 2046] {
        around(&mut l, f64::from_bits(e << 52));
    }
    l.push(f64::MAX);
    l.push(f64::MIN);
    for n in 0..8u64 {
        for base in [1u64 << 51, 1 << 52, 1 << 53] {
            let x = (base - 4 + n) as f64;
            l.extend([x, x + 0.5, x - 0.5, -x, -x - 0.5]);
        }
    }
    let mut r = Random(1);
    for _ in 0..60 {
        l.push(f64::from_bits(r.next()));
    }
    for _ in 0..20 {
        l.push(f64::from_bits(r.next() & 0xf_ffff_ffff_ffff));
    }
    l
}

fn sqrt_inputs() -> Vec<f64> {
    let mut l = common();
    let mut r = Random(2);
    for _ in 0..20 {
        // a square, and the numbers beside it
        let n = r.next() >> 38;
        around(&mut l, (n * n) as f64);
        // the square of a midpoint between two neighbours: as near to a tie as can be
        let mid = (r.next() >> 11 | 1 << 52) as u128 * 2 + 1;
        around(&mut l, (mid * mid) as f64);
    }
    l.extend([2.0, 3.0, 4.0, 0.25, 1e-300, 1e300, 1e-308, 5e-324]);
    l
}

fn narrow_inputs() -> Vec<f64> {
    let mut l = common();
    let mut r = Random(3);
    let mut ties = vec![0u32, 1, 2, 0x7f_fffe, 0x7f_ffff, 0x80_0000, 0x7f7f_fffe, 0x7f7f_ffff];
    for _ in 0..12 {
        ties.push((r.next() >> 40) as u32 & 0x7f_ffff);
        ties.push((r.next() >> 33) as u32 % 0x7f80_0000);
    }
    for p in ties {
        // the midpoint of an f32 and the next one (past the largest: where infinity begins)
        let x = f32::from_bits(p) as f64;
        let y = if p == 0x7f7f_ffff { 2f64.powi(128) } else { f32::from_bits(p + 1) as f64 };
        around(&mut l, x / 2.0 + y / 2.0);
        l.push(x);
    }
    l.extend([0.1, 0.299, 0.587, 0.114, 1.0 / 3.0, 1e38, 1e39, 1e-45, 1e-46]);
    l
}

fn round_inputs() -> Vec<f64> {
    let mut l = common();
    for n in 0..20 {
        around(&mut l, n as f64 + 0.5);
    }
    let mut r = Random(4);
    for k in 0..51 {
        let n = (r.next() >> (12 + k)) as f64;
        l.extend([n + 0.5, -n - 0.5, n + 0.25, -n - 0.75]);
    }
    l
}

fn u8_inputs() -> Vec<f64> {
    let mut l = common();
    for n in [0, 1, 2, 3, 7, 64, 127, 128, 254, 255, 256, 257, 300] {
        around(&mut l, n as f64 + 0.5);
        around(&mut l, n.max(1) as f64);
    }
    l
}

fn usize_inputs() -> Vec<f64> {
    let mut l = common();
    for k in [8, 16, 31, 32, 33, 48, 54, 60, 62, 63, 64, 65] {
        around(&mut l, 2f64.powi(k));
        around(&mut l, 2f64.powi(k) + 0.5);
    }
    l.extend([4095.999, 4096.0, 0.9999999999999999, 1.5, 2.9]);
    l
}

// each value with each, and random pairs
fn pairs() -> Vec<(f64, f64)> {
    let few = [0.0, -0.0, 1.0, -1.0, 1.5, f64::MAX, f64::MIN, 5e-324, -5e-324, f64::INFINITY, f64::NEG_INFINITY, f64::NAN];
    let mut l = Vec::new();
    for x in few {
        for y in few {
            // Rust leaves open which zero `max` gives of two
            if !(x == 0.0 && y == 0.0) {
                l.push((x, y));
            }
        }
    }
    let mut r = Random(5);
    for _ in 0..60 {
        l.push((f64::from_bits(r.next()), f64::from_bits(r.next())));
    }
    l
}

fn clamps() -> Vec<[f64; 3]> {
    let xs = [0.0, -0.0, 1.0, -1.0, 0.2, -0.2, 0.21, -0.21, 71.0, 72.0, 96.0, 97.0, f64::INFINITY, f64::NEG_INFINITY, f64::NAN, 5e-324];
    let mut l = Vec::new();
    for x in xs {
        for (lo, hi) in [(-0.2, 0.2), (72.0, 96.0), (0.0, 0.0), (f64::NEG_INFINITY, f64::INFINITY)] {
            l.push([x, lo, hi]);
        }
    }
    l
}

// each input once, in order
fn once(l: Vec<f64>) -> Vec<u64> {
    let mut seen = std::collections::HashSet::new();
    l.into_iter().map(f64::to_bits).filter(|&b| seen.insert(b)).collect()
}

fn run(l: Vec<f64>, f: impl Fn(f64) -> u64) -> Vec<Vec<u64>> {
    once(l).into_iter().map(|b| vec![b, f(f64::from_bits(b))]).collect()
}

fn main() {
    let mut r = Random(6);
    let mut singles: Vec<u32> = (0..200).map(|_| (r.next() >> 32) as u32).collect();
    singles.extend([
        0,
        0x8000_0000,
        1,
        0x8000_0001,
        0x7f_ffff,
        0x80_0000,
        0x7f7f_ffff,
        0xff7f_ffff,
        0x7f80_0000,
        0xff80_0000,
        0x7fc0_0000,
        0x7f80_0001,
        0xffff_ffff,
    ]);
    let helpers: Vec<(&str, Vec<Vec<u64>>)> = vec![
        ("sqrt", run(sqrt_inputs(), |x| bits(x.sqrt()))),
        ("narrow", run(narrow_inputs(), |x| bits32(x as f32))),
        ("round", run(round_inputs(), |x| bits(x.round()))),
        ("to_u8", run(u8_inputs(), |x| x as u8 as u64)),
        ("to_usize", run(usize_inputs(), |x| x as usize as u64)),
        ("abs", run(common(), |x| bits(x.abs()))),
        ("signum", run(common(), |x| bits(x.signum()))),
        ("widen", singles.iter().map(|&p| vec![p as u64, bits(f32::from_bits(p) as f64)]).collect()),
        ("max", pairs().into_iter().map(|(x, y)| vec![x.to_bits(), y.to_bits(), bits(x.max(y))]).collect()),
        ("clamp", clamps().into_iter().map(|[x, lo, hi]| vec![x.to_bits(), lo.to_bits(), hi.to_bits(), bits(x.clamp(lo, hi))]).collect()),
    ];
    let mut words: Vec<u64> = helpers.iter().map(|(_, v)| v.len() as u64).collect();
    for (_, vectors) in &helpers {
        words.extend(vectors.iter().flatten());
    }
    let bytes: Vec<u8> = words.iter().flat_map(|w| w.to_le_bytes()).collect();
    assert!(bytes.len() <= 65536, "the program reads 65,536 bytes: {}", bytes.len());
    let counts: String = helpers.iter().map(|(name, v)| format!("{name} {}\n", v.len())).collect();
    vectors::write("test_float", &bytes, &counts);
    print!("{counts}");
}
