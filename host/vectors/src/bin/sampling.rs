// Vectors for the program crate test_sampling: places in a small picture, and the original's `bilinear` there; pixels, and
// their luma in the original's `luma_plane`. Which places are inside the picture is said by `vectors::inside`.
// In host/vectors: `cargo run --release --offline --bin sampling` writes crates/test_sampling/stdin and stdout again.
//
// stdin is the 60 bytes of a picture of 5 by 4, four bytes of padding, then 421 places, two 64-bit words each, lowest
// byte first: the patterns of x and y; and then pixels, three bytes each. stdout begins with what the program asks by
// itself: requirement 15.3, 0 and 255 side by side at (1.0, 0.5), and four captures that are refused by 2. Then a line for
// each place, its colour as six hexadecimal digits, a blank, and 1 where it is inside the picture, else 0; and one for each
// pixel, the eight hexadecimal digits of its luma's pattern.
use lpcore::geometry::bilinear;
use lpcore::image::RgbImage;
use vectors::{inside, Random};

const W: usize = 5;
const H: usize = 4;

fn line(img: &RgbImage, x: f64, y: f64) -> String {
    let [r, g, b] = bilinear(img, x, y);
    format!("{r:02x}{g:02x}{b:02x} {}\n", u8::from(inside([x, y], img.w, img.h)))
}

fn next(x: f64) -> f64 {
    f64::from_bits(x.to_bits() + 1)
}

fn before(x: f64) -> f64 {
    f64::from_bits(x.to_bits() - 1)
}

fn places(random: &mut Random) -> Vec<(f64, f64)> {
    let odd = [
        f64::NAN,
        f64::INFINITY,
        f64::NEG_INFINITY,
        0.0,
        -0.0,
        f64::MAX,
        f64::MIN,
        f64::MIN_POSITIVE,
        5e-324,
        -5e-324,
        1.8446744073709552e19,
        9007199254740993.0,
    ];
    let mut list = Vec::new();
    // one coordinate odd, the other one ordinary; and both odd
    for x in odd {
        list.push((x, 1.75));
        list.push((2.25, x));
    }
    for x in [f64::NAN, f64::INFINITY, f64::NEG_INFINITY, -0.0] {
        for y in [f64::NAN, f64::INFINITY, f64::NEG_INFINITY, 1e300] {
            list.push((x, y));
        }
    }
    // pixel centres, and the floats on either side of some
    for y in 0..H {
        for x in 0..W {
            list.push((x as f64 + 0.5, y as f64 + 0.5));
        }
    }
    for k in 1..W {
        let t = k as f64 + 0.5;
        list.push((before(t), 1.5));
        list.push((next(t), 2.5));
        list.push((1.5, before(t)));
        list.push((3.5, next(t)));
    }
    // edges, and just outside
    for x in [-1.0, 0.0, 0.25, 0.49999999999999994, 4.5, 4.75, 5.0, 5.5, 6.0] {
        for y in [-3.0, 0.0, 3.5, 4.0, 4.5] {
            list.push((x, y));
        }
    }
    // halves and quarters, whose weights are exact
    for k in 0..40 {
        list.push((k as f64 * 0.125, 4.0 - k as f64 * 0.0625));
    }
    while list.len() < 300 {
        list.push((random.between(-1.0, 6.0), random.between(-1.0, 5.0)));
    }
    for x in ends(W) {
        list.extend(ends(H).map(|y| (x, y)));
    }
    assert_eq!(list.len(), 421);
    list
}

/// The ends of a side, the floats on either side of each, what lies in no side, and a place within.
fn ends(side: usize) -> [f64; 11] {
    let s = side as f64;
    [f64::NAN, f64::INFINITY, f64::NEG_INFINITY, -5e-324, -0.0, 0.0, 5e-324, before(s), s, next(s), 1.75]
}

/// The least, the middle and the greatest bytes in each place, and 200 pixels at random.
fn pixels(random: &mut Random) -> Vec<[u8; 3]> {
    let bytes = [0, 1, 127, 128, 254, 255];
    let each = |r: u8| bytes.into_iter().flat_map(move |g| bytes.map(|b| [r, g, b]));
    let mut list: Vec<[u8; 3]> = bytes.into_iter().flat_map(each).collect();
    list.extend((0..200).map(|_| [0; 3].map(|_: u8| (random.next() >> 56) as u8)));
    assert_eq!(list.len(), 416);
    list
}

fn main() {
    let mut random = Random(4);
    let mut img = RgbImage::new(W, H);
    for b in img.data.iter_mut() {
        *b = (random.next() >> 56) as u8;
    }
    img.set(0, 0, [0, 255, 0]);
    img.set(1, 0, [255, 0, 255]);
    let mut two = RgbImage::new(2, 1);
    two.set(1, 0, [255, 255, 255]);

    let mut input = img.data.clone();
    input.resize(64, 0);
    let mut output = line(&two, 1.0, 0.5);
    output += &"refused 2\n".repeat(4);
    for (x, y) in places(&mut random) {
        input.extend(x.to_bits().to_le_bytes());
        input.extend(y.to_bits().to_le_bytes());
        output += &line(&img, x, y);
    }
    let pixels = pixels(&mut random);
    let row = lpcorepub::image::RgbImage { w: pixels.len(), h: 1, data: pixels.concat() };
    for y in lpcorepub::geometry::luma_plane(&row) {
        output += &format!("{:08x}\n", y.to_bits());
    }
    input.extend(row.data);
    vectors::write("test_sampling", &input, &output);
    println!("{} lines", output.lines().count());
}
