// Vectors for the program crate test_warp_record: calls of `warp_record`, and the original's `warp_with` of the record's
// thirteen numbers. In host/vectors: `cargo run --release --offline --bin warp_record` writes
// crates/test_warp_record/stdin and stdout again.
//
// stdin has a call after the other: 22 words of 64 bits, lowest byte first, and then the capture. The words are w, h, the
// capture's bytes, the frame's width, height, cell and margin, the grade, the canonical image's bytes, and the thirteen
// patterns. stdout has a line for each: `accepted`, a blank and how many canonical pixels have a position that is not inside
// the picture, by the original's `map`, or `refused N`; a blank, and all bytes of the canonical image in hexadecimal. Before
// the call its byte i is i % 251, and so it is after a refusal.
use lpcore::frame::FrameSpec;
use lpcore::geometry::{warp_with, GeometryFit, Homography, Radial};
use lpcore::image::RgbImage;
use vectors::{beyond, Random};

#[derive(Clone)]
struct Call {
    w: usize,
    h: usize,
    capture: Vec<u8>,
    frame: FrameSpec,
    grade: u32,
    room: usize,
    numbers: [u64; 13],
}

fn frame(width: usize, height: usize, cell: usize, margin: usize) -> FrameSpec {
    FrameSpec { width, height, cell, margin }
}

fn fit(numbers: [u64; 13]) -> GeometryFit {
    let n = numbers.map(f64::from_bits);
    let h = Homography::from_mat([[n[0], n[1], n[2]], [n[3], n[4], n[5]], [n[6], n[7], n[8]]]);
    GeometryFit { h, radial: Radial { k: n[9], cx: n[10], cy: n[11], norm: n[12] } }
}

impl Call {
    /// The lowest of 1, 2, 4 and 16 that applies.
    fn number(&self) -> u32 {
        let side = |n: usize| (1..=4096).contains(&n);
        let f = self.frame;
        if !(side(f.width) && side(f.height) && (1..=512).contains(&f.cell) && f.margin <= 4096) {
            return 1;
        }
        if !(side(self.w) && side(self.h)) || self.capture.len() != 3 * self.w * self.h {
            return 2;
        }
        if self.room != 3 * f.width * f.height {
            return 4;
        }
        if self.grade != 0 {
            return 16;
        }
        0
    }

    fn input(&self) -> Vec<u8> {
        let f = self.frame;
        let sizes = [self.w, self.h, self.capture.len(), f.width, f.height, f.cell, f.margin, self.grade as usize, self.room];
        let words = sizes.into_iter().map(|n| n as u64).chain(self.numbers);
        words.flat_map(u64::to_le_bytes).chain(self.capture.iter().copied()).collect()
    }

    /// How many pixels of the card are read from beyond the picture's edge.
    fn beyond(&self) -> usize {
        let f = self.frame;
        beyond(|p| fit(self.numbers).map(p), [f.width, f.height], [self.w, self.h])
    }

    fn output(&self) -> String {
        let (said, card) = match self.number() {
            0 => {
                let img = RgbImage { w: self.w, h: self.h, data: self.capture.clone() };
                (format!("accepted {}", self.beyond()), warp_with(&img, &self.frame, &fit(self.numbers)).data)
            }
            n => (format!("refused {n}"), (0..self.room).map(|i| (i % 251) as u8).collect()),
        };
        let digits: String = card.iter().map(|b| format!("{b:02x}")).collect();
        format!("{said} {digits}\n")
    }
}

/// About the identity, with some turn, shear, perspective and lens.
fn near(random: &mut Random, w: usize, h: usize) -> [u64; 13] {
    let mut v = |at: f64, by: f64| at + random.between(-by, by);
    let m = [v(1.0, 0.3), v(0.0, 0.3), v(0.0, 2.0), v(0.0, 0.3), v(1.0, 0.3), v(0.0, 2.0), v(0.0, 0.02), v(0.0, 0.02), 1.0];
    let lens = Radial::new(w, h, v(0.0, 0.2));
    let l = [lens.k, lens.cx, lens.cy, lens.norm];
    std::array::from_fn(|i| if i < 9 { m[i] } else { l[i - 9] }.to_bits())
}

/// NaNs of every sort, infinities, zeros and the ends of the range.
const ODD: [u64; 12] = [
    0x7ff8_0000_0000_0000,
    0xfff8_0000_0000_0001,
    0x7ff0_0000_0000_0001,
    0xffff_ffff_ffff_ffff,
    0x7ff0_0000_0000_0000,
    0xfff0_0000_0000_0000,
    0,
    0x8000_0000_0000_0000,
    1,
    0x000f_ffff_ffff_ffff,
    0x7fef_ffff_ffff_ffff,
    0xffef_ffff_ffff_ffff,
];

fn calls(random: &mut Random) -> Vec<Call> {
    let mut list = Vec::new();
    let sides = [(7, 5, frame(6, 4, 1, 0)), (1, 1, frame(3, 5, 2, 9)), (12, 9, frame(8, 8, 512, 4096)), (2, 13, frame(1, 1, 1, 1))];
    for i in 0..40 {
        let (w, h, frame) = sides[i % sides.len()];
        let capture: Vec<u8> = (0..3 * w * h).map(|_| (random.next() >> 56) as u8).collect();
        let room = 3 * frame.width * frame.height;
        list.push(Call { w, h, capture, frame, grade: 0, room, numbers: near(random, w, h) });
    }
    let good = list[0].clone();
    // Each number odd, in turn; then all of them.
    for (i, odd) in (0..13).zip(ODD.into_iter().cycle()) {
        for at in [odd, ODD[(5 * i + 1) % 12]] {
            let mut c = good.clone();
            c.numbers[i] = at;
            list.push(c);
        }
    }
    list.extend(ODD.map(|odd| Call { numbers: [odd; 13], ..good.clone() }));
    list.push(Call { numbers: std::array::from_fn(|i| ODD[i % 12]), ..good.clone() });
    // Any other grade is 16.
    list.extend([1, 2, 3, 4, 256, 65536, 1 << 31, u32::MAX].map(|grade| Call { grade, ..good.clone() }));
    // What is wrong goes first, in the order 1, 2, 4, whatever the grade.
    for grade in [0, 1, 2, u32::MAX] {
        let c = Call { grade, ..good.clone() };
        let frames = [frame(0, 4, 1, 0), frame(6, 4097, 1, 0), frame(6, 4, 0, 0), frame(6, 4, 513, 0), frame(6, 4, 1, 4097)];
        list.extend(frames.map(|frame| Call { frame, ..c.clone() }));
        list.extend([(0, 5), (7, 4097), (5, 5), (7, 6)].map(|(w, h)| Call { w, h, ..c.clone() }));
        list.extend([104, 106, 0].map(|n| Call { capture: vec![9; n], ..c.clone() }));
        list.extend([71, 73, 0].map(|room| Call { room, ..c.clone() }));
        list.push(Call { frame: frame(0, 4, 1, 0), capture: vec![9; 104], room: 71, ..c.clone() });
        list.push(Call { capture: vec![9; 104], room: 71, ..c.clone() });
    }
    list
}

/// How many cards are laid that lie wholly inside the picture, partly, and not at all.
fn cards(list: &[Call]) -> [usize; 3] {
    let mut count = [0; 3];
    for c in list.iter().filter(|c| c.number() == 0) {
        let (n, all) = (c.beyond(), c.frame.width * c.frame.height);
        count[usize::from(n > 0) + usize::from(n == all)] += 1;
    }
    count
}

fn main() {
    let list = calls(&mut Random(5));
    let input: Vec<u8> = list.iter().flat_map(Call::input).collect();
    let output: String = list.iter().map(Call::output).collect();
    for number in [0, 1, 2, 4, 16] {
        println!("{}: {} calls", number, list.iter().filter(|c| c.number() == number).count());
    }
    let cards = cards(&list);
    println!("cards inside, partly inside and outside: {cards:?}");
    assert!(!cards.contains(&0));
    vectors::write("test_warp_record", &input, &output);
}
