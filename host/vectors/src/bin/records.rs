//! Input and output of the program `test_records`. In host/vectors, after host/oracle/prepare:
//!   CARGO_TARGET_DIR=../target cargo run --release --offline --bin records
//! writes crates/test_records/{stdin,stdout}. The patch list is that of the original's `label_blobs` on the
//! mask M7, with the outlines of `vectors::patches`. The colours are those of the original's `px`; the four lines
//! after them, places and sizes that the original panics at, are refusal 2 and the port's answer for a pixel outside
//! the picture. The candidates are those of its `fiducial_candidates`: centre, score and size by their bits, and the
//! place of the patch.
use lpcorepub::frame::FrameSpec;
use lpcorepub::geometry::fiducial_candidates;
use lpcorepub::image::RgbImage;
use vectors::patches::{line, records};
use vectors::{bits, places};

const MASK: [&str; 3] = ["#.#", ".#.", "##."];

/// Three rings of unlike sides, and a square that is none.
fn rings() -> RgbImage {
    let mut image = RgbImage::new(64, 64);
    let mut rect = |x, y, w, h, grey| image.fill_rect(x, y, w, h, [grey; 3]);
    rect(0, 0, 64, 64, 255);
    rect(26, 2, 6, 6, 0);
    for (x, y, w, h, line) in [(4, 5, 12, 12, 2), (40, 9, 16, 15, 3), (9, 38, 13, 14, 2)] {
        rect(x, y, w, h, 0);
        rect(x + line, y + line, w - 2 * line, h - 2 * line, 255);
        rect(x + 2 * line, y + 2 * line, w - 4 * line, h - 4 * line, 0);
    }
    image
}

fn main() {
    let dark: Vec<bool> = MASK.iter().flat_map(|row| row.bytes().map(|c| c == b'#')).collect();
    let data: Vec<u8> = (0..27u32).map(|i| (i * 37 + 5) as u8).collect();
    let rings = rings();
    let mut input: Vec<u8> = dark.iter().map(|&d| d as u8).collect();
    input.extend(&data);
    input.extend(&rings.data);

    let patches = records(&dark, 3, 3);
    let mut out = format!("3 3 {}\n", patches.len());
    for r in &patches {
        out += &line(r);
    }
    let image = RgbImage { w: 3, h: 3, data };
    for y in 0..3 {
        for x in 0..3 {
            let c = image.px(x, y);
            out += &format!("{} {} {}\n", c[0], c[1], c[2]);
        }
    }
    out += "outside\noutside\nrefused 2\nrefused 2\n";
    let spec = FrameSpec { width: 192, height: 192, cell: 1, margin: 48 };
    let candidates = fiducial_candidates(&rings, &spec);
    out += &format!("64 64 {}\n", candidates.len());
    for (c, place) in candidates.iter().zip(places(&rings, &spec, &candidates).1) {
        for x in [c.center[0], c.center[1], c.score, c.size] {
            out += &format!("{:016x} ", bits(x));
        }
        out += &format!("{place}\n");
    }

    vectors::write("test_records", &input, &out);
}
