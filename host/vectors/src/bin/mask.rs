// Vectors for the program crate test_mask: a picture of 40 by 36, and the original's luma, integral and mask.
// In host/vectors: `cargo run --release --offline --bin mask` writes crates/test_mask/stdin and stdout again.
//
// stdin is the picture's bytes. stdout has the luma as f32 patterns, the integral's last row as f64 patterns and the mask
// as `#` (dark) and `.`, for the frame 192, 192, 1, 48, where m is 24 and marker_size 72. The program lends each area
// with eight entries more than it needs, which stay as they were: 1.0, NaN and 7.
use lpcorepub::frame::FrameSpec;
use lpcorepub::geometry::{adaptive_black_mask, luma_plane, marker_layout};
use lpcorepub::image::RgbImage;
use vectors::pictures::integral_of;
use vectors::Random;

const W: usize = 40;
const H: usize = 36;

// A slope of light from corner to corner, dark rings on it, a band at either end of the range, and noise.
fn picture() -> RgbImage {
    let mut random = Random(40);
    let mut img = RgbImage::new(W, H);
    for y in 0..H {
        for x in 0..W {
            let slope = 60 + 3 * x as i32 + 2 * y as i32;
            let ring = ((x % 12) as i32 - 6).abs().max(((y % 12) as i32 - 6).abs());
            let light = if ring == 3 { slope - 14 } else { slope };
            let mut c = [0u8; 3];
            for v in c.iter_mut() {
                let noise = (random.next() >> 60) as i32 - 8;
                *v = (light + noise).clamp(0, 255) as u8;
            }
            if y == 30 {
                c = if x < 20 { [0, 0, 0] } else { [255, 255, 255] };
            }
            img.set(x, y, c);
        }
    }
    img
}

fn main() {
    let img = picture();
    let spec = FrameSpec { width: 192, height: 192, cell: 1, margin: 48 };
    let (marker, _) = marker_layout(&spec).unwrap();
    // as fiducial_candidates has it
    let radius = (marker as usize / 3).clamp(8, W.min(H) / 4);
    let luma = luma_plane(&img);
    let integral = integral_of(&luma, W, H);
    let mask = adaptive_black_mask(&luma, W, H, radius, 8.0);

    let mut output = String::new();
    for v in luma.iter().chain([1f32; 8].iter()) {
        output += &format!("{:08x}\n", v.to_bits());
    }
    for v in &integral[H * (W + 1)..] {
        output += &format!("{:016x}\n", v.to_bits());
    }
    output += &"7ff8000000000000\n".repeat(8);
    for row in mask.chunks(W) {
        output.extend(row.iter().map(|d| if *d { '#' } else { '.' }));
        output.push('\n');
    }
    output += "77777777\n";
    let dark = mask.iter().filter(|d| **d).count();
    vectors::write("test_mask", &img.data, &output);
    println!("radius {radius}, {dark} of {} dark", mask.len());
    for wrong in [radius - 1, radius + 1] {
        let other = adaptive_black_mask(&luma, W, H, wrong, 8.0);
        println!("radius {wrong}: {} differ", mask.iter().zip(&other).filter(|(a, b)| a != b).count());
    }
}
