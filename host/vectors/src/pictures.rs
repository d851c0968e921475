//! Frames, fits, drawn captures and planes that several generators share.

use crate::{Random, Vectors};
use lpcorepub::frame::FrameSpec;
use lpcorepub::geometry::{bilinear, stamp_fiducials, GeometryFit, Homography, Radial, TAPS};
use lpcorepub::image::RgbImage;

/// Matrix and lens.
pub fn put_fit(v: &mut Vectors, fit: &GeometryFit) {
    for row in fit.h.m {
        for x in row {
            v.float(x);
        }
    }
    for x in [fit.radial.k, fit.radial.cx, fit.radial.cy, fit.radial.norm] {
        v.float(x);
    }
}

pub fn frame_words(f: &FrameSpec) -> [u64; 4] {
    [f.width, f.height, f.cell, f.margin].map(|n| n as u64)
}

pub fn frame(width: usize, height: usize, cell: usize, margin: usize) -> FrameSpec {
    FrameSpec { width, height, cell, margin }
}

pub fn frame_held(f: &FrameSpec) -> bool {
    let side = |n: usize| (1..=4096).contains(&n);
    side(f.width) && side(f.height) && (1..=512).contains(&f.cell) && f.margin <= 4096
}

/// The numbers of cells that are sampled.
pub fn sampled(f: &FrameSpec) -> usize {
    f.rows().div_ceil(3) * f.cols().div_ceil(3)
}

/// The taps of a cell that lie outside the picture, by their numbers.
pub fn taps_outside(img: &RgbImage, f: &FrameSpec, fit: &GeometryFit, [c, r]: [usize; 2]) -> Vec<usize> {
    let (x0, y0) = f.cell_origin(c, r);
    let place = |i: usize| fit.map([x0 as f64 + TAPS[i % 3] * f.cell as f64, y0 as f64 + TAPS[i / 3] * f.cell as f64]);
    let off = |p: [f64; 2]| p[0] < 0.0 || p[1] < 0.0 || p[0] >= img.w as f64 || p[1] >= img.h as f64;
    (0..9).filter(|&i| off(place(i))).collect()
}

/// Column and row of each sampled cell with a tap outside the picture, by row, then column.
pub fn cells_outside(img: &RgbImage, f: &FrameSpec, fit: &GeometryFit) -> Vec<[usize; 2]> {
    let sampled = (0..f.rows()).step_by(3).flat_map(|r| (0..f.cols()).step_by(3).map(move |c| [c, r]));
    sampled.filter(|&cell| !taps_outside(img, f, fit, cell).is_empty()).collect()
}

/// The number of the first of them.
pub fn outside(img: &RgbImage, f: &FrameSpec, fit: &GeometryFit) -> Option<usize> {
    cells_outside(img, f, fit).first().map(|[c, r]| r * f.cols() + c)
}

pub fn noise(w: usize, h: usize, rng: &mut Random) -> RgbImage {
    let mut img = RgbImage::new(w, h);
    for b in img.data.iter_mut() {
        *b = rng.next() as u8;
    }
    img
}

/// A canonical card of random grey and coloured cells.
pub fn card(f: &FrameSpec, rng: &mut Random) -> RgbImage {
    let mut img = RgbImage::new(f.width, f.height);
    img.fill_rect(0, 0, f.width, f.height, [230, 226, 220]);
    for r in 0..f.rows() {
        for c in 0..f.cols() {
            let (x, y) = f.cell_origin(c, r);
            let light = 60 + rng.next() % 180;
            let colour = [light, light, light ^ (rng.next() % 32)].map(|n| n as u8);
            img.fill_rect(x, y, f.cell, f.cell, colour);
        }
    }
    stamp_fiducials(&mut img, f);
    img
}

/// The card seen with its corners at these places of a picture of w by h, through a lens term k.
pub fn photograph(card: &RgbImage, w: usize, h: usize, corners: [[f64; 2]; 4], k: f64) -> RgbImage {
    let (cw, ch) = (card.w as f64, card.h as f64);
    let back = Homography::from_points(&corners, &[[0.0, 0.0], [cw, 0.0], [cw, ch], [0.0, ch]]).unwrap();
    let lens = Radial::new(w, h, k);
    let mut img = RgbImage::new(w, h);
    for y in 0..h {
        for x in 0..w {
            let p = back.apply(lens.undistort([x as f64 + 0.5, y as f64 + 0.5]));
            let inside = p[0] >= 0.0 && p[1] >= 0.0 && p[0] < cw && p[1] < ch;
            img.set(x, y, if inside { bilinear(card, p[0], p[1]) } else { [205, 204, 200] });
        }
    }
    img
}

/// The integral is a local of adaptive_black_mask: its loop, as it stands there.
pub fn integral_of(luma: &[f32], w: usize, h: usize) -> Vec<f64> {
    let mut integral = vec![0f64; (w + 1) * (h + 1)];
    for y in 0..h {
        let mut row = 0f64;
        for x in 0..w {
            row += luma[y * w + x] as f64;
            integral[(y + 1) * (w + 1) + x + 1] = integral[y * (w + 1) + x + 1] + row;
        }
    }
    integral
}
