//! The original's answers, with the refusal numbers that docs/REQUIREMENTS.md gives to its `None`s.

use crate::{bits, sampled, Case};
use flatten::{ffi, Frame};
use lpcore::frame::FrameSpec;
use lpcore::geometry as g;
use lpcore::image::RgbImage;
use lpcorepub::geometry as inner;
use vectors::{patches, stages};

/// A patch: the original's numbers and the outline, which it does not have.
pub type Record = [u64; ffi::PATCH_LEN];

pub fn spec(f: Frame) -> FrameSpec {
    FrameSpec { width: f.width, height: f.height, cell: f.cell, margin: f.margin }
}

pub fn image(case: &Case) -> RgbImage {
    RgbImage { w: case.w, h: case.h, data: case.data.clone() }
}

pub fn quad(p: &[f64]) -> [[f64; 2]; 4] {
    [[p[0], p[1]], [p[2], p[3]], [p[4], p[5]], [p[6], p[7]]]
}

pub fn matrix(m: &[f64]) -> g::Homography {
    g::Homography::from_mat([[m[0], m[1], m[2]], [m[3], m[4], m[5]], [m[6], m[7], m[8]]])
}

pub fn lens(l: &[f64]) -> g::Radial {
    g::Radial { k: l[0], cx: l[1], cy: l[2], norm: l[3] }
}

pub fn fit(f: &[f64]) -> g::GeometryFit {
    g::GeometryFit { h: matrix(f), radial: lens(&f[9..]) }
}

pub fn numbers(fit: &g::GeometryFit) -> [f64; 13] {
    let (m, r) = (&fit.h.m, &fit.radial);
    [m[0][0], m[0][1], m[0][2], m[1][0], m[1][1], m[1][2], m[2][0], m[2][1], m[2][2], r.k, r.cx, r.cy, r.norm]
}

/// Planes and lists of a look at the picture.
pub struct Look {
    pub luma: Vec<f32>,
    pub integral: Vec<f64>,
    pub mask: Vec<u8>,
    pub patches: Vec<Record>,
    /// The most pixels that its stack held.
    pub waited: usize,
    /// Centre x, centre y, score, size.
    pub candidates: Vec<[f64; 4]>,
    pub places: Vec<usize>,
}

#[derive(Clone, Copy, Debug, PartialEq)]
pub enum Grade {
    Score(f64),
    /// The first sampled cell by row, then column, with a tap outside: row·cols + column.
    Outside(usize),
    TooFew,
}

pub struct Found {
    pub corners: [usize; 4],
    pub points: [[f64; 2]; 4],
}

pub struct Flat {
    pub fit: [f64; 13],
    pub grade: Grade,
    /// Rust's score: −∞ where unscored.
    pub score: f64,
    /// Different lens terms tried, added over the stages, and of them those with a homography.
    pub trials: u64,
    pub homographies: u64,
    pub canonical: Vec<u8>,
    /// Of the canonical image.
    pub beyond: usize,
}

/// What the original does with a capture inside the limits.
pub struct Answer {
    /// 0 accepted, else 5 to 10: that of `fit_geometry`.
    pub number: u32,
    pub look: Option<Look>,
    pub found: Option<Found>,
    pub flat: Option<Flat>,
}

impl Answer {
    /// The number of `rectify`: 16 where the original lays a card by a fit without a score.
    pub fn rectify_number(&self) -> u32 {
        match &self.flat {
            Some(Flat { grade: Grade::Outside(_) | Grade::TooFew, .. }) => 16,
            _ => self.number,
        }
    }
}

/// The integral image, which the original makes and throws away within its mask.
fn integral(luma: &[f32], w: usize, h: usize) -> Vec<f64> {
    let mut integral = vec![0f64; (w + 1) * (h + 1)];
    for y in 0..h {
        let mut row = 0f64;
        for x in 0..w {
            row += luma[y * w + x] as f64;
            integral[(y + 1) * (w + 1) + x + 1] = integral[y * (w + 1) + x + 1] + row;
        }
    }
    integral
}

/// The picture for the build with public items.
fn inner_image(w: usize, h: usize, data: &[u8]) -> lpcorepub::image::RgbImage {
    lpcorepub::image::RgbImage { w, h, data: data.to_vec() }
}

pub fn luma_plane(w: usize, h: usize, data: &[u8]) -> Vec<f32> {
    inner::luma_plane(&inner_image(w, h, data))
}

/// Any nonzero byte is dark.
fn dark(mask: &[u8]) -> Vec<bool> {
    mask.iter().map(|&b| b != 0).collect()
}

/// The patches of a mask.
pub fn records(mask: &[u8], w: usize, h: usize) -> Vec<Record> {
    patches::records(&dark(mask), w, h)
}

/// The most pixels of a mask that its stack held.
pub fn waited(mask: &[u8], w: usize, h: usize) -> usize {
    patches::waited(&dark(mask), w, h)
}

fn look(case: &Case, img: &RgbImage, marker: f64) -> Look {
    let (w, h) = (case.w, case.h);
    let luma = luma_plane(w, h, &case.data);
    let radius = (marker as usize / 3).clamp(8, w.min(h) / 4);
    let mask = inner::adaptive_black_mask(&luma, w, h, radius, 8.0);
    let blobs = inner::label_blobs(&mask, w, h);
    let candidates: Vec<[f64; 4]> =
        g::fiducial_candidates(img, &spec(case.frame)).iter().map(|c| [c.center[0], c.center[1], c.score, c.size]).collect();
    // The original drops a candidate's place; the ring rule finds it again.
    let max_side = (w.min(h) / 4) as f64;
    let passes = |b: &inner::Blob| {
        let (bw, bh) = ((b.x1 - b.x0 + 1) as f64, (b.y1 - b.y0 + 1) as f64);
        b.area >= 32
            && bw >= 10.0
            && bh >= 10.0
            && bw <= max_side
            && bh <= max_side
            && (0.5..=2.0).contains(&(bw / bh))
            && (0.20..=0.85).contains(&(b.area as f64 / (bw * bh)))
            && inner::verify_bullseye(&mask, &luma, w, h, b) >= inner::VERIFY_THRESHOLD
    };
    let places: Vec<usize> = blobs.iter().enumerate().filter(|(_, b)| passes(b)).map(|(i, _)| i).collect();
    assert_eq!(places.len(), candidates.len(), "this package's ring rule is not the original's");
    Look {
        integral: integral(&luma, w, h),
        mask: mask.iter().map(|&d| d as u8).collect(),
        patches: patches::with_outlines(&blobs, &mask, w, h),
        waited: patches::waited(&mask, w, h),
        luma,
        candidates,
        places,
    }
}

/// Places in the candidate list of the four corners: TL, TR, BR, BL.
fn corners(l: &Look) -> [usize; 4] {
    let first_least = |key: &dyn Fn(&[f64; 4]) -> f64| {
        let mut best = 0;
        for (i, c) in l.candidates.iter().enumerate() {
            if key(c) < key(&l.candidates[best]) {
                best = i;
            }
        }
        best
    };
    [first_least(&|c| c[0] + c[1]), first_least(&|c| -(c[0] - c[1])), first_least(&|c| -(c[0] + c[1])), first_least(&|c| c[0] - c[1])]
}

/// The lens search with counts, which the original does not have: by its parts, and it has to keep the original's fit.
fn searched(case: &Case, f: &lpcorepub::frame::FrameSpec, points: &[[f64; 2]; 4], fit: &[f64; 13]) -> stages::Searched {
    let s = stages::searched(&inner_image(case.w, case.h, &case.data), f, points);
    let kept = s.kept.as_ref().map(|(_, inner::GeometryFit { h, radial })| {
        let radial = g::Radial { k: radial.k, cx: radial.cx, cy: radial.cy, norm: radial.norm };
        numbers(&g::GeometryFit { h: g::Homography::from_mat(h.m), radial }).map(bits)
    });
    assert_eq!(kept, Some(fit.map(bits)), "the search with counts is not the original's");
    s
}

/// A tap of the cell lies outside the picture.
fn outside(f: &FrameSpec, fit: &g::GeometryFit, w: usize, h: usize, [column, row]: [usize; 2]) -> bool {
    let (x0, y0) = f.cell_origin(column, row);
    (0..9).any(|i| {
        let tap = |n: usize, from: usize| from as f64 + inner::TAPS[n] * f.cell as f64;
        let p = fit.map([tap(i % 3, x0), tap(i / 3, y0)]);
        p[0] < 0.0 || p[1] < 0.0 || p[0] >= w as f64 || p[1] >= h as f64
    })
}

/// Column and row of each sampled cell with a tap outside the picture, by row, then column. The original has this test, and
/// gives −∞ without the cell.
pub fn cells_outside(f: &FrameSpec, fit: &g::GeometryFit, w: usize, h: usize) -> Vec<[usize; 2]> {
    let sampled = (0..f.rows()).step_by(3).flat_map(|row| (0..f.cols()).step_by(3).map(move |column| [column, row]));
    sampled.filter(|&cell| outside(f, fit, w, h, cell)).collect()
}

pub fn grade(img: &RgbImage, f: Frame, fit: &g::GeometryFit) -> (Grade, f64) {
    let s = spec(f);
    let score = g::grid_score(img, &s, fit);
    let grade = match cells_outside(&s, fit, img.w, img.h).first() {
        Some([column, row]) => Grade::Outside(row * s.cols() + column),
        None if sampled(f) < 16 => Grade::TooFew,
        None => Grade::Score(score),
    };
    (grade, score)
}

/// x and y at least 0, x below w, y below h, and a NaN is not inside.
pub fn inside([x, y]: [f64; 2], w: usize, h: usize) -> bool {
    x >= 0.0 && y >= 0.0 && x < w as f64 && y < h as f64
}

/// How many pixels of the canonical image have a position that is not inside the picture. The original maps each of them, and
/// counts none.
pub fn beyond(fit: &g::GeometryFit, f: Frame, w: usize, h: usize) -> usize {
    let position = |i: usize| fit.map([(i % f.width) as f64 + 0.5, (i / f.width) as f64 + 0.5]);
    (0..f.width * f.height).filter(|&i| !inside(position(i), w, h)).count()
}

pub fn answer(case: &Case) -> Answer {
    let mut a = Answer { number: 0, look: None, found: None, flat: None };
    let (img, f) = (image(case), spec(case.frame));
    let pub_spec = lpcorepub::frame::FrameSpec { width: f.width, height: f.height, cell: f.cell, margin: f.margin };
    let flat = g::rectify(&img, &f);
    a.number = 'number: {
        let Some((marker, _)) = inner::marker_layout(&pub_spec) else { break 'number 5 };
        if case.w < 32 || case.h < 32 {
            break 'number 6;
        }
        let look = a.look.insert(look(case, &img, marker));
        if look.candidates.len() < 4 {
            break 'number 7;
        }
        let corners = corners(look);
        if (0..4).any(|i| corners[..i].contains(&corners[i])) {
            break 'number 8;
        }
        let Some(points) = g::detect_fiducials(&img, &f) else { break 'number 9 };
        let places = corners.map(|c| look.places[c]);
        a.found = Some(Found { corners: places, points });
        let Some(fit) = g::fit_geometry(&img, &f) else { break 'number 10 };
        let (grade, score) = grade(&img, case.frame, &fit);
        let canonical = flat.as_ref().expect("a fit, and no card").data.clone();
        let (beyond, fit) = (beyond(&fit, case.frame, case.w, case.h), numbers(&fit));
        let stages::Searched { tried: trials, homographies, .. } = searched(case, &pub_spec, &points, &fit);
        a.flat = Some(Flat { fit, grade, score, trials, homographies, canonical, beyond });
        0
    };
    assert_eq!(flat.is_some(), a.number == 0, "this package's numbers are not the original's");
    a
}
