//! Functions of numbers, compared one call at a time; the checkerboard, the candidate page, windows over a patch list, the book of
//! fits and two books joined with definitions of their own (`boards`, `pages`, `windows`, `books`, `merges`). A call is its name and
//! 64-bit words, so that a file can hold it; `luma` has no words, and is compared on every three bytes at once.

use crate::original as o;
use crate::{bits, boards, books, luma, merges, pages, sampled, windows};
use flatten::{ffi, Frame};
use lpcore::geometry as g;
use lpcore::image::RgbImage;
use scene::Random;

/// Name, how many calls for each thousand point sets, and the words of a call.
type Function = (&'static str, usize, fn(&mut Random) -> Vec<u64>);

pub const FUNCTIONS: &[Function] = &[
    ("from_points", 1000, |r| numbers(r, 16)),
    ("inverse", 300, |r| numbers(r, 9)),
    ("mat3_mul", 100, |r| numbers(r, 18)),
    ("apply", 300, |r| numbers(r, 11)),
    ("distort", 300, lens_call),
    ("undistort", 300, lens_call),
    ("radial", 100, |r| vec![side(r) as u64, side(r) as u64, float(r, 2).to_bits()]),
    ("rms_error", 100, |r| numbers(r, 16)),
    ("fit_for", 100, fit_for_call),
    ("marker_centers", 100, |r| frame_words(any_frame(r))),
    ("grid", 100, |r| frame_words(any_frame(r))),
    ("marker_numbers", 5, |r| vec![r.between(1, 512) as u64]),
    ("bilinear", 300, bilinear_call),
    ("grid_score", 10, |r| picture_call(r, true)),
    ("warp_with", 1, |r| picture_call(r, false)),
    ("warp_record", 1, record_call),
    ("stamp_fiducials", 1, stamp_call),
    ("checkerboard", 1, boards::call),
    ("candidate_page", 100, pages::call),
    ("patch_windows", 100, windows::call),
    ("read_book", 100, books::call),
    ("write_book", 100, books::call),
    ("merge_books", 100, merges::call),
];

const SPECIAL: &[f64] = &[
    0.0,
    -0.0,
    1.0,
    -1.0,
    0.5,
    1.5,
    2.5,
    -0.5,
    0.2,
    -0.2,
    1e-12,
    -1e-12,
    9.99e-13,
    1e12,
    4096.0,
    1e154,
    1e308,
    -1e308,
    f64::MIN_POSITIVE,
    5e-324,
    f64::MAX,
    f64::EPSILON,
    9007199254740993.0,
    f64::INFINITY,
    f64::NEG_INFINITY,
    f64::NAN,
];

/// Style 0: places in a picture; 1: small whole numbers; 2: around 0; 3: special; else: any bits.
fn float(r: &mut Random, style: usize) -> f64 {
    match style {
        0 => r.within(0.0, 4096.0),
        1 => r.below(5) as f64,
        2 => r.within(-1.0, 1.0),
        3 => r.one_of(SPECIAL),
        _ => f64::from_bits(r.bits()),
    }
}

/// One style for the call, or one for each number.
fn numbers(r: &mut Random, n: usize) -> Vec<u64> {
    let style = r.below(7);
    (0..n)
        .map(|_| {
            let s = if style >= 5 { r.below(style) } else { style };
            float(r, s).to_bits()
        })
        .collect()
}

fn side(r: &mut Random) -> usize {
    r.one_of(&[1, 2, 31, 32, 60, 80, 720, 1280, 4095, 4096])
}

fn lens_call(r: &mut Random) -> Vec<u64> {
    if r.chance(0.3) {
        return numbers(r, 6);
    }
    let lens = g::Radial::new(side(r), side(r), r.within(-0.25, 0.25));
    let place = r.below(4);
    [lens.k, lens.cx, lens.cy, lens.norm, float(r, place), float(r, place)].map(f64::to_bits).to_vec()
}

fn any_frame(r: &mut Random) -> Frame {
    let small = r.chance(0.5);
    let top = if small { 500 } else { 4096 };
    let margin = if small { r.between(40, 130) } else { r.between(0, 4096) };
    Frame { width: r.between(1, top), height: r.between(1, top), cell: r.between(1, if small { 20 } else { 512 }), margin }
}

fn frame_words(f: Frame) -> Vec<u64> {
    [f.width, f.height, f.cell, f.margin].map(|n| n as u64).to_vec()
}

fn frame(w: &[u64]) -> Frame {
    Frame { width: w[0] as usize, height: w[1] as usize, cell: w[2] as usize, margin: w[3] as usize }
}

fn fit_for_call(r: &mut Random) -> Vec<u64> {
    let f = if r.chance(0.8) { Frame { width: 848, height: 636, cell: 10, margin: 106 } } else { any_frame(r) };
    let mut words = vec![side(r) as u64, side(r) as u64];
    words.extend(frame_words(f));
    words.extend(numbers(r, 8));
    let style = r.one_of(&[2, 2, 3]);
    words.push((float(r, style) * if style == 2 { 0.2 } else { 1.0 }).to_bits());
    words
}

/// An end of a side, what is next to one, and what lies in no side.
fn end(r: &mut Random, side: usize) -> f64 {
    let side = side as f64;
    let (before, past) = (side.next_down(), side.next_up());
    r.one_of(&[-5e-324, -0.0, 0.0, 5e-324, before, side, past, f64::NAN, f64::INFINITY, f64::NEG_INFINITY])
}

fn bilinear_call(r: &mut Random) -> Vec<u64> {
    let (w, h, style) = (r.between(1, 6), r.between(1, 6), r.below(6));
    let mut at = |side: usize| match style {
        _ if r.chance(0.4) => end(r, side),
        5 => r.within(-1.0, 7.0),
        _ => float(r, style),
    };
    let (x, y) = (at(w), at(h));
    vec![w as u64, h as u64, r.bits(), x.to_bits(), y.to_bits()]
}

/// A small picture, a frame and a fit: about the identity, or of any numbers.
fn picture_call(r: &mut Random, cells: bool) -> Vec<u64> {
    let f = if cells {
        Frame { width: r.between(1, 120), height: r.between(1, 120), cell: r.between(1, 20), margin: r.between(0, 20) }
    } else {
        Frame { width: r.between(1, 40), height: r.between(1, 40), cell: r.between(1, 20), margin: r.between(0, 20) }
    };
    let (w, h) = (r.between(1, 130), r.between(1, 130));
    let mut words = vec![w as u64, h as u64, r.bits()];
    words.extend(frame_words(f));
    if r.chance(0.3) {
        words.extend(numbers(r, 13));
    } else {
        let mut fit = [1.0, 0.0, 0.0, 0.0, 1.0, 0.0, 0.0, 0.0, 1.0];
        let off = r.one_of(&[0.0, 0.001, 0.1]);
        for (i, v) in fit.iter_mut().enumerate() {
            let scale = if i >= 6 {
                1e-3
            } else if i % 3 == 2 {
                100.0
            } else {
                1.0
            };
            *v += r.within(-off, off) * scale;
        }
        let lens = g::Radial::new(w, h, r.within(-0.2, 0.2));
        words.extend(fit.iter().chain(&[lens.k, lens.cx, lens.cy, lens.norm]).map(|v| v.to_bits()));
    }
    words
}

/// A call of `warp_with`, by the patterns of its numbers, and a grade: mostly that of a scored record.
fn record_call(r: &mut Random) -> Vec<u64> {
    let mut words = picture_call(r, false);
    words.push(r.one_of(&[0, 0, 0, 0, 1, 2, 3, 256, 1 << 31, u32::MAX as u64]));
    words
}

fn stamp_call(r: &mut Random) -> Vec<u64> {
    let mut words = vec![r.between(1, 400) as u64, r.between(1, 400) as u64, r.bits()];
    let f = any_frame(r);
    let roomy = Frame { margin: f.margin.clamp(48, 130), width: f.width.max(520), height: f.height.max(520), ..f };
    words.extend(frame_words(r.one_of(&[f, roomy, roomy])));
    words
}

fn picture(w: u64, h: u64, seed: u64) -> RgbImage {
    let mut r = Random::new(seed);
    let (w, h) = (w as usize, h as usize);
    let coarse = r.chance(0.5);
    let data = (0..3 * w * h).map(|_| if coarse { r.one_of(&[0, 255]) } else { r.bits() as u8 }).collect();
    RgbImage { w, h, data }
}

fn same(what: &str, ours: &[f64], theirs: &[f64]) -> Result<(), String> {
    match ours.iter().zip(theirs).position(|(a, b)| bits(*a) != bits(*b)) {
        None => Ok(()),
        Some(i) => {
            Err(format!("{what} {i}: {:?} ({:016x}), the original has {:?} ({:016x})", ours[i], bits(ours[i]), theirs[i], bits(theirs[i])))
        }
    }
}

fn numbered(ours: u32, theirs: u32) -> Result<(), String> {
    if ours == theirs {
        Ok(())
    } else {
        Err(format!("refusal {ours}, the original's answer is {theirs}"))
    }
}

/// A result of the original's beside ours: None has a number.
fn optional<const N: usize>(number: u32, ours: [f64; N], theirs: Option<[f64; N]>, refusal: u32) -> Result<(), String> {
    numbered(number, if theirs.is_some() { 0 } else { refusal })?;
    theirs.map_or(Ok(()), |t| same("number", &ours, &t))
}

fn flat(m: &g::Mat3) -> [f64; 9] {
    [m[0][0], m[0][1], m[0][2], m[1][0], m[1][1], m[1][2], m[2][0], m[2][1], m[2][2]]
}

fn eight(q: &[[f64; 2]; 4]) -> [f64; 8] {
    [q[0][0], q[0][1], q[1][0], q[1][1], q[2][0], q[2][1], q[3][0], q[3][1]]
}

/// Makes one call on both sides.
pub fn check(name: &str, w: &[u64]) -> Result<(), String> {
    let x: Vec<f64> = w.iter().map(|&b| f64::from_bits(b)).collect();
    match name {
        "from_points" => {
            let mut m = [0.0; 9];
            let n = ffi::from_points(&x[..8], &x[8..16], &mut m);
            optional(n, m, g::Homography::from_points(&o::quad(&x), &o::quad(&x[8..])).map(|h| flat(&h.m)), 10)
        }
        "inverse" => {
            let mut m = [0.0; 9];
            let n = ffi::inverse(&x, &mut m);
            optional(n, m, o::matrix(&x).inverse().map(|h| flat(&h.m)), 11)
        }
        "mat3_mul" => {
            let mut m = [0.0; 9];
            numbered(ffi::mat3_mul(&x[..9], &x[9..], &mut m), 0)?;
            same("entry", &m, &flat(&g::mat3_mul(&o::matrix(&x).m, &o::matrix(&x[9..]).m)))
        }
        "apply" => {
            let mut p = [0.0; 2];
            numbered(ffi::apply(&x[..9], x[9], x[10], &mut p), 0)?;
            same("coordinate", &p, &o::matrix(&x).apply([x[9], x[10]]))
        }
        "distort" => {
            let mut p = [0.0; 2];
            numbered(ffi::distort(&x[..4], x[4], x[5], &mut p), 0)?;
            same("coordinate", &p, &o::lens(&x).distort([x[4], x[5]]))
        }
        "undistort" => {
            let mut p = [0.0; 2];
            numbered(ffi::undistort(&x[..4], x[4], x[5], &mut p), 0)?;
            same("coordinate", &p, &o::lens(&x).undistort([x[4], x[5]]))
        }
        "radial" => {
            let mut l = [0.0; 4];
            numbered(ffi::radial(w[0] as usize, w[1] as usize, x[2], &mut l), 0)?;
            let r = g::Radial::new(w[0] as usize, w[1] as usize, x[2]);
            same("number", &l, &[r.k, r.cx, r.cy, r.norm])
        }
        "rms_error" => {
            let mut e = [0.0];
            numbered(ffi::rms_error(&x[..8], &x[8..], &mut e), 0)?;
            // powi(2) means the value times itself.
            let (a, b) = (o::quad(&x), o::quad(&x[8..]));
            let squares = (0..4).map(|i| {
                let (dx, dy) = (a[i][0] - b[i][0], a[i][1] - b[i][1]);
                dx * dx + dy * dy
            });
            same("error", &e, &[(squares.fold(0.0, |s, v| s + v) / 4.0f64).sqrt()])?;
            same("error against powi", &e, &[g::rms_error(&a, &b)])
        }
        "fit_for" => {
            let (f, points) = (frame(&w[2..]), &x[6..14]);
            let mut fit = [0.0; 13];
            let n = ffi::fit_for(w[0] as usize, w[1] as usize, f, points, x[14], &mut fit);
            let img = RgbImage { w: w[0] as usize, h: w[1] as usize, data: Vec::new() };
            let none = if g::marker_centers(&o::spec(f)).is_none() { 5 } else { 10 };
            optional(n, fit, g::fit_for(&img, &o::spec(f), &o::quad(points), x[14]).map(|t| o::numbers(&t)), none)
        }
        "marker_centers" => {
            let mut p = [0.0; 8];
            let n = ffi::marker_centers(frame(w), &mut p);
            optional(n, p, g::marker_centers(&o::spec(frame(w))).map(|q| eight(&q)), 5)
        }
        "grid" => {
            let (mut n, s) = ([0; 2], o::spec(frame(w)));
            numbered(ffi::grid(frame(w), &mut n), 0)?;
            same("number", &n.map(|v| v as f64), &[s.cols() as f64, s.rows() as f64])
        }
        "marker_numbers" => {
            let (mut n, cell) = ([0; 3], w[0] as usize);
            numbered(ffi::marker_numbers(cell, &mut n), 0)?;
            let theirs = [g::marker_size(cell), g::quiet_zone(cell), g::margin_for(cell)];
            same("number", &n.map(|v| v as f64), &theirs.map(|v| v as f64))
        }
        "bilinear" => {
            let (img, mut c) = (picture(w[0], w[1], w[2]), [77; ffi::COLOUR_LEN]);
            numbered(ffi::bilinear(&img.data, img.w, img.h, x[3], x[4], &mut c), 0)?;
            same("channel", &c.map(f64::from)[..3], &g::bilinear(&img, x[3], x[4]).map(f64::from))?;
            same("inside", &[c[3].into()], &[u8::from(o::inside([x[3], x[4]], img.w, img.h)).into()])
        }
        "luma" => luma::check(),
        "grid_score" => grid_score(w, &x),
        "warp_with" => warp(w, &x, None),
        "warp_record" => warp(w, &x, Some(w[20] as u32)),
        "stamp_fiducials" => {
            let (mut img, f) = (picture(w[0], w[1], w[2]), frame(&w[3..]));
            let mut ours = img.data.clone();
            let n = ffi::stamp_fiducials(&mut ours, img.w, img.h, f);
            numbered(n, if g::stamp_fiducials(&mut img, &o::spec(f)) { 0 } else { 5 })?;
            bytes(&ours, &img.data)
        }
        "checkerboard" => boards::check_words(w),
        "candidate_page" => pages::check_words(w),
        "patch_windows" => windows::check_words(w),
        "read_book" => books::check_words(w, true),
        "write_book" => books::check_words(w, false),
        "merge_books" => merges::check_words(w),
        _ => Err("there is no such function".into()),
    }
}

fn bytes(ours: &[u8], theirs: &[u8]) -> Result<(), String> {
    match ours.iter().zip(theirs).position(|(a, b)| a != b) {
        None if ours.len() == theirs.len() => Ok(()),
        None => Err("other lengths".into()),
        Some(i) => Err(format!("byte {i}: {}, the original has {}", ours[i], theirs[i])),
    }
}

/// `warp_with`, or `warp_record` under a grade.
fn warp(w: &[u64], x: &[f64], grade: Option<u32>) -> Result<(), String> {
    let (img, f, fit) = (picture(w[0], w[1], w[2]), frame(&w[3..]), o::fit(&x[7..]));
    let before: Vec<u8> = (0..3 * f.width * f.height).map(|i| i as u8).collect();
    let (mut card, mut beyond) = (before.clone(), [77; ffi::WARPED_LEN]);
    let n = match grade {
        None => ffi::warp_with(&img.data, img.w, img.h, f, &x[7..20], &mut card, &mut beyond),
        Some(grade) => ffi::warp_record(&img.data, img.w, img.h, f, grade, &w[7..20], &mut card, &mut beyond),
    };
    let laid = grade.unwrap_or(0) == 0;
    numbered(n, if laid { 0 } else { 16 })?;
    let count = if laid { o::beyond(&fit, f, img.w, img.h) as f64 } else { 77.0 };
    same("beyond", &[beyond[0] as f64], &[count])?;
    bytes(&card, &if laid { g::warp_with(&img, &o::spec(f), &fit).data } else { before })
}

fn grid_score(w: &[u64], x: &[f64]) -> Result<(), String> {
    let (img, f) = (picture(w[0], w[1], w[2]), frame(&w[3..]));
    let (mut means, mut grade, mut score) = (vec![0.0; sampled(f)], [0; 2], [0.0]);
    numbered(ffi::grid_score(&img.data, img.w, img.h, f, &x[7..20], &mut means, &mut grade, &mut score), 0)?;
    graded(&img, f, &x[7..20], grade, score[0])
}

/// A grade, its cell and its score are the original's.
pub fn graded(img: &RgbImage, f: Frame, fit: &[f64], grade: [u64; 2], score: f64) -> Result<(), String> {
    let (theirs, rust) = o::grade(img, f, &o::fit(fit));
    same("score", &[score], &[rust])?;
    let wanted = match theirs {
        o::Grade::Score(_) => [ffi::SCORED, 0],
        o::Grade::Outside(cell) => [ffi::OUTSIDE, cell as u64],
        o::Grade::TooFew => [ffi::TOO_FEW, 0],
    };
    if grade == wanted {
        Ok(())
    } else {
        Err(format!("grade and cell {grade:?}, the original's are {wanted:?}"))
    }
}
