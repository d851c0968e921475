// Vectors for the program crate test_tablet, which calls every exported function by position: the original's answers to
// the same calls, in the program's order. In host/vectors: `cargo run --release --offline --bin tablet` writes stdin and
// stdout again.
//
// stdin is the capture's bytes. stdout has the answers' words, one a line, in hexadecimal: each call's refusal number, and
// then what it wrote; of luma, which is never refused, the pattern. Of the areas some entries are printed, of bytes every
// sixteenth word of eight, of the candidate page, the book of fits, the checkerboard and the answers for rectangles all.
// The number of waiting pixels is the most that the original's stack held, by `vectors::patches`. The smallest lengths are
// those of docs/REQUIREMENTS.md, 3.1. The original has no candidate page: its text is made here, from the original's
// candidates. Nor has it a book of fits, whose bytes are made here by to_le_bytes, a checkerboard, which is a formula here,
// or rectangles over a patch list, whose answers are worked out at their place. Pixels beyond the picture's edge are
// counted here, by its `map` and `vectors::inside`, and the outlines of patches by `vectors::patches`.
use lpcorepub::frame::FrameSpec;
use lpcorepub::geometry::{
    adaptive_black_mask, bilinear, detect_fiducials, fiducial_candidates, fit_for, fit_geometry, grid_score, luma_plane, margin_for,
    marker_centers, marker_layout, marker_size, mat3_mul, quiet_zone, rectify, rms_error, stamp_fiducials, warp_with, Candidate,
    GeometryFit, Homography, Radial,
};
use lpcorepub::image::RgbImage;
use vectors::patches::{records, waited, Record, PATCH_LEN};
use vectors::pictures::{card, frame, integral_of, outside, photograph, put_fit, sampled};
use vectors::stages::{searched, Points};
use vectors::{beyond, inside, Random, Vectors};

const W: usize = 128;
const H: usize = 112;

fn words(v: &mut Vectors, numbers: &[usize]) {
    for n in numbers {
        v.word(*n as u64);
    }
}

fn floats(v: &mut Vectors, numbers: &[f64]) {
    for x in numbers {
        v.float(*x);
    }
}

// Every sixteenth word of eight bytes, the lowest byte first.
fn bytes(v: &mut Vectors, b: &[u8]) {
    for chunk in b.chunks_exact(8).step_by(16) {
        v.word(u64::from_le_bytes(chunk.try_into().unwrap()));
    }
}

fn all_bytes(v: &mut Vectors, b: &[u8]) {
    for chunk in b.chunks_exact(8) {
        v.word(u64::from_le_bytes(chunk.try_into().unwrap()));
    }
}

fn point(v: &mut Vectors, p: [f64; 2]) {
    v.word(0);
    floats(v, &p);
}

fn matrix(v: &mut Vectors, h: &Homography) {
    v.word(0);
    floats(v, h.m.as_flattened());
}

// ---- planes and lists of the capture

struct Look {
    luma: Vec<f32>,
    integral: Vec<f64>,
    mask: Vec<u8>,
    patches: Vec<Record>,
    waited: usize,
    candidates: Vec<Candidate>,
    places: Vec<usize>,
}

fn place(patches: &[Record], center: [f64; 2]) -> usize {
    let at = |[area, x, y, ..]: &Record| [x, y].map(|sum| *sum as f64 / *area as f64 + 0.5);
    patches.iter().position(|r| at(r) == center).unwrap()
}

fn look(img: &RgbImage, f: &FrameSpec) -> Look {
    let luma = luma_plane(img);
    let (marker, _) = marker_layout(f).unwrap();
    let radius = (marker as usize / 3).clamp(8, img.w.min(img.h) / 4);
    let dark = adaptive_black_mask(&luma, img.w, img.h, radius, 8.0);
    let (patches, waited) = (records(&dark, img.w, img.h), waited(&dark, img.w, img.h));
    let candidates = fiducial_candidates(img, f);
    let places = candidates.iter().map(|c| place(&patches, c.center)).collect();
    let integral = integral_of(&luma, img.w, img.h);
    Look { luma, integral, mask: dark.iter().map(|d| *d as u8).collect(), patches, waited, candidates, places }
}

fn patch(v: &mut Vectors, r: &Record) {
    words(v, &r.map(|n| n as usize));
}

// What the areas hold: entries 1,000 and 1,001 of luma, the last two of the integral, mask and marks, two patches, the
// first four candidates with their places.
fn looked(v: &mut Vectors, l: &Look) {
    for x in &l.luma[1000..1002] {
        v.word(x.to_bits() as u64);
    }
    floats(v, &l.integral[(W + 1) * (H + 1) - 2..]);
    bytes(v, &l.mask);
    bytes(v, &l.mask);
    for r in &l.patches[..2] {
        patch(v, r);
    }
    for c in &l.candidates[..4] {
        floats(v, &[c.center[0], c.center[1], c.score, c.size]);
    }
    words(v, &l.places[..4]);
}

fn counted(v: &mut Vectors, l: &Look) {
    words(v, &[l.patches.len(), l.candidates.len(), l.waited]);
}

fn corners(v: &mut Vectors, l: &Look, points: &Points) {
    for p in points {
        v.word(place(&l.patches, *p) as u64);
    }
}

// Grade and cell; the score is put apart.
fn graded(v: &mut Vectors, img: &RgbImage, f: &FrameSpec, fit: &GeometryFit) {
    match outside(img, f, fit) {
        Some(cell) => words(v, &[1, cell]),
        None => words(v, &[if sampled(f) < 16 { 2 } else { 0 }, 0]),
    }
}

// ---- the candidate page

// A number to the right in its columns: the float's exact decimals, of which it has at most 1,074, rounded as text. What is
// cut off begins with 5 or more from a half on, so halves go upward.
fn field(x: f64, columns: usize, places: usize) -> String {
    let exact = format!("{x:.1100}");
    let end = exact.find('.').unwrap() + 1 + places;
    let kept: u64 = exact[..end].replace('.', "").parse().unwrap();
    let units = kept + (exact.as_bytes()[end] >= b'5') as u64;
    let one = 10u64.pow(places as u32);
    format!("{:>columns$}", format!("{}.{:0places$}", units / one, units % one))
}

// Four lines, and the rest of the area as it was.
fn page(v: &mut Vectors, candidates: &[Candidate]) {
    let mut area = String::new();
    for (i, c) in candidates[..4].iter().enumerate() {
        let [x, y] = c.center.map(|x| field(x, 8, 2));
        area += &format!("{:4} {x} {y} {} {}\n", i + 1, field(c.size, 7, 2), field(c.score, 5, 3));
    }
    let mut area = area.into_bytes();
    assert_eq!(area.len(), 4 * 37);
    area.resize(224, 9);
    v.word(0);
    all_bytes(v, &area);
}

// ---- the book of fits

// One record written; and read, the rest of both lists as it was.
fn book(v: &mut Vectors) {
    let head = [7u32, 3, 1];
    let numbers: [u64; 13] = std::array::from_fn(|i| 0x0706_0504_0302_0100 + 0x1010_1010_1010_1010 * i as u64);
    let mut bytes: Vec<u8> = [1, 16, 120, 136].iter().chain(&head).chain(&[0]).flat_map(|n: &u32| n.to_le_bytes()).collect();
    bytes.extend(numbers.iter().flat_map(|n| n.to_le_bytes()));
    assert_eq!(bytes.len(), 136);
    v.word(0);
    all_bytes(v, &bytes);
    v.word(0);
    words(v, &head.map(|n| n as usize));
    words(v, &[9, 9]);
    words(v, &numbers.map(|n| n as usize));
    words(v, &[9, 9]);
}

// ---- the checkerboard

// Of 4 by 9 pixels, and the rest of the area as it was; all of it as it was after a refusal.
fn boards(v: &mut Vectors) {
    let mut mask: Vec<u8> = (0..36u32).map(|i| u8::from((i % 4 + i / 4).is_multiple_of(2))).collect();
    mask.resize(40, 9);
    v.word(0);
    all_bytes(v, &mask);
    for number in [2, 3] {
        v.word(number);
        all_bytes(v, &[9; 40]);
    }
}

// ---- rectangles over a patch list

// Boxes from 1, 2 to 3, 4, from 10, 20 to 18, 25 and from 40, 5 to 41, 6. The rectangle from 3, 4 to 13, 23 touches the first
// two, and the second is nearer: 12·12 + 21·21 and 12·12 + 18·18 between the doubled centres. That from 19, 26 to 27, 29 lies just
// past the second, and nearest to it. Answers behind the second stay, and all of them after a refusal.
fn windows(v: &mut Vectors) {
    v.word(0);
    for number in [2, 0, 1, 0, u64::MAX, 1, 9] {
        v.word(number);
    }
    for number in [3, 17] {
        v.word(number);
        words(v, &[9; 7]);
    }
}

// ---- the calls

// How many pixels of the card are read from beyond the picture's edge.
fn pixels_beyond(img: &RgbImage, f: &FrameSpec, fit: &GeometryFit) -> usize {
    beyond(|p| fit.map(p), [f.width, f.height], [img.w, img.h])
}

// Number, counts, fit with its score: the same for rectify and fit_geometry, but that rectify has one count more.
fn fitted(v: &mut Vectors, img: &RgbImage, f: &FrameSpec, l: &Look, rectified: bool) {
    let points = detect_fiducials(img, f).unwrap();
    let fit = fit_geometry(img, f).unwrap();
    let s = searched(img, f, &points);
    v.word(0);
    counted(v, l);
    corners(v, l, &points);
    words(v, &[s.tried, s.homographies].map(|n| n as usize));
    graded(v, img, f, &fit);
    if rectified {
        words(v, &[pixels_beyond(img, f, &fit)]);
    }
    put_fit(v, &fit);
    v.float(grid_score(img, f, &fit));
    looked(v, l);
}

fn pictures(v: &mut Vectors, img: &RgbImage, f: &FrameSpec) {
    let l = look(img, f);
    let points = detect_fiducials(img, f).unwrap();
    fitted(v, img, f, &l, true);
    bytes(v, &rectify(img, f).unwrap().data);
    fitted(v, img, f, &l, false);

    v.word(0);
    counted(v, &l);
    corners(v, &l, &points);
    floats(v, points.as_flattened());
    looked(v, &l);

    v.word(0);
    counted(v, &l);
    looked(v, &l);

    // the patches of that mask
    words(v, &[0, l.patches.len(), l.waited]);
    bytes(v, &l.mask);
    for r in &l.patches[..2] {
        patch(v, r);
    }

    page(v, &l.candidates);
}

fn scored(v: &mut Vectors, img: &RgbImage, f: &FrameSpec, fit: &GeometryFit) {
    v.word(0);
    graded(v, img, f, fit);
    v.float(grid_score(img, f, fit));
}

// Number, count and card.
fn warped(v: &mut Vectors, img: &RgbImage, f: &FrameSpec, fit: &GeometryFit) {
    words(v, &[0, pixels_beyond(img, f, fit)]);
    bytes(v, &warp_with(img, f, fit).data);
}

// Under the fit, and under NaNs: a black card, of which every pixel counts. Then under a record with that fit, and under one that
// was not scored, which leaves what was there.
fn warps(v: &mut Vectors, img: &RgbImage, f: &FrameSpec, fit: &GeometryFit) {
    const NAN: f64 = f64::NAN;
    warped(v, img, f, fit);
    let none = GeometryFit { h: Homography::from_mat([[NAN; 3]; 3]), radial: Radial { k: NAN, cx: NAN, cy: NAN, norm: NAN } };
    assert!(pixels_beyond(img, f, &none) == f.width * f.height && warp_with(img, f, &none).data.iter().all(|b| *b == 0));
    warped(v, img, f, &none);
    warped(v, img, f, fit);
    words(v, &[16, 9]);
    bytes(v, &vec![5; 3 * f.width * f.height]);
}

fn fits(v: &mut Vectors, img: &RgbImage, f: &FrameSpec, points: &Points) -> GeometryFit {
    let fit = fit_for(img, f, points, 0.015).unwrap();
    v.word(0);
    put_fit(v, &fit);
    scored(v, img, f, &fit);
    let mut m = fit.h.m;
    m[0][2] += 40.0;
    let moved = GeometryFit { h: Homography::from_mat(m), radial: fit.radial };
    assert!(outside(img, f, &moved).is_some_and(|cell| cell > 0));
    scored(v, img, f, &moved);
    warps(v, img, f, &fit);
    v.word(0);
    let [x, y] = [40.25, 71.5];
    let [r, g, b] = bilinear(img, x, y).map(u64::from);
    v.word(r + (g << 8) + (b << 16) + (u64::from(inside([x, y], img.w, img.h)) << 24));
    v.word(luma_plane(&RgbImage { w: 1, h: 1, data: vec![200, 31, 7] })[0].to_bits() as u64);
    fit
}

fn frames(v: &mut Vectors, f: &FrameSpec) {
    let n = W * H;
    v.word(0);
    let (patches, candidates) = (PATCH_LEN * n.div_ceil(2), 4 * (n / 32));
    words(v, &[3 * n, n, (W + 1) * (H + 1), n, n, n, patches, candidates, n / 32, sampled(f), 3 * f.width * f.height]);
    v.word(0);
    words(v, &[f.cols(), f.rows()]);
    v.word(0);
    words(v, &[marker_size(10), quiet_zone(10), margin_for(10)]);
    v.word(0);
    floats(v, marker_centers(f).unwrap().as_flattened());
    let mut img = RgbImage::new(60, 44);
    img.data.fill(7);
    stamp_fiducials(&mut img, f);
    v.word(0);
    bytes(v, &img.data);
}

fn matrices(v: &mut Vectors, f: &FrameSpec, points: &Points, fit: &GeometryFit) {
    let centers = marker_centers(f).unwrap();
    let h = Homography::from_points(&centers, points).unwrap();
    matrix(v, &h);
    matrix(v, &h.inverse().unwrap());
    matrix(v, &Homography::from_mat(mat3_mul(&h.m, &fit.h.m)));
    point(v, h.apply([31.0, 77.5]));
    let lens = Radial::new(W, H, 0.125);
    v.word(0);
    floats(v, &[lens.k, lens.cx, lens.cy, lens.norm]);
    point(v, lens.distort([31.0, 77.5]));
    point(v, lens.undistort([31.0, 77.5]));
    v.word(0);
    v.float(rms_error(&centers, points));
}

fn main() {
    let mut rng = Random(23);
    let f = frame(208, 192, 8, 48);
    let img = photograph(&card(&f, &mut rng), W, H, [[5.0, 4.0], [124.0, 7.0], [121.0, 109.0], [3.0, 105.0]], 0.03);
    let points = detect_fiducials(&img, &f).unwrap();
    let mut v = Vectors::default();
    v.input.extend(&img.data);
    pictures(&mut v, &img, &f);
    let fit = fits(&mut v, &img, &f, &points);
    frames(&mut v, &f);
    matrices(&mut v, &f, &points, &fit);
    book(&mut v);
    boards(&mut v);
    windows(&mut v);
    v.write("test_tablet");
}
