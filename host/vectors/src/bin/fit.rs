// Vectors for the program crates test_fit (fit_for, grid_score) and test_fit_geometry (fit_geometry): the original's
// own answers, as bit patterns. In host/vectors: `cargo run --release --offline --bin fit` writes stdin and stdout of
// both again.
//
// test_fit: stdin is records of 24 words of 64 bits, lowest byte first: what is asked (0 fit_for, 1 grid_score),
// w, h, the frame's width, height, cell and margin, and then for fit_for the four points and k, for grid_score the
// matrix, the lens (k, cx, cy, norm), how many bytes of the capture are lent and how many means. A record that begins
// with 2 has in its second word how many bytes stand behind it: the capture from then on. stdout has the answers' words, one a line, in hexadecimal: the refusal's number, or 0
// and, for fit_for, matrix and lens; for grid_score the original's float, then 0 for a score, 1 for outside with the
// cell, 2 for too few cells.
//
// test_fit_geometry: stdin is records of 8 words (w, h, the frame, the capture's length in bytes, the length of the area of
// means) with the capture behind them. stdout has the refusal's number; after 7 the numbers of patches and candidates;
// after 0 those, then the four places in the patch list, matrix, lens, the kept trial's score and grade as for grid_score,
// and the counts of trials and of homographies, by `vectors::stages`. Every NaN is written as one. The original has no refusal
// numbers: they are those of docs/REQUIREMENTS.md, 2.
use lpcorepub::frame::FrameSpec;
use lpcorepub::geometry::{
    adaptive_black_mask, detect_fiducials, fiducial_candidates, fit_for, fit_geometry, grid_score, label_blobs, luma_plane, marker_layout,
    GeometryFit, Homography, Radial, TAPS,
};
use lpcorepub::image::RgbImage;
use vectors::pictures::{card, cells_outside, frame, frame_held, frame_words, noise, outside, photograph, put_fit, sampled, taps_outside};
use vectors::stages::searched;
use vectors::{Random, Vectors};

// ---- test_fit

fn ask_fit_for(v: &mut Vectors, w: usize, h: usize, f: &FrameSpec, points: &[[f64; 2]; 4], k: f64) {
    let mut words = vec![0, w as u64, h as u64];
    words.extend(frame_words(f));
    words.extend(points.iter().flatten().map(|x| x.to_bits()));
    words.push(k.to_bits());
    v.ask(&words, 24);
    if !frame_held(f) {
        return v.word(1);
    }
    if !(1..=4096).contains(&w) || !(1..=4096).contains(&h) {
        return v.word(2);
    }
    if marker_layout(f).is_none() {
        return v.word(5);
    }
    match fit_for(&RgbImage::new(w, h), f, points, k) {
        None => v.word(10),
        Some(fit) => {
            v.word(0);
            put_fit(v, &fit);
        }
    }
}

fn ask_grid_score(v: &mut Vectors, img: &RgbImage, f: &FrameSpec, fit: &GeometryFit, means: usize) {
    let mut words = vec![1, img.w as u64, img.h as u64];
    words.extend(frame_words(f));
    words.extend(fit.h.m.iter().flatten().map(|x| x.to_bits()));
    words.extend([fit.radial.k, fit.radial.cx, fit.radial.cy, fit.radial.norm].map(f64::to_bits));
    words.push(img.data.len() as u64);
    words.push(means as u64);
    v.ask(&words, 24);
    if !frame_held(f) {
        return v.word(1);
    }
    if img.w < 1 || img.h < 1 || img.data.len() != 3 * img.w * img.h {
        return v.word(2);
    }
    if means < sampled(f) {
        return v.word(3);
    }
    v.word(0);
    let score = grid_score(img, f, fit);
    v.float(score);
    put_grade(v, img, f, fit, score);
}

// 0 for a score, 1 for outside with the cell, 2 for too few cells.
fn put_grade(v: &mut Vectors, img: &RgbImage, f: &FrameSpec, fit: &GeometryFit, score: f64) {
    match outside(img, f, fit) {
        Some(cell) => {
            assert!(score == f64::NEG_INFINITY);
            v.word(1);
            v.word(cell as u64);
        }
        None => v.word(if sampled(f) < 16 { 2 } else { 0 }),
    }
}

fn scaled(sx: f64, sy: f64, dx: f64, dy: f64) -> Homography {
    Homography::from_mat([[sx, 0.0, dx], [0.0, sy, dy], [0.0, 0.0, 1.0]])
}

// Which cell is named, where another way to go through the cells, or to count them, names another one.
fn name_cells(v: &mut Vectors, picture: &RgbImage) {
    let affine = |x: [f64; 3], y: [f64; 3]| GeometryFit {
        h: Homography::from_mat([x, y, [0.0, 0.0, 1.0]]),
        radial: Radial::new(picture.w, picture.h, 0.0),
    };
    // columns in no multiple of 3, and not as many as rows
    let (wide, tall) = (frame(47, 39, 4, 2), frame(39, 47, 4, 2));
    assert!((wide.cols(), wide.rows()) == (10, 8) && (tall.cols(), tall.rows()) == (8, 10));
    let mut name = |f: &FrameSpec, fit: GeometryFit, first: [usize; 2], others: &[[usize; 2]]| {
        let cells = cells_outside(picture, f, &fit);
        assert!(cells[0] == first && others.iter().all(|cell| cells[1..].contains(cell)), "{cells:?}");
        ask_grid_score(v, picture, f, &fit, sampled(f));
    };
    let upright = [0.0, 1.0, 0.0];
    // off to the right above, and to the left below: the first by column is another, and so is the last
    name(&wide, affine([1.0, -0.6, 12.0], upright), [9, 0], &[[0, 6]]);
    name(&tall, affine([1.2, -0.6, 18.0], [0.0, 0.8, 0.0]), [6, 0], &[[0, 9]]);
    // off to the right below: a row and a column that are not the first
    name(&wide, affine([1.0, 0.6, 0.0], upright), [9, 3], &[[9, 6]]);
    name(&tall, affine([1.4, 0.4, 0.0], [0.0, 0.8, 0.0]), [6, 6], &[[6, 9]]);
    // of the first cell only a later tap, of another one its first tap
    for (shift, tap) in [(9.5, 2), (10.2, 1)] {
        let fit = affine([1.0, -0.6, shift], upright);
        assert!(taps_outside(picture, &wide, &fit, [9, 0])[0] == tap && taps_outside(picture, &wide, &fit, [0, 6])[0] == 0);
        name(&wide, fit, [9, 0], &[[0, 6]]);
    }
    // a NaN in one coordinate, and the other outside
    name(&wide, affine([f64::NAN, 0.0, 0.0], [0.3, 1.0, 2.0]), [9, 6], &[]);
    name(&wide, affine([1.0, 0.6, 0.0], [f64::NAN, 1.0, 0.0]), [9, 3], &[[9, 6]]);
}

fn before(x: f64) -> f64 {
    f64::from_bits(x.to_bits() - 1)
}

// A NaN in one coordinate beside each edge of the other, which the last taps just do not cross, and just do; and in both.
fn nan_beside_edges(v: &mut Vectors, picture: &RgbImage, f: &FrameSpec) {
    const NAN: [f64; 3] = [0.0, 0.0, f64::NAN];
    let mut ask = |x: [f64; 3], y: [f64; 3], first: Option<[usize; 2]>| {
        let radial = Radial::new(picture.w, picture.h, 0.0);
        let fit = GeometryFit { h: Homography::from_mat([x, y, [0.0, 0.0, 1.0]]), radial };
        assert_eq!(cells_outside(picture, f, &fit).first(), first.as_ref());
        ask_grid_score(v, picture, f, &fit, sampled(f));
    };
    // slope and shift of a coordinate that falls or rises to an end at the last taps, and whether it is outside there
    let last = f.cell_origin(9, 9).0 as f64 + TAPS[2] * f.cell as f64;
    let ends = |side: f64| {
        let each = [(-1.0, 0.0, false), (-1.0, before(last) - last, true), (1.0, before(side), false), (1.0, side, true)];
        each.map(|(slope, end, crossed)| {
            let shift = end - slope * last;
            assert_eq!(slope * last + shift, end);
            (slope, shift, crossed)
        })
    };
    for (slope, shift, crossed) in ends(picture.h as f64) {
        ask(NAN, [0.0, slope, shift], crossed.then_some([0, 9]));
    }
    for (slope, shift, crossed) in ends(picture.w as f64) {
        ask([slope, 0.0, shift], NAN, crossed.then_some([9, 0]));
    }
    ask(NAN, NAN, None);
}

fn grid_vectors() -> Vectors {
    let mut v = Vectors::default();
    let mut rng = Random(8);
    let square = [[10.0, 9.0], [180.0, 12.0], [190.0, 170.0], [8.0, 175.0]];
    let small = frame(192, 192, 1, 48);
    for k in [0.0, -0.2, 0.2, 0.013, f64::NAN, f64::INFINITY] {
        ask_fit_for(&mut v, 200, 190, &small, &square, k);
    }
    // four points (0, 0) with k = 0 give 10; three on a line
    ask_fit_for(&mut v, 200, 200, &small, &[[0.0; 2]; 4], 0.0);
    ask_fit_for(&mut v, 200, 200, &small, &[[0.0, 0.0], [5.0, 5.0], [9.0, 9.0], [0.0, 7.0]], 0.0);
    for _ in 0..20 {
        let (w, h) = (1 + (rng.next() % 400) as usize, 1 + (rng.next() % 400) as usize);
        let points = [0; 4].map(|_| [rng.between(-20.0, 420.0), rng.between(-20.0, 420.0)]);
        ask_fit_for(&mut v, w, h, &frame(224, 230, 12, 56), &points, rng.between(-0.2, 0.2));
    }
    // refusals, the lowest number first
    ask_fit_for(&mut v, 0, 200, &frame(192, 192, 0, 48), &square, 0.0);
    ask_fit_for(&mut v, 0, 200, &frame(192, 192, 1, 47), &square, 0.0);
    ask_fit_for(&mut v, 200, 4097, &small, &square, 0.0);
    ask_fit_for(&mut v, 200, 200, &frame(192, 192, 1, 47), &[[0.0; 2]; 4], 0.0);
    ask_fit_for(&mut v, 200, 200, &frame(191, 192, 1, 48), &square, 0.0);

    let at = |h: Homography, k: f64| GeometryFit { h, radial: Radial::new(48, 40, k) };
    let picture = noise(48, 40, &mut rng);
    v.ask(&[2, picture.data.len() as u64], 24);
    v.input.extend(&picture.data);
    let sixteen = frame(36, 36, 3, 0);
    let fifteen = frame(39, 27, 3, 0);
    for k in [0.0, 0.05, -0.05, 0.2] {
        for f in [&sixteen, &fifteen, &frame(47, 39, 2, 1), &frame(40, 40, 1, 2), &frame(40, 36, 7, 20)] {
            for h in [
                scaled(1.0, 1.0, 0.0, 0.0),
                scaled(1.1, 0.9, 0.4, 1.3),
                scaled(1.25, 1.2, 0.0, 0.0),
                scaled(1.0, 1.0, -4.5, 2.0),
                scaled(-1.0, -1.0, 40.0, 38.0),
                Homography::from_mat([[0.9, 0.05, 2.0], [-0.03, 0.8, 3.0], [0.001, -0.002, 1.0]]),
            ] {
                ask_grid_score(&mut v, &picture, f, &at(h, k), sampled(f) + 3);
            }
        }
    }
    // a NaN coordinate is not outside, and is read as black; the other coordinate is still tested
    for h in [
        scaled(f64::NAN, 1.0, 0.0, 0.0),
        scaled(f64::NAN, f64::NAN, 0.0, 0.0),
        scaled(f64::NAN, 1.0, 0.0, 30.0),
        scaled(1.0, f64::NAN, 0.0, 0.0),
    ] {
        ask_grid_score(&mut v, &picture, &sixteen, &at(h, 0.0), 16);
        ask_grid_score(&mut v, &picture, &sixteen, &at(h, 0.1), 16);
    }
    name_cells(&mut v, &picture);
    let identity = at(scaled(1.0, 1.0, 0.0, 0.0), 0.0);
    // refusals
    ask_grid_score(&mut v, &picture, &frame(36, 36, 513, 0), &identity, 0);
    ask_grid_score(&mut v, &picture, &sixteen, &identity, 15);
    let mut short = picture.clone();
    short.data.pop();
    ask_grid_score(&mut v, &short, &sixteen, &identity, 0);
    let empty = RgbImage { w: 0, h: 40, data: vec![] };
    ask_grid_score(&mut v, &empty, &sixteen, &identity, 0);
    nan_beside_edges(&mut v, &picture, &sixteen);
    v
}

// ---- test_fit_geometry

// Trials and homographies; the search by the original's parts ends where fit_geometry does.
fn counts(img: &RgbImage, f: &FrameSpec) -> [u64; 2] {
    let s = searched(img, f, &detect_fiducials(img, f).unwrap());
    let (_, fit) = s.kept.unwrap();
    assert!(fit.radial.k.to_bits() == fit_geometry(img, f).unwrap().radial.k.to_bits());
    [s.tried, s.homographies]
}

fn ask_fit_geometry(v: &mut Vectors, name: &str, img: &RgbImage, f: &FrameSpec, means: usize) {
    let mut words = vec![img.w as u64, img.h as u64];
    words.extend(frame_words(f));
    words.push(img.data.len() as u64);
    words.push(means as u64);
    v.ask(&words, 8);
    v.input.extend(&img.data);
    if !frame_held(f) {
        return v.word(1);
    }
    if img.w < 1 || img.h < 1 || img.data.len() != 3 * img.w * img.h {
        return v.word(2);
    }
    if means < sampled(f) {
        return v.word(3);
    }
    let Some((marker, _)) = marker_layout(f) else {
        return v.word(5);
    };
    if img.w < 32 || img.h < 32 {
        return v.word(6);
    }
    let luma = luma_plane(img);
    let radius = (marker as usize / 3).clamp(8, img.w.min(img.h) / 4);
    let mask = adaptive_black_mask(&luma, img.w, img.h, radius, 8.0);
    let blobs = label_blobs(&mask, img.w, img.h);
    let candidates = fiducial_candidates(img, f);
    if candidates.len() < 4 {
        println!("{name}: {} patches, {} candidates: 7", blobs.len(), candidates.len());
        v.word(7);
        v.word(blobs.len() as u64);
        return v.word(candidates.len() as u64);
    }
    let fit = fit_geometry(img, f).unwrap();
    let score = grid_score(img, f, &fit);
    println!("{name}: {} patches, {} candidates, k {}, score {score}", blobs.len(), candidates.len(), fit.radial.k);
    v.word(0);
    v.word(blobs.len() as u64);
    v.word(candidates.len() as u64);
    for p in detect_fiducials(img, f).unwrap() {
        let at = blobs.iter().position(|b| [b.sx / b.area as f64 + 0.5, b.sy / b.area as f64 + 0.5] == p);
        v.word(at.unwrap() as u64);
    }
    put_fit(v, &fit);
    v.float(score);
    put_grade(v, img, f, &fit, score);
    for n in counts(img, f) {
        v.word(n);
    }
}

// Lens terms near 0.20, which a stage then tries more than once: it is kept; and the second stage alone goes past it.
fn repeated_terms(v: &mut Vectors) {
    let mut rng = Random(81);
    let f = frame(208, 192, 8, 48);
    let straight = [[4.0, 4.0], [108.0, 4.0], [108.0, 100.0], [4.0, 100.0]];
    for (name, k, tried) in [("keeps 0.20", 0.22, 61), ("second stage past 0.20", 0.195, 77)] {
        let img = photograph(&card(&f, &mut rng), 112, 104, straight, k);
        assert!(counts(&img, &f) == [tried; 2] && (tried == 77 || fit_geometry(&img, &f).unwrap().radial.k == 0.2));
        ask_fit_geometry(v, name, &img, &f, sampled(&f));
    }
}

fn fit_vectors() -> Vectors {
    let mut v = Vectors::default();
    let mut rng = Random(80);
    let fine = frame(192, 192, 1, 48);
    let coarse = frame(192, 192, 8, 48);
    let few = frame(224, 224, 12, 56);
    let straight = [[4.0, 4.0], [196.0, 4.0], [196.0, 196.0], [4.0, 196.0]];
    let tilted = [[7.0, 5.0], [190.0, 9.0], [194.0, 192.0], [3.0, 188.0]];
    let a = photograph(&card(&coarse, &mut rng), 200, 200, tilted, 0.04);
    ask_fit_geometry(&mut v, "coarse, tilted", &a, &coarse, 16);
    let b = photograph(&card(&coarse, &mut rng), 200, 192, tilted.map(|p| [p[0], p[1] * 0.96]), -0.03);
    ask_fit_geometry(&mut v, "coarse, barrel", &b, &coarse, 20);
    let c = photograph(&card(&fine, &mut rng), 200, 200, straight, 0.0);
    ask_fit_geometry(&mut v, "fine", &c, &fine, 1024);
    // fewer than 16 sampled cells: the first term tried stays
    let d = photograph(&card(&few, &mut rng), 200, 200, straight, 0.0);
    ask_fit_geometry(&mut v, "few cells", &d, &few, 9);
    let e = photograph(&card(&few, &mut rng), 196, 200, tilted, 0.02);
    ask_fit_geometry(&mut v, "few cells, tilted", &e, &few, 9);
    // .. and puts cells off the picture, of which the first by row is neither the first by column nor the last
    let large = frame(366, 394, 31, 56);
    let near = [[-7.0, -7.0], [190.0, -7.0], [190.0, 204.0], [-7.0, 204.0]];
    let g = photograph(&card(&large, &mut rng), 183, 197, near, 0.0);
    let cells = cells_outside(&g, &large, &fit_geometry(&g, &large).unwrap());
    assert!(cells.first() != cells.iter().min() && cells.first() != cells.last(), "{cells:?}");
    ask_fit_geometry(&mut v, "large cells", &g, &large, 9);
    // refusals
    ask_fit_geometry(&mut v, "blank", &RgbImage::new(32, 32), &fine, 1024);
    ask_fit_geometry(&mut v, "small", &RgbImage::new(31, 32), &fine, 1024);
    ask_fit_geometry(&mut v, "no layout", &RgbImage::new(31, 32), &frame(192, 192, 1, 47), 2000);
    ask_fit_geometry(&mut v, "short means", &RgbImage::new(31, 32), &frame(192, 192, 1, 47), 1023);
    let mut long = RgbImage::new(31, 32);
    long.data.push(0);
    ask_fit_geometry(&mut v, "long capture", &long, &fine, 0);
    ask_fit_geometry(&mut v, "cell 0", &long, &frame(192, 192, 0, 48), 0);
    repeated_terms(&mut v);
    v
}

fn main() {
    grid_vectors().write("test_fit");
    fit_vectors().write("test_fit_geometry");
}
