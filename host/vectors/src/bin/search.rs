// Vectors for the program crate test_search: the lens search over four points that are handed in, by the original's
// `fit_for` and `grid_score` in the stage loop of its `fit_geometry`. In host/vectors:
// `cargo run --release --offline --bin search` writes stdin and stdout again.
//
// stdin is records of 16 words of 64 bits, lowest byte first: how many bytes stand behind the record (the capture from
// then on; 0 keeps the one before), how many bytes of the capture are lent, w, h, the frame's width, height, cell and
// margin, and the four points. stdout has the answers' words, one a line, in hexadecimal: 10 where a stage kept none,
// else 0; the counts of trials and of homographies up to there, by `vectors::stages`; after 0 the kept trial's matrix and
// lens, the original's float, and then 0 for a score, 1 for outside with the cell, 2 for too few cells.
use lpcorepub::frame::FrameSpec;
use lpcorepub::geometry::{detect_fiducials, fit_geometry};
use lpcorepub::image::RgbImage;
use vectors::pictures::{card, frame, frame_words, noise, outside, photograph, put_fit, sampled};
use vectors::stages::{searched, Points, Searched};
use vectors::{Random, Vectors};

// The entries of each stage.
const STAGES: [u64; 3] = [41, 21, 16];

// The questions so far, and the capture of the last.
struct Questions {
    v: Vectors,
    lent: Vec<u8>,
}

impl Questions {
    fn ask(&mut self, name: &str, img: &RgbImage, f: &FrameSpec, points: &Points) -> Searched {
        let behind = if self.lent == img.data { 0 } else { img.data.len() };
        let mut words = vec![behind as u64, img.data.len() as u64, img.w as u64, img.h as u64];
        words.extend(frame_words(f));
        words.extend(points.iter().flatten().map(|x| x.to_bits()));
        self.v.ask(&words, 16);
        if behind != 0 {
            self.v.input.extend(&img.data);
            self.lent = img.data.clone();
        }
        let s = searched(img, f, points);
        self.v.word(if s.kept.is_some() { 0 } else { 10 });
        self.v.word(s.tried);
        self.v.word(s.homographies);
        if let Some((score, fit)) = &s.kept {
            put_fit(&mut self.v, fit);
            self.v.float(*score);
            match outside(img, f, fit) {
                Some(cell) => {
                    assert!(*score == f64::NEG_INFINITY);
                    self.v.word(1);
                    self.v.word(cell as u64);
                }
                None => self.v.word(if sampled(f) < 16 { 2 } else { 0 }),
            }
        }
        let kept = s.kept.as_ref().map(|(score, fit)| (fit.radial.k, *score));
        println!("{name}: tried {}, homographies {} of {:?}, kept {kept:?}", s.tried, s.homographies, s.found);
        s
    }
}

// Four points on a line through the middle of a picture: a lens moves them along the line, so that rounding alone
// decides whether a trial has a homography.
fn on_a_line(img: &RgbImage, rng: &mut Random) -> Points {
    let (sin, cos) = rng.between(0.0, 6.3).sin_cos();
    let far = 10f64.powf(rng.between(-1.0, 2.0));
    [0; 4].map(|_| {
        let r = rng.between(-far, far);
        [img.w as f64 / 2.0 + r * cos, img.h as f64 / 2.0 + r * sin]
    })
}

// Points on such lines until one of each kind is found: without homography a whole first stage, a whole third stage,
// some trials of every stage, the first trials of a stage whose kept trial is outside the picture.
fn lines(q: &mut Questions, img: &RgbImage, f: &FrameSpec, rng: &mut Random) {
    let mut left = [2, 3, 3, 2];
    while left != [0; 4] {
        let points = on_a_line(img, rng);
        let s = searched(img, f, &points);
        let some = (0..3).all(|j| s.found.get(j).is_some_and(|n| 0 < *n && *n < STAGES[j]));
        let unscored = s.kept.as_ref().is_some_and(|(score, _)| *score == f64::NEG_INFINITY);
        let kind = match s.found.as_slice() {
            [0] => 0,
            [_, _, 0] => 1,
            _ if some && unscored => 3,
            _ if some => 2,
            _ => continue,
        };
        if 0 < left[kind] {
            left[kind] -= 1;
            q.ask("points on a line", img, f, &points);
        }
    }
}

// Points that a lens with k other than 0 takes to two places: dx from the middle is the same float for all four. So of
// the first stage k = 0 has a homography, reads the left column's stripes and scores most, and none of the second
// stage, where k = 0 is missed by rounding, has one.
fn second_stage_without(q: &mut Questions, f: &FrameSpec) {
    let mut img = RgbImage::new(300, 5);
    img.data.fill(0);
    for y in [1, 3] {
        img.set(0, y, [255, 255, 255]);
    }
    let near = 150.0 * 2f64.powi(-54);
    let (x0, x1) = (0.1 * near, 0.9 * near);
    let s = q.ask("two places", &img, f, &[[x0, 0.0], [x1, 0.0], [x1, 5.0], [x0, 5.0]]);
    assert!(s.found.len() == 2 && 0 < s.found[0] && s.found[1] == 0);
}

// Points on such lines until one of each kind is found, whose stages try the term of an end more than once: each number of
// trials that occurs below 78, the repeated term with and without a homography, refused by 10 too.
fn repeated(q: &mut Questions, img: &RgbImage, f: &FrameSpec, rng: &mut Random) {
    // whether the last stage kept a trial; trials; repeated entries without a homography
    let accepted = [(true, 61, 0), (true, 67, 0), (true, 68, 0), (true, 72, 6), (true, 77, 0), (true, 77, 1)];
    let refused = [(false, 68, 0), (false, 72, 6), (false, 77, 1)];
    let mut left = [&accepted[..], &refused].concat();
    while !left.is_empty() {
        let points = on_a_line(img, rng);
        let s = searched(img, f, &points);
        let entries: u64 = STAGES[..s.found.len()].iter().sum();
        let without = entries - s.tried - (s.found.iter().sum::<u64>() - s.homographies);
        let scored = s.kept.as_ref().is_none_or(|(score, _)| *score > 0.0);
        if let Some(i) = left.iter().position(|kind| scored && *kind == (s.kept.is_some(), s.tried, without)) {
            left.remove(i);
            q.ask("repeated terms", img, f, &points);
        }
    }
}

// A photographed card that keeps −0.20, with a score.
fn kept_at_the_end(q: &mut Questions, rng: &mut Random) {
    let f = frame(208, 192, 8, 48);
    let corners = [[-2.0, -2.0], [122.0, -2.0], [122.0, 114.0], [-2.0, 114.0]];
    let img = photograph(&card(&f, rng), 120, 112, corners, -0.2);
    let s = q.ask("card at the end", &img, &f, &detect_fiducials(&img, &f).unwrap());
    let (score, fit) = s.kept.unwrap();
    assert!(fit.radial.k == -0.2 && score > 0.0 && (s.tried, s.homographies) == (61, 61));
}

// A photographed card: its own corners, where the loop above must end where fit_geometry does, and others.
fn photographed(q: &mut Questions, rng: &mut Random) {
    let f = frame(208, 192, 8, 48);
    let corners = [[5.0, 4.0], [124.0, 7.0], [121.0, 109.0], [3.0, 105.0]];
    let img = photograph(&card(&f, rng), 128, 112, corners, 0.03);
    let own = detect_fiducials(&img, &f).unwrap();
    let (_, fit) = q.ask("card", &img, &f, &own).kept.unwrap();
    let whole = fit_geometry(&img, &f).unwrap();
    assert!(fit.radial.k.to_bits() == whole.radial.k.to_bits() && fit.h.m == whole.h.m);
    q.ask("turned", &img, &f, &[own[1], own[2], own[3], own[0]]);
    q.ask("mirrored", &img, &f, &[own[1], own[0], own[3], own[2]]);
    q.ask("corners for centres", &img, &f, &corners);
    let s = q.ask("outside", &img, &f, &own.map(|p| [p[0] + 60.0, p[1]]));
    assert!(s.kept.unwrap().0 == f64::NEG_INFINITY);
    // fewer than 16 sampled cells: the first term tried stays; the kept place of another frame
    let few = frame(240, 224, 12, 56);
    assert!(sampled(&few) < 16);
    q.ask("too few cells", &img, &few, &own);
    q.ask("another frame", &img, &frame(400, 260, 10, 60), &own);
    // every second point the same; one point not a number
    q.ask("two points", &img, &f, &[own[0], own[1], own[0], own[1]]);
    q.ask("no number", &img, &f, &[own[0], own[1], [f64::NAN, 60.0], own[3]]);
    q.ask("infinite", &img, &f, &[own[0], own[1], [f64::INFINITY, 60.0], own[3]]);
}

fn main() {
    let mut rng = Random(41);
    let mut q = Questions { v: Vectors::default(), lent: vec![] };
    photographed(&mut q, &mut rng);
    let f = frame(224, 200, 8, 48);
    let grey = noise(48, 40, &mut rng);
    for points in [[[0.0; 2]; 4], [[24.0, 20.0]; 4], [[7.0, 9.0]; 4], [[4.0, 20.0], [14.0, 20.0], [30.0, 20.0], [44.0, 20.0]]] {
        let s = q.ask("equal, or level", &grey, &f, &points);
        assert!(s.found == [0]);
    }
    lines(&mut q, &grey, &f, &mut rng);
    second_stage_without(&mut q, &f);
    repeated(&mut q, &grey, &f, &mut rng);
    kept_at_the_end(&mut q, &mut rng);
    q.v.write("test_search");
}
