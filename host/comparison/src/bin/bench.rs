//! bench [RUNS]: the library and the original on the same pictures, thread CPU time in milliseconds.
//!
//! First the bench picture, a row a phase; each figure is the median of RUNS runs (default 21) and, beside it, the least. A phase
//! inside a function is the difference of two public functions, on both sides: planes and ring rule is fiducial_candidates
//! without label_blobs, lens search is fit_geometry without detect_fiducials. Areas are warm: lent again for each run. The row
//! `areas made anew` lends fresh ones each time, as the original makes its own. The ratio, the row's last number, is that of the
//! medians.
//! Then cost against size, and against the number of patches; and 64 rectangles over a patch list in one call against 64 calls with
//! one each, by the number of patches. Those calls are short: beside the patches stands how often a run repeats them, and the
//! figures are for once.

use comparison::clock::cpu_ms;
use comparison::original::{image, numbers, spec};
use comparison::{kinds, Case, Memory};
use flatten::ffi;
use lpcore::geometry as g;
use lpcorepub::geometry as inner;
use scene::Random;
use std::hint::black_box;

/// Keeps a result from being left out.
fn done<T>(result: T) {
    black_box(result);
}

#[derive(Clone, Copy)]
struct Time {
    median: f64,
    least: f64,
}

fn summary(mut times: Vec<f64>) -> Time {
    times.sort_by(f64::total_cmp);
    Time { median: times[times.len() / 2], least: times[0] }
}

/// Both sides in turn, so that a slow spell of the machine hits both.
fn both(runs: usize, mut ours: impl FnMut(), mut theirs: impl FnMut()) -> (Time, Time) {
    let (mut a, mut b) = (Vec::new(), Vec::new());
    ours();
    theirs();
    for _ in 0..runs {
        for (times, f) in [(&mut a, &mut ours as &mut dyn FnMut()), (&mut b, &mut theirs)] {
            let start = cpu_ms();
            f();
            times.push(cpu_ms() - start);
        }
    }
    (summary(a), summary(b))
}

fn less((a, b): (Time, Time), (c, d): (Time, Time)) -> (Time, Time) {
    let minus = |x: Time, y: Time| Time { median: x.median - y.median, least: x.least - y.least };
    (minus(a, c), minus(b, d))
}

fn row(name: &str, times: (Time, Time)) {
    row_with(name, 3, times);
}

/// With so many decimals for the times.
fn row_with(name: &str, places: usize, (a, b): (Time, Time)) {
    let times = [a.median, a.least, b.median, b.least].map(|t| format!("{t:.places$}")).join(" | ");
    println!("| {name} | {times} | {:.2} |", a.median / b.median);
}

fn head(what: &str) {
    println!("| {what} | tablet, median | least | original, median | least | ratio |\n|---|---|---|---|---|---|");
}

fn rectify(c: &Case, m: &mut Memory) -> u32 {
    let (mut counts, mut fit) = ([0; ffi::COUNTS_LEN], [0.0; ffi::SCORED_FIT_LEN]);
    let (mut areas, means, canonical) = m.lend();
    ffi::rectify(&c.data, c.w, c.h, c.frame, &mut areas, means, canonical, &mut counts, &mut fit)
}

fn whole(c: &Case, runs: usize) -> (Time, Time) {
    let (img, f) = (image(c), spec(c.frame));
    let mut m = Memory::new(c.w, c.h, c.frame);
    both(runs, || done(rectify(c, &mut m)), || done(g::rectify(&img, &f)))
}

fn phases(c: &Case, runs: usize) {
    let (img, f) = (image(c), spec(c.frame));
    let fit = g::fit_geometry(&img, &f).expect("the bench picture is accepted");
    let fit_numbers = numbers(&fit);
    let mut m = Memory::new(c.w, c.h, c.frame);
    let (mut counts, mut out) = ([0; ffi::COUNTS_LEN], [0.0; ffi::SCORED_FIT_LEN]);
    let (w, h) = (c.w, c.h);

    let look = both(
        runs,
        || done(ffi::fiducial_candidates(&c.data, w, h, c.frame, &mut m.lend().0, &mut counts)),
        || done(g::fiducial_candidates(&img, &f)),
    );
    let mask = m.mask.clone();
    let bools: Vec<bool> = mask.iter().map(|&d| d != 0).collect();
    let label = both(
        runs,
        || done(ffi::label_blobs(&mask, w, h, &mut m.seen, &mut m.waiting, &mut m.patches, &mut counts)),
        || done(inner::label_blobs(&bools, w, h)),
    );
    let detect = both(
        runs,
        || done(ffi::detect_fiducials(&c.data, w, h, c.frame, &mut m.lend().0, &mut counts, &mut out)),
        || done(g::detect_fiducials(&img, &f)),
    );
    let fits = both(
        runs,
        || {
            let (mut areas, means, _) = m.lend();
            done(ffi::fit_geometry(&c.data, w, h, c.frame, &mut areas, means, &mut counts, &mut out))
        },
        || done(g::fit_geometry(&img, &f)),
    );
    let (mut grade, mut score) = ([0; 2], [0.0]);
    let scores = both(
        runs,
        || done(ffi::grid_score(&c.data, w, h, c.frame, &fit_numbers, &mut m.means, &mut grade, &mut score)),
        || done(g::grid_score(&img, &f, &fit)),
    );
    let mut beyond = [0; ffi::WARPED_LEN];
    let warp = both(
        runs,
        || done(ffi::warp_with(&c.data, w, h, c.frame, &fit_numbers, &mut m.canonical, &mut beyond)),
        || done(g::warp_with(&img, &f, &fit)),
    );
    let anew = both(runs, || done(rectify(c, &mut Memory::new(w, h, c.frame))), || done(g::rectify(&img, &f)));

    head("phase");
    row("planes and ring rule", less(look, label));
    row("label_blobs", label);
    row("fiducial_candidates", look);
    row("detect_fiducials", detect);
    row("lens search", less(fits, detect));
    row("grid_score", scores);
    row("fit_geometry", fits);
    row("warp_with", warp);
    row("areas made anew", anew);
    row("rectify", whole(c, runs));
    println!();
}

/// The bench card in a picture of other sides.
fn sized(w: usize, h: usize) -> Case {
    let mut s = scene::bench(1);
    let card = s.card.clone();
    let k = s.k;
    s = scene::Scene::straight(w, h, card, 0.9);
    s.k = k;
    Case { w, h, frame: kinds::frame(s.card.frame), data: s.take() }
}

/// A grating over the bench card: the wider its pitch, the fewer patches.
fn grated(pitch: f64) -> Case {
    let mut s = scene::bench(1);
    s.samples = 1;
    s.noise = 0.0;
    s.card.cells = scene::Cells::Flat([90.0; 3]);
    s.card.margin = [60.0; 3];
    s.grating =
        (pitch > 0.0).then_some(scene::Grating { pitch: [pitch; 2], bar: 2.0f64.max(pitch / 2.0), turn: 0.0, light: 45.0, top: 0.0 });
    Case { w: s.w, h: s.h, frame: kinds::frame(s.card.frame), data: s.take() }
}

/// The patch list that a look at a picture leaves, and how many patches it has.
fn listed(c: &Case) -> (Vec<u64>, usize) {
    let (mut m, mut counts) = (Memory::new(c.w, c.h, c.frame), [0; ffi::LISTED_LEN]);
    let number = ffi::fiducial_candidates(&c.data, c.w, c.h, c.frame, &mut m.lend().0, &mut counts);
    assert_eq!(number, 0, "a look at the grating");
    (m.patches, counts[ffi::PATCHES] as usize)
}

/// Boxes that a finger drags on a picture: 64 of 20 to 300 pixels a side, inside it.
fn dragged(w: usize, h: usize) -> Vec<u64> {
    let mut r = Random::new(11);
    let mut span = |side: usize| {
        let length = r.between(20, 300);
        let start = r.below(side - length + 1);
        [start as u64, (start + length - 1) as u64]
    };
    let one = |_| {
        let ([x0, x1], [y0, y1]) = (span(w), span(h));
        [x0, y0, x1, y1]
    };
    (0..ffi::MOST_WINDOWS).flat_map(one).collect()
}

/// 64 rectangles in one call, and in 64. Short ones are repeated, so that the clock's own time is little beside theirs.
fn windows(c: &Case, runs: usize) {
    let ((patches, n), all) = (listed(c), dragged(c.w, c.h));
    let repeats = (100_000 / n.max(1)).max(1);
    let (mut once, mut each) = (vec![0; ffi::WINDOW_LEN * ffi::MOST_WINDOWS], vec![0; ffi::WINDOW_LEN * ffi::MOST_WINDOWS]);
    let together = || (0..repeats).for_each(|_| done(ffi::patch_windows(&patches, n, &all, ffi::MOST_WINDOWS, &mut once)));
    let alone = || {
        for _ in 0..repeats {
            for (at, answers) in all.chunks_exact(ffi::RECTANGLE_LEN).zip(each.chunks_exact_mut(ffi::WINDOW_LEN)) {
                done(ffi::patch_windows(&patches, n, at, 1, answers));
            }
        }
    };
    let (a, b) = both(runs, together, alone);
    assert!(once == each && once.iter().any(|&answer| answer > 0), "together they are answered as alone");
    let part = |t: Time| Time { median: t.median / repeats as f64, least: t.least / repeats as f64 };
    row_with(&format!("{n} patches, {repeats} a run"), 5, (part(a), part(b)));
}

fn main() {
    let runs = std::env::args().nth(1).map_or(Ok(21), |a| a.parse());
    let Ok(runs @ 1..) = runs else {
        eprintln!("usage: bench [RUNS]");
        std::process::exit(2)
    };
    let bench = scene::bench(1);
    let c = Case { w: bench.w, h: bench.h, frame: kinds::frame(bench.card.frame), data: bench.take() };
    println!("Thread CPU time in ms, {runs} runs.\n");
    phases(&c, runs);

    head("rectify, by size");
    for (w, h) in [(320, 240), (640, 480), (1280, 720), (1920, 1080), (2048, 2048), (4096, 4096)] {
        let c = sized(w, h);
        row(&format!("{w} by {h}"), whole(&c, if w * h > 2_000_000 { runs.min(5) } else { runs }));
    }
    println!();

    head("rectify, by patches");
    for pitch in [0.0, 32.0, 16.0, 8.0, 4.0] {
        let c = grated(pitch);
        row(&format!("{} patches", listed(&c).1), whole(&c, runs));
    }
    println!();

    println!("| windows, by patches | 64 together, median | least | 64 calls, median | least | ratio |\n|---|---|---|---|---|---|");
    for pitch in [0.0, 32.0, 4.0] {
        windows(&grated(pitch), runs);
    }
}
