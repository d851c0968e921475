//! captures SET DIR: small captures as files, with the original's answers. SET is
//!   incident   0.cap: a panel behind a grating, more than 256 patches before the lower right ring's, and the other rings and a
//!              ring-shaped blob of the payload among the first 256; 1.cap: the same without the lower right ring
//!   path       three captures: 0.cap accepted (192,192,1,48), 1.cap refused by 7, 2.cap refused by 9
//!   replay     a sample of every kind; two whose kept trial has cells outside the picture, one with too few cells, and one picture
//!              by a frame with 15 sampled cells and by one with 16; four whose stages try a lens term more than once
//!   all        these three in turn: data/ and stdout of the program crate test_geometry
//!
//! Each capture is DIR/N.cap: six 64-bit words, little-endian (w, h, and the frame's width, height, cell, margin), then its
//! 3·w·h bytes. `captures -j SET FILE` puts the same captures into one file instead: one word, their number, then one after the
//! other. DIR/answers (FILE.answers) has what the original answers, a block a capture:
//!   capture N
//!   sides W H
//!   frame WIDTH HEIGHT CELL MARGIN
//!   refusal NUMBER                     that of rectify: 16 where the fit that it laid the card by has no score; 5 and 6 end the block
//!   mask SUM
//!   patches COUNT SUM                  the sum goes over all records, eight numbers each
//!   waited COUNT                       the most pixels that the stack of label_blobs held
//!   candidates COUNT                   then a line each:
//!   X Y SCORE SIZE PLACE
//!   corners TL TR BR BL                places in the patch list; 7 to 10 end the block before this line. After 16 this and what
//!                                      follows is fit_geometry's, and the last two lines are not there
//!   matrix M0 M1 M2 M3 M4 M5 M6 M7 M8
//!   lens K CX CY NORM
//!   grade scored SCORE                 or `grade outside CELL`, or `grade few`
//!   trials TRIED HOMOGRAPHIES          different lens terms tried, added over the stages, and of them those with a homography
//!   canonical SUM
//!   beyond COUNT                       canonical pixels whose position is not inside the picture
//! Numbers are decimal; a float is its 64 bits as sixteen hexadecimal digits, lower case, every NaN as 7ff8000000000000. A SUM
//! begins as 0 and becomes (SUM · 65599 + number + 1) mod 4294967291 with each byte or number.

use comparison::original::{self, Answer, Grade};
use comparison::{bits, kinds, sampled, Case};
use flatten::Frame;
use scene::{Card, Cells, Grating, Random, Scene};
use std::fmt::Write;
use std::fs;

fn sum(numbers: impl Iterator<Item = u64>) -> u64 {
    numbers.fold(0, |s, n| (s * 65599 + n + 1) % 4294967291)
}

fn floats(l: &[f64]) -> String {
    l.iter().map(|&x| format!("{:016x}", bits(x))).collect::<Vec<_>>().join(" ")
}

fn answer(n: usize, c: &Case) -> String {
    let a = original::answer(c);
    let number = a.rectify_number();
    let mut o = String::new();
    let f = c.frame;
    let _ = writeln!(o, "capture {n}\nsides {} {}\nframe {} {} {} {}\nrefusal {}", c.w, c.h, f.width, f.height, f.cell, f.margin, number);
    if let Some(l) = a.look {
        let _ = writeln!(o, "mask {}", sum(l.mask.iter().map(|&b| b as u64)));
        let _ = writeln!(o, "patches {} {}", l.patches.len(), sum(l.patches.iter().flatten().copied()));
        let _ = writeln!(o, "waited {}", l.waited);
        let _ = writeln!(o, "candidates {}", l.candidates.len());
        for (c, place) in l.candidates.iter().zip(&l.places) {
            let _ = writeln!(o, "{} {place}", floats(c));
        }
    }
    if let (Some(found), Some(flat)) = (a.found, a.flat) {
        let [tl, tr, br, bl] = found.corners;
        let _ = writeln!(o, "corners {tl} {tr} {br} {bl}\nmatrix {}\nlens {}", floats(&flat.fit[..9]), floats(&flat.fit[9..]));
        let _ = match flat.grade {
            Grade::Score(s) => writeln!(o, "grade scored {}", floats(&[s])),
            Grade::Outside(cell) => writeln!(o, "grade outside {cell}"),
            Grade::TooFew => writeln!(o, "grade few"),
        };
        let _ = writeln!(o, "trials {} {}", flat.trials, flat.homographies);
        if number == 0 {
            let _ = writeln!(o, "canonical {}\nbeyond {}", sum(flat.canonical.iter().map(|&b| b as u64)), flat.beyond);
        }
    }
    o
}

fn cap(c: &Case) -> Vec<u8> {
    let f = c.frame;
    let head = [c.w, c.h, f.width, f.height, f.cell, f.margin];
    head.iter().flat_map(|&n| (n as u64).to_le_bytes()).chain(c.data.iter().copied()).collect()
}

/// The first seed whose grating gives the incident: a list for 256 patches has all candidates but the lower right ring, and then
/// the payload's blob is accepted in its corner, as in the capture without that ring.
fn incident() -> Vec<Case> {
    for seed in 1.. {
        let (whole, without) = (kinds::incident(seed, true), kinds::incident(seed, false));
        let (a, b) = (original::answer(&whole), original::answer(&without));
        let (Some(look), Some(found), Some(other)) = (&a.look, &a.found, &b.found) else { continue };
        let late: Vec<usize> = look.places.iter().copied().filter(|&p| p > 256).collect();
        let taken = other.points[2][0] < found.points[2][0] - 20.0;
        if a.number == 0 && b.number == 0 && late == [found.corners[2]] && look.places.len() == 5 && taken {
            eprintln!("incident: seed {seed}, {} patches, lower right ring at place {}", look.patches.len(), found.corners[2]);
            return vec![whole, without];
        }
    }
    unreachable!()
}

/// The first capture of a kind, from a seed on, with an answer that is wanted, no side longer than `longest`.
fn first_with(kind: fn(&mut Random) -> Case, wanted: impl Fn(&Case, &Answer) -> bool, longest: usize, seed: &mut u64) -> Case {
    loop {
        *seed += 1;
        let c = kind(&mut Random::new(*seed));
        if c.w.max(c.h) <= longest && wanted(&c, &original::answer(&c)) {
            return c;
        }
    }
}

/// .. that `rectify` answers with a number.
fn first(kind: fn(&mut Random) -> Case, number: u32, longest: usize, seed: &mut u64) -> Case {
    first_with(kind, |_, a| a.rectify_number() == number, longest, seed)
}

fn too_few(a: &Answer) -> bool {
    a.flat.as_ref().is_some_and(|flat| flat.grade == Grade::TooFew)
}

/// The same picture by a frame of twelve by twelve cells, of which 16 are sampled.
fn sixteen(c: &Case) -> Case {
    let Frame { cell, margin, .. } = c.frame;
    let side = 2 * margin + 12 * cell;
    Case { frame: Frame { width: side, height: side, cell, margin }, ..c.clone() }
}

/// The first cell outside of the kept trial, where it is neither the first by column, nor the last, nor cell 0.
fn first_outside(c: &Case, a: &Answer) -> Option<[usize; 2]> {
    let flat = a.flat.as_ref()?;
    let cells = original::cells_outside(&original::spec(c.frame), &original::fit(&flat.fit), c.w, c.h);
    let first = *cells.first()?;
    (Some(&first) != cells.iter().min() && Some(&first) != cells.last() && first != [0, 0]).then_some(first)
}

/// A card with wide markers in a picture of 64 to 100 pixels a side.
fn scene_of(r: &mut Random) -> Scene {
    let margin = r.one_of(&[60, 80, 100]);
    let f = scene::Frame { width: 4 * margin + r.below(20), height: 4 * margin + r.below(20), cell: r.between(3, 9), margin };
    let card = Card::new(f, Cells::Mixed(scene::FOUR, r.bits()));
    let (w, h) = (r.between(72, 100), r.between(72, 100));
    let mut s = Scene::straight(w, h, card, 0.96).shaken(r, 1.0);
    s.noise = r.one_of(&[0.0, 3.0]);
    s.seed = r.bits();
    s
}

fn case(s: Scene) -> Case {
    Case { w: s.w, h: s.h, frame: kinds::frame(s.card.frame), data: s.take() }
}

/// The smallest frame that has room for markers, in at most 88 by 88.
fn pocket(r: &mut Random) -> Case {
    let card = Card::new(scene::Frame::SMALL, Cells::Mixed(scene::FOUR, r.bits()));
    let mut s = Scene::straight(88, r.between(84, 88), card, 0.98).shaken(r, 1.0);
    s.k = r.within(-0.1, 0.1);
    s.samples = 2;
    case(s)
}

fn lens(r: &mut Random) -> Case {
    let mut s = scene_of(r);
    s.k = r.within(-0.3, 0.3);
    case(s)
}

/// A lens term near the end of those that are tried.
fn lens_at_the_end(r: &mut Random) -> Case {
    let mut s = scene_of(r);
    s.k = r.one_of(&[-1.0, 1.0]) * r.within(0.18, 0.21);
    case(s)
}

fn outside(r: &mut Random) -> Case {
    let (dx, dy) = (r.within(-12.0, 12.0), r.within(-12.0, 12.0));
    case(scene_of(r).moved(dx, dy))
}

fn grating(r: &mut Random) -> Case {
    let mut s = scene_of(r);
    s.card.cells = Cells::Flat([90.0; 3]);
    s.card.margin = [60.0; 3];
    s.grating = Some(Grating { pitch: [r.within(3.5, 5.0); 2], bar: 2.0, turn: r.within(0.0, 0.3), light: 45.0, top: 0.0 });
    case(s)
}

fn noise(r: &mut Random) -> Case {
    let mut c = case(scene_of(r));
    for v in &mut c.data {
        if r.chance(0.04) {
            *v = r.bits() as u8;
        }
    }
    c
}

/// Cells of 9 to 14 pixels and more, as the larger markers have.
fn odd_frame(r: &mut Random) -> Case {
    let mut s = scene_of(r);
    let cell = r.one_of(&[10, 11, 12, 13, 14, 25]);
    let margin = r.between(70, 128);
    s.card.frame = scene::Frame { width: 4 * margin + r.below(60), height: 4 * margin + r.below(60), cell, margin };
    let (w, h, card) = (s.w, s.h, s.card);
    case(Scene::straight(w, h, card, 0.96))
}

fn no_room(r: &mut Random) -> Case {
    let mut c = case(scene_of(r));
    match r.below(3) {
        0 => c.frame.margin = r.between(0, 47),
        1 => c.frame.width = 4 * c.frame.margin - 1,
        _ => c.frame.height = r.between(1, 4 * c.frame.margin - 1),
    }
    c
}

fn path() -> Vec<Case> {
    let mut seed = 0;
    vec![first(pocket, 0, 88, &mut seed), first(kinds::small, 7, 80, &mut seed), first(kinds::ties, 9, 120, &mut seed)]
}

/// Kind, number, longest side, how many.
type Wanted = (fn(&mut Random) -> Case, u32, usize, usize);

/// Accepted after each number of trials below 78 that a seed gives soon; with the fewest, 61, where 0.20 is kept.
fn repeated_terms(seed: &mut u64) -> Vec<Case> {
    let wanted = |trials: u64| {
        move |_: &Case, a: &Answer| {
            let kept = |k: f64| trials > 61 || k == 0.2;
            a.rectify_number() == 0 && a.flat.as_ref().is_some_and(|flat| flat.trials == trials && kept(flat.fit[9]))
        }
    };
    [61, 67, 68, 77].map(|trials| first_with(lens_at_the_end, wanted(trials), 88, seed)).into()
}

fn replay() -> Vec<Case> {
    let mut seed = 1000;
    let mut out = Vec::new();
    let wanted: &[Wanted] = &[
        (pocket, 0, 88, 3),
        (case_of, 0, 100, 3),
        (lens, 0, 100, 4),
        (outside, 0, 100, 2),
        (grating, 0, 100, 3),
        (noise, 0, 100, 2),
        (odd_frame, 0, 100, 4),
        (kinds::ties, 0, 130, 3),
        (kinds::few_cells, 0, 200, 3),
        (no_room, 5, 100, 3),
        (kinds::small, 6, 60, 2),
        (kinds::noise, 6, 60, 1),
        (pocket, 7, 88, 1),
        (lens, 7, 100, 1),
        (outside, 7, 100, 2),
        (noise, 7, 100, 1),
        (kinds::noise, 7, 60, 2),
        (kinds::degenerate, 7, 80, 4),
        (kinds::ties, 8, 120, 4),
        (kinds::ties, 9, 150, 3),
    ];
    for &(kind, number, longest, count) in wanted {
        for _ in 0..count {
            out.push(first(kind, number, longest, &mut seed));
        }
    }
    let outside = |below: bool| move |c: &Case, a: &Answer| first_outside(c, a).is_some_and(|[_, row]| (row > 0) == below);
    out.extend([false, true].map(|below| first_with(kinds::large_cells, outside(below), 200, &mut seed)));
    out.push(first_with(kinds::large_cells, |_, a| too_few(a), 200, &mut seed));
    // No side of a card is longer than 600.
    let fifteen = |c: &Case, a: &Answer| {
        let small = c.frame.width.max(c.frame.height) <= 600;
        small && sampled(c.frame) == 15 && too_few(a) && original::answer(&sixteen(c)).rectify_number() == 0
    };
    let c = first_with(kinds::few_cells, fifteen, 200, &mut seed);
    out.extend([c.clone(), sixteen(&c)]);
    out.extend(repeated_terms(&mut seed));
    out
}

fn case_of(r: &mut Random) -> Case {
    case(scene_of(r))
}

fn main() -> std::io::Result<()> {
    let args: Vec<String> = std::env::args().skip(1).collect();
    let (joined, set, target) = match &args.iter().map(String::as_str).collect::<Vec<_>>()[..] {
        ["-j", set, target] => (true, set.to_string(), target.to_string()),
        [set, target] => (false, set.to_string(), target.to_string()),
        _ => usage(),
    };
    let cases = match set.as_str() {
        "incident" => incident(),
        "path" => path(),
        "replay" => replay(),
        "all" => [incident(), path(), replay()].concat(),
        _ => usage(),
    };
    let answers: String = cases.iter().enumerate().map(|(n, c)| answer(n, c)).collect();
    if joined {
        let mut all = (cases.len() as u64).to_le_bytes().to_vec();
        cases.iter().for_each(|c| all.extend(cap(c)));
        fs::write(&target, all)?;
        return fs::write(format!("{target}.answers"), answers);
    }
    fs::create_dir_all(&target)?;
    for (n, c) in cases.iter().enumerate() {
        fs::write(format!("{target}/{n}.cap"), cap(c))?;
    }
    fs::write(format!("{target}/answers"), answers)
}

fn usage() -> ! {
    eprintln!("usage: captures [-j] incident|path|replay|all TARGET");
    std::process::exit(2)
}
