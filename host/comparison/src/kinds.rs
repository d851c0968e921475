//! Captures of every kind that the comparison looks at, from a seed.

use crate::Case;
use flatten::Frame;
use scene::{Card, Cells, Grating, Random, Ring, Scene, BENCH_CELLS, FOUR};

pub type Kind = (&'static str, fn(&mut Random) -> Case);

/// How often a kind comes is how often it stands here, but for the two rare ones.
pub const KINDS: &[Kind] = &[
    ("bench", bench_half),
    ("grating", grating),
    ("outside", outside),
    ("lens", strong_lens),
    ("small", small),
    ("ties", ties),
    ("degenerate", degenerate),
    ("noise", noise),
    ("odd frame", odd_frame),
    ("few cells", few_cells),
    ("large cells", large_cells),
    ("long", long),
];

/// 1280 by 720.
pub const BENCH: Kind = ("bench 1280x720", bench_full);
/// 4,096 by 4,096.
pub const LARGEST: Kind = ("largest", largest);

pub fn frame(f: scene::Frame) -> Frame {
    Frame { width: f.width, height: f.height, cell: f.cell, margin: f.margin }
}

fn case(s: &Scene) -> Case {
    Case { w: s.w, h: s.h, frame: frame(s.card.frame), data: s.take() }
}

/// Light, noise and samples.
fn taken(mut s: Scene, r: &mut Random) -> Case {
    s.vignette = r.within(0.6, 1.0);
    s.noise = r.one_of(&[0.0, 0.0, 2.0, 8.0, 30.0]);
    s.samples = r.between(1, 2);
    s.seed = r.bits();
    s.behind = r.one_of(&[[70.0, 66.0, 60.0], [0.0; 3], [255.0; 3], [190.0, 200.0, 180.0]]);
    case(&s)
}

pub fn bench_full(r: &mut Random) -> Case {
    case(&scene::bench(r.bits()))
}

pub fn bench_half(r: &mut Random) -> Case {
    let mut s = scene::bench(r.bits());
    s.w /= 2;
    s.h /= 2;
    for p in &mut s.at {
        *p = p.map(|v| v / 2.0);
    }
    case(&s)
}

fn small_frame(r: &mut Random) -> scene::Frame {
    let margin = r.between(48, 60);
    let (width, height) = (r.between(4 * margin, 300), r.between(4 * margin, 300));
    let other = scene::Frame { width, height, cell: r.between(1, 9), margin };
    r.one_of(&[scene::Frame::SMALL, other])
}

fn some_card(r: &mut Random, f: scene::Frame) -> Card {
    let seed = r.bits();
    let cells = match r.below(4) {
        0 => Cells::Flat([r.within(0.0, 255.0); 3]),
        1 => Cells::Mixed(BENCH_CELLS, seed),
        _ => Cells::Mixed(FOUR, seed),
    };
    let mut card = Card::new(f, cells);
    card.margin = [r.one_of(&[0.0, 0.0, 128.0, 255.0]); 3];
    card
}

/// A small card in a picture that its rings are large enough in.
fn some_scene(r: &mut Random) -> Scene {
    let f = small_frame(r);
    let card = some_card(r, f);
    let (w, h) = (r.between(100, 260), r.between(100, 260));
    let (share, turn) = (r.within(0.75, 1.0), r.within(-0.2, 0.2));
    Scene::straight(w, h, card, share).turned(turn).shaken(r, 4.0)
}

/// Hundreds to thousands of patches.
pub fn grating(r: &mut Random) -> Case {
    let f = r.one_of(&[scene::Frame::SMALL, scene::Frame::SMALL, scene::Frame::BENCH]);
    let mut card = Card::new(f, Cells::Flat([r.within(40.0, 150.0); 3]));
    card.margin = [r.within(20.0, 120.0); 3];
    let (at, side) = (f.margin as f64, (f.width - 2 * f.margin) as f64);
    for _ in 0..r.below(3) {
        card.rings.push(Ring { x: at + r.within(0.2, 0.8) * side, y: at + r.within(0.2, 0.8) * side, side: r.within(14.0, 24.0) });
    }
    let (w, h) = (r.between(160, 420), r.between(160, 420));
    let mut s = Scene::straight(w, h, card, 0.97).shaken(r, 2.0);
    s.grating = Some(Grating {
        pitch: [r.within(3.0, 9.0), r.one_of(&[0.0, 3.0, 4.0, 6.5])],
        bar: r.within(1.2, 2.6),
        turn: r.one_of(&[0.0, 0.1, 0.7]),
        light: r.within(25.0, 90.0),
        top: r.one_of(&[0.0, 0.0, 100.0]),
    });
    s.behind = [60.0; 3];
    s.noise = r.one_of(&[0.0, 0.0, 3.0]);
    s.seed = r.bits();
    case(&s)
}

pub fn outside(r: &mut Random) -> Case {
    let s = some_scene(r);
    let (dx, dy) = (r.within(-30.0, 30.0), r.within(-30.0, 30.0));
    taken(s.moved(dx, dy), r)
}

pub fn strong_lens(r: &mut Random) -> Case {
    let mut s = some_scene(r);
    s.k = r.within(-0.3, 0.3);
    taken(s, r)
}

/// Sides from 1 to 100, with a card where there is room: its markers are wide for its sides.
pub fn small(r: &mut Random) -> Case {
    let margin = r.one_of(&[48, 60, 80, 100]);
    let f = scene::Frame { width: 4 * margin, height: 4 * margin, cell: 1 + margin / 60, margin };
    let card = some_card(r, f);
    let (w, h) = if r.chance(0.1) { (r.between(1, 40), r.between(1, 40)) } else { (r.between(60, 100), r.between(60, 100)) };
    let share = r.within(0.92, 1.02);
    let s = Scene::straight(w, h, card, share).shaken(r, 1.0);
    taken(s, r)
}

/// Rings drawn pixel by pixel at whole places.
pub fn rings(w: usize, h: usize, ground: u8, places: &[(i64, i64, i64)]) -> Vec<u8> {
    let mut data = vec![ground; 3 * w * h];
    for &(cx, cy, unit) in places {
        for y in cy - 4 * unit..cy + 4 * unit {
            for x in cx - 4 * unit..cx + 4 * unit {
                if x < 0 || y < 0 || x >= w as i64 || y >= h as i64 {
                    continue;
                }
                let far = |d: i64| if d < 0 { -1 - d } else { d };
                let ring = far(x - cx).max(far(y - cy)) / unit;
                let i = 3 * (y as usize * w + x as usize);
                data[i..i + 3].fill(if ring == 0 || ring == 2 { 0 } else { 255 });
            }
        }
    }
    data
}

/// Equal keys: rings on few diagonals.
pub fn ties(r: &mut Random) -> Case {
    let (w, h) = (r.between(100, 200), r.between(100, 200));
    let unit = r.between(2, 3) as i64;
    let step = 9 * unit;
    let mut places = Vec::new();
    // Now and then all close together: too small an area.
    let (reach, draws) = if r.chance(0.3) { (2 * step as usize, 15) } else { (w.min(h), r.between(3, 9)) };
    for _ in 0..draws {
        let (c, l) = (r.below(reach.min(w) / step as usize) as i64, r.below(reach.min(h) / step as usize) as i64);
        let p = (step / 2 + c * step, step / 2 + l * step, unit);
        if !places.contains(&p) {
            places.push(p);
        }
    }
    let ground = r.one_of(&[255, 255, 200]);
    Case { w, h, frame: frame(scene::Frame::SMALL), data: rings(w, h, ground, &places) }
}

/// Flat, striped and chequered pictures, rings on one line, cards folded or without area.
pub fn degenerate(r: &mut Random) -> Case {
    let (w, h) = (r.between(32, 160), r.between(32, 160));
    let f = frame(scene::Frame::SMALL);
    let by = |f2: &dyn Fn(usize, usize) -> u8| {
        let data = (0..w * h).flat_map(|i| [f2(i % w, i / w); 3]).collect();
        Case { w, h, frame: f, data }
    };
    let n = r.between(1, 9);
    match r.below(8) {
        0 => by(&|_, _| 0),
        1 => by(&|_, _| 255),
        2 => by(&|x, y| if (x + y) % 2 == 0 { 0 } else { 255 }),
        3 => by(&|x, _| if (x / n).is_multiple_of(2) { 0 } else { 255 }),
        4 => by(&|x, y| if (x / n + y / n).is_multiple_of(2) { 40 } else { 90 }),
        5 => by(&|x, y| ((x * 7 + y * 3) % 256) as u8),
        6 => {
            let (w, h) = (200, 200);
            let (dx, dy) = r.one_of(&[(45, 0), (0, 45), (40, 40), (40, 10)]);
            let places: Vec<_> = (0..4).map(|i| (24 + i * dx, 24 + i * dy, 2)).collect();
            Case { w, h, frame: f, data: rings(w, h, 255, &places) }
        }
        _ => {
            let card = some_card(r, scene::Frame::SMALL);
            let mut s = Scene::straight(150, 150, card, 0.95);
            let p = s.at[r.below(4)];
            let i = r.below(4);
            s.at[i] = [p[0] + r.within(-3.0, 3.0), p[1] + r.within(-3.0, 3.0)];
            taken(s, r)
        }
    }
}

pub fn noise(r: &mut Random) -> Case {
    let (w, h) = (r.between(1, 200), r.between(1, 200));
    let mut data: Vec<u8> = (0..3 * w * h).map(|_| r.bits() as u8).collect();
    if r.chance(0.5) {
        let s = some_scene(r);
        let mut c = taken(s, r);
        let strength = r.within(0.0, 0.6);
        for v in &mut c.data {
            if r.chance(strength * 0.3) {
                *v = r.bits() as u8;
            }
        }
        return c;
    }
    if r.chance(0.3) {
        data.iter_mut().for_each(|v| *v = *v % 2 * 255);
    }
    Case { w, h, frame: frame(scene::Frame::SMALL), data }
}

/// Frames of any numbers inside the limits, most with room for markers.
pub fn odd_frame(r: &mut Random) -> Case {
    if r.chance(0.3) {
        let f = Frame { width: r.between(1, 700), height: r.between(1, 700), cell: r.between(1, 512), margin: r.between(0, 300) };
        let s = some_scene(r);
        return Case { frame: f, ..taken(s, r) };
    }
    let cell = r.one_of(&[1, 2, 5, 9, 10, 11, 12, 13, 40, 111, 512]);
    let quiet = (8 * cell).clamp(72, 96) / 6;
    let margin = r.between(23, 90) + 2 * quiet;
    let (width, height) = (r.between(4 * margin - 1, 4 * margin + 300), r.between(4 * margin - 1, 4 * margin + 300));
    let card = some_card(r, scene::Frame { width, height, cell, margin });
    let (w, h) = (r.between(200, 420), r.between(200, 420));
    let s = Scene::straight(w, h, card, 0.95).shaken(r, 3.0);
    taken(s, r)
}

/// 15, 16 and 17 sampled cells.
pub fn few_cells(r: &mut Random) -> Case {
    let f = loop {
        let (across, down) = r.one_of(&[(5, 3), (3, 5), (15, 1), (4, 4), (8, 2), (16, 1), (17, 1), (1, 17)]);
        let (cols, rows) = (3 * across - r.below(3), 3 * down - r.below(3));
        // The smallest cell with which each side has four margins.
        let margin_of = |cell: usize| 2 * ((8 * cell).clamp(72, 96) / 6) + 24;
        let Some(cell) = (10..200).find(|&cell| cols.min(rows) * cell >= 2 * margin_of(cell)) else { continue };
        let margin = margin_of(cell);
        let (width, height) = (2 * margin + cols * cell + r.below(cell), 2 * margin + rows * cell + r.below(cell));
        if width.max(height) <= 2400 {
            break scene::Frame { width, height, cell, margin };
        }
    };
    let card = some_card(r, f);
    let scale = r.within(0.6, 0.9);
    let s = Scene::straight((f.width as f64 * scale) as usize, (f.height as f64 * scale) as usize, card, 0.97).shaken(r, 1.0);
    taken(s, r)
}

/// Fewer than 16 sampled cells, and wide for the margin: the first lens term tried stays, and can put a cell off the picture.
pub fn large_cells(r: &mut Random) -> Case {
    let f = loop {
        let (cols, rows, cell, margin) = (r.between(4, 12), r.between(4, 12), r.between(12, 48), r.between(56, 64));
        let (width, height) = (2 * margin + cols * cell + r.below(cell), 2 * margin + rows * cell + r.below(cell));
        if cols.div_ceil(3) * rows.div_ceil(3) < 16 && width.min(height) >= 4 * margin {
            break scene::Frame { width, height, cell, margin };
        }
    };
    let card = some_card(r, f);
    let (scale, share) = (r.within(0.5, 0.8), r.within(0.97, 1.08));
    let s = Scene::straight((f.width as f64 * scale) as usize, (f.height as f64 * scale) as usize, card, share).shaken(r, 1.0);
    taken(s, r)
}

/// One side near 4,096.
pub fn long(r: &mut Random) -> Case {
    let (a, b) = (r.between(4000, 4096), r.between(30, 130));
    let (w, h) = if r.chance(0.5) { (a, b) } else { (b, a) };
    let unit = 2i64;
    let mut places = Vec::new();
    if r.chance(0.5) {
        let (right, low) = (w as i64 - 12, h as i64 - 12);
        places.extend([(12, 12, unit), (right, 12, unit), (right, low, unit), (12, low, unit)]);
    }
    for _ in 0..r.between(0, 30) {
        places.push((r.between(9, w - 9) as i64, r.between(9, h - 9) as i64, unit));
    }
    Case { w, h, frame: frame(scene::Frame::SMALL), data: rings(w, h, 255, &places) }
}

pub fn largest(r: &mut Random) -> Case {
    let f = scene::Frame { width: 1000, height: 900, cell: 12, margin: 128 };
    let card = some_card(r, f);
    let mut s = Scene::straight(4096, 4096, card, 0.9).shaken(r, 60.0);
    s.k = r.within(-0.1, 0.1);
    s.seed = r.bits();
    case(&s)
}

/// A turned panel, its lower part behind a grating: hundreds of patches before the lower right ring's, and a ring-shaped blob in
/// the payload. Without its lower right marker where `whole` is false.
pub fn incident(seed: u64, whole: bool) -> Case {
    let mut r = Random::new(seed);
    let mut card = Card::new(scene::Frame::SMALL, Cells::Flat([r.within(60.0, 110.0); 3]));
    card.margin = [r.within(40.0, 80.0); 3];
    card.rings.push(Ring { x: r.within(124.0, 134.0), y: r.within(80.0, 100.0), side: r.within(16.0, 19.0) });
    card.markers[2] = whole;
    let (share, turn) = (r.within(0.78, 0.84), r.within(0.2, 0.32));
    let mut s = Scene::straight(200, 200, card, share).turned(turn).shaken(&mut r, 2.0);
    s.grating = Some(Grating {
        pitch: [r.within(3.6, 4.4), r.within(3.6, 4.4)],
        bar: r.within(1.8, 2.2),
        turn: r.within(0.0, 0.1),
        light: r.within(35.0, 50.0),
        top: r.within(118.0, 130.0),
    });
    s.behind = [60.0; 3];
    s.samples = 2;
    s.seed = r.bits();
    case(&s)
}
