//! What the photographs are like: one condition after the other, by strength, all else ordinary.

use scene::{Card, Cells, Exposure, Frame, Glare, Grating, Motion, Pose, Random, Rgb, Ring, Scene, BENCH_CELLS, FOUR};

/// Draws photograph `i` of a row; the numbers are the same for every row of a condition.
type Draw = Box<dyn Fn(usize, &mut Random) -> Scene>;

pub struct Row {
    pub label: String,
    /// A careful photographer's picture is like this.
    pub ordinary: bool,
    pub draw: Draw,
}

pub struct Condition {
    pub title: &'static str,
    /// What the first column says.
    pub column: &'static str,
    /// How it is drawn.
    pub drawn: &'static str,
    pub rows: Vec<Row>,
    /// The rows differ only in what happens to the light after the lens, so that it is drawn once for all of them.
    pub same_light: bool,
    /// From the ordinary rows outward each row is harder than the one before.
    pub ordered: bool,
    /// So many times as many photographs a row.
    pub times: usize,
}

/// How a photograph is taken, before a condition changes it.
struct Plan {
    w: usize,
    h: usize,
    card: Card,
    pose: Pose,
    k: f64,
    seed: u64,
}

/// An ordinary photograph: 1280 by 720, the card about 0.8 of its height, a little tilted, turned and off the centre.
fn plan(i: usize, r: &mut Random) -> Plan {
    let colours = if i.is_multiple_of(2) { FOUR } else { BENCH_CELLS };
    let card = Card::new(Frame::BENCH, Cells::Mixed(colours, r.bits()));
    let pose = Pose {
        share: r.within(0.76, 0.84),
        sideways: r.within(-4.0, 4.0),
        up: r.within(-4.0, 4.0),
        roll: r.within(-3.0, 3.0),
        shift: [r.within(-8.0, 8.0), r.within(-8.0, 8.0)],
    };
    Plan { w: 1280, h: 720, card, pose, k: r.within(-0.04, 0.04), seed: r.bits() }
}

fn scene(p: Plan) -> Scene {
    let mut s = Scene::posed(p.w, p.h, p.card, &p.pose);
    s.k = p.k;
    s.vignette = 0.85;
    s.normal_noise = 1.5;
    s.samples = 2;
    s.seed = p.seed;
    s
}

fn number(v: f64) -> String {
    format!("{}", (v * 1000.0).round() / 1000.0).replace('-', "−")
}

/// A condition by strength; `draw` is handed the strength, the number of the photograph and its numbers.
fn by_strength(
    title: &'static str,
    column: &'static str,
    drawn: &'static str,
    strengths: &[f64],
    ordinary: impl Fn(f64) -> bool,
    draw: impl Fn(f64, usize, &mut Random) -> Scene + Copy + 'static,
) -> Condition {
    let row = |&v: &f64| Row { label: number(v), ordinary: ordinary(v), draw: Box::new(move |i, r: &mut Random| draw(v, i, r)) };
    Condition { title, column, drawn, rows: strengths.iter().map(row).collect(), same_light: false, ordered: true, times: 1 }
}

fn of_light(c: Condition) -> Condition {
    Condition { same_light: true, ..c }
}

fn times(times: usize, c: Condition) -> Condition {
    Condition { times, ..c }
}

fn blur() -> Condition {
    of_light(by_strength(
        "Blur",
        "σ, pixels",
        "A Gaussian of deviation σ over the whole picture.",
        &[0.0, 0.5, 1.0, 1.5, 2.0, 2.5, 3.0, 3.5, 4.0, 5.0, 6.0],
        |v| v <= 1.0,
        |v, i, r| Scene { blur: v, ..scene(plan(i, r)) },
    ))
}

fn motion() -> Condition {
    of_light(by_strength(
        "Motion",
        "length, pixels",
        "The mean of as many places, one pixel apart on a line in any direction.",
        &[1.0, 3.0, 5.0, 7.0, 9.0, 11.0, 13.0, 15.0, 20.0],
        |v| v <= 3.0,
        |v, i, r| {
            let direction = r.within(0.0, std::f64::consts::PI);
            Scene { motion: Motion { length: v as usize, direction }, ..scene(plan(i, r)) }
        },
    ))
}

fn noise() -> Condition {
    of_light(by_strength(
        "Noise",
        "σ",
        "Normal noise of deviation σ on each byte.",
        &[0.0, 10.0, 20.0, 30.0, 40.0, 50.0, 60.0],
        |v| v <= 10.0,
        |v, i, r| Scene { normal_noise: v, ..scene(plan(i, r)) },
    ))
}

fn exposure() -> Condition {
    of_light(by_strength(
        "Exposure",
        "times the light",
        "More or less light, cut at 255.",
        &[0.05, 0.1, 0.15, 0.2, 0.3, 0.5, 0.7, 1.0, 1.4, 2.0, 5.0],
        |v| (0.7..=1.4).contains(&v),
        |v, i, r| Scene { exposure: Exposure { gain: v, gamma: 1.0 }, ..scene(plan(i, r)) },
    ))
}

fn gamma() -> Condition {
    of_light(by_strength(
        "Gamma",
        "value",
        "Brightness is light to the power 1/gamma, white staying white; blur σ 0.7.",
        &[0.3, 0.5, 0.7, 1.0, 1.5, 2.2, 3.0, 4.0],
        |v| (0.7..=1.5).contains(&v),
        |v, i, r| Scene { exposure: Exposure { gain: 1.0, gamma: v }, blur: 0.7, ..scene(plan(i, r)) },
    ))
}

/// Both ways: each strength also with its sign changed, in every other photograph.
fn either(v: f64, i: usize) -> f64 {
    if (i / 2).is_multiple_of(2) {
        v
    } else {
        -v
    }
}

fn tilt_sideways() -> Condition {
    by_strength(
        "Tilt sideways",
        "degrees",
        "Either side away from a camera whose picture is 60 degrees wide; the card at 0.7 of the picture's height.",
        &[0.0, 10.0, 20.0, 25.0, 30.0, 35.0, 40.0, 45.0, 50.0, 55.0],
        |v| v <= 10.0,
        |v, i, r| {
            let mut p = plan(i, r);
            (p.pose.share, p.pose.sideways) = (0.7, either(v, i));
            scene(p)
        },
    )
}

fn tilt_up() -> Condition {
    by_strength(
        "Tilt up",
        "degrees",
        "The upper or the lower side away, likewise.",
        &[0.0, 10.0, 20.0, 25.0, 30.0, 35.0, 40.0, 45.0, 50.0, 55.0],
        |v| v <= 10.0,
        |v, i, r| {
            let mut p = plan(i, r);
            (p.pose.share, p.pose.up) = (0.7, either(v, i));
            scene(p)
        },
    )
}

fn turn() -> Condition {
    by_strength(
        "Turn",
        "degrees",
        "The card turned in the picture's plane, to the right above 0; at 0.65 of the picture's height, so that it stays inside.",
        &[
            -60.0, -55.0, -50.0, -45.0, -40.0, -35.0, -30.0, -25.0, -20.0, -18.0, -15.0, -12.0, -10.0, -5.0, 0.0, 5.0, 10.0, 12.0, 15.0,
            18.0, 20.0, 25.0, 30.0, 35.0, 40.0, 45.0, 50.0, 55.0, 60.0,
        ],
        |v| v.abs() <= 10.0,
        |v, i, r| {
            let mut p = plan(i, r);
            (p.pose.share, p.pose.roll) = (0.65, v);
            scene(p)
        },
    )
}

fn distance() -> Condition {
    by_strength(
        "Distance",
        "card's height over picture's",
        "How much of the picture the card fills.",
        &[1.0, 0.95, 0.9, 0.8, 0.7, 0.6, 0.5, 0.4, 0.35, 0.3, 0.25],
        |v| (0.6..=0.9).contains(&v),
        |v, i, r| {
            let mut p = plan(i, r);
            p.pose.share = v;
            scene(p)
        },
    )
}

fn lens() -> Condition {
    by_strength(
        "Lens",
        "k",
        "A point at radius u, in half diagonals of the picture, moves to u·(1 + k·u²). The search tries k from −0.20 to 0.20.",
        &[-0.35, -0.3, -0.26, -0.25, -0.24, -0.22, -0.2, -0.15, -0.1, 0.0, 0.1, 0.15, 0.2, 0.22, 0.25, 0.26, 0.28, 0.3, 0.35],
        |v| v.abs() <= 0.1,
        |v, i, r| scene(Plan { k: v, ..plan(i, r) }),
    )
}

fn size() -> Condition {
    by_strength(
        "Size",
        "picture's width, pixels",
        "16 by 9, the card still at 0.8 of its height.",
        &[1920.0, 1280.0, 960.0, 800.0, 640.0, 480.0, 400.0, 320.0, 240.0],
        |v| v >= 960.0,
        |v, i, r| {
            let mut p = plan(i, r);
            p.pose.shift = p.pose.shift.map(|d| d * v / 1280.0);
            scene(Plan { w: v as usize, h: v as usize * 9 / 16, ..p })
        },
    )
}

/// The side of marker i in the photograph, about.
fn marker_side(s: &Scene, i: usize) -> f64 {
    let [x, y] = s.card.centres()[i];
    let half = 40.0;
    let ends = [[x - half, y], [x + half, y]].map(|p| s.place(p).unwrap_or([0.0; 2]));
    (ends[0][0] - ends[1][0]).hypot(ends[0][1] - ends[1][1])
}

fn glare() -> Condition {
    times(
        3,
        by_strength(
            "Glare on a ring",
            "radius over the ring's side",
            "White light over one ring in turn, its middle up to 0.3 of the ring's side off the ring's; it fades from the radius to twice.",
            &[0.05, 0.1, 0.125, 0.15, 0.175, 0.2, 0.225, 0.25, 0.3, 0.5],
            |_| false,
            |v, i, r| {
                let off = [r.within(-0.3, 0.3), r.within(-0.3, 0.3)];
                let mut s = scene(plan(i, r));
                let (side, at) = (marker_side(&s, i % 4), s.place(s.card.centres()[i % 4]).unwrap_or([0.0; 2]));
                s.glare = Some(Glare { at: [at[0] + off[0] * side, at[1] + off[1] * side], radius: v * side, light: 255.0 });
                s
            },
        ),
    )
}

fn surroundings() -> Condition {
    by_strength(
        "Surroundings",
        "grey level",
        "The wall behind the card, which is dark at its edges but for white squares around the rings.",
        &[0.0, 30.0, 60.0, 90.0, 120.0, 130.0, 140.0, 150.0, 160.0, 170.0, 180.0, 210.0, 255.0],
        |v| v <= 60.0,
        |v, i, r| Scene { behind: [v; 3], ..scene(plan(i, r)) },
    )
}

fn grating() -> Condition {
    by_strength(
        "Grating",
        "light of the bars",
        "Bars 3 to 6 pixels wide and as far apart, in one direction or both, turned by up to 20 degrees, add light.",
        &[10.0, 20.0, 30.0, 45.0, 60.0, 80.0, 100.0, 130.0, 160.0],
        |v| v <= 10.0,
        |v, i, r| {
            let bar = r.within(3.0, 6.0);
            let other = if r.chance(0.5) { 2.0 * bar } else { 0.0 };
            let turn = r.within(-0.35, 0.35);
            let mut s = scene(plan(i, r));
            s.grating = Some(Grating { pitch: [2.0 * bar, other], bar, turn, light: v, top: 0.0 });
            s
        },
    )
}

fn fine_grating() -> Condition {
    by_strength(
        "Fine grating",
        "light of the bars",
        "The same with bars 1.5 to 2.5 pixels wide in both directions: thousands of patches.",
        &[10.0, 20.0, 30.0, 45.0, 60.0, 80.0, 100.0, 130.0, 160.0],
        |v| v <= 10.0,
        |v, i, r| {
            let bar = r.within(1.5, 2.5);
            let turn = r.within(-0.35, 0.35);
            let mut s = scene(plan(i, r));
            s.grating = Some(Grating { pitch: [2.0 * bar; 2], bar, turn, light: v, top: 0.0 });
            s
        },
    )
}

/// One ring is not there, and the payload has a blob that passes for a ring, as in the incident. The blob lies toward the corner
/// that has no ring.
fn without_ring(i: usize, r: &mut Random, turn: f64, grating: bool) -> Scene {
    let toward = [[0.3, 0.3], [0.7, 0.3], [0.7, 0.7], [0.3, 0.7]][i % 4];
    let at = toward.map(|t| t + r.within(-0.08, 0.08));
    let side = r.within(60.0, 80.0);
    let mut p = plan(i, r);
    (p.pose.share, p.pose.roll) = (0.65, p.pose.roll + either(turn, i));
    let f = p.card.frame;
    p.card.rings.push(Ring { x: at[0] * f.width as f64, y: at[1] * f.height as f64, side });
    p.card.markers[i % 4] = false;
    let mut s = scene(p);
    if grating {
        s.grating = Some(Grating { pitch: [8.0; 2], bar: 4.0, turn: 0.1, light: 20.0, top: 0.0 });
    }
    s
}

fn missing() -> Condition {
    let row = |label: &str, turn: f64, grating: bool| Row {
        label: label.to_string(),
        ordinary: false,
        draw: Box::new(move |i, r: &mut Random| without_ring(i, r, turn, grating)),
    };
    Condition {
        title: "A ring missing",
        column: "card",
        drawn: "One ring in turn is not drawn, and the payload has a blob that passes for a ring: the incident.",
        rows: vec![
            row("upright", 0.0, false),
            row("upright, behind a grating", 0.0, true),
            row("turned by 6 degrees", 6.0, false),
            row("turned by 6 degrees, behind a grating", 6.0, true),
            row("turned by 10 degrees", 10.0, false),
            row("turned by 18 degrees", 18.0, false),
        ],
        same_light: false,
        ordered: false,
        times: 2,
    }
}

/// One cell in 2, 10, 50 or 250 is white, or none; the others are black.
const IN_2: &[Rgb] = &[BLACK, WHITE];
const IN_10: &[Rgb] = &one_white::<10>();
const IN_50: &[Rgb] = &one_white::<50>();
const IN_250: &[Rgb] = &one_white::<250>();
const NONE: &[Rgb] = &[BLACK];
const BLACK: Rgb = [0.0; 3];
const WHITE: Rgb = [255.0; 3];

const fn one_white<const N: usize>() -> [Rgb; N] {
    let mut colours = [BLACK; N];
    colours[0] = WHITE;
    colours
}

/// A payload that shows little: upright, and turned half round.
fn few_light_cells() -> Condition {
    let row = |label: &str, colours: &'static [Rgb], half_turn: bool| Row {
        label: label.to_string(),
        ordinary: false,
        draw: Box::new(move |i, r: &mut Random| {
            let mut p = plan(i, r);
            p.card.cells = Cells::Mixed(colours, r.bits());
            let s = scene(p);
            if half_turn {
                s.turned(std::f64::consts::PI)
            } else {
                s
            }
        }),
    };
    Condition {
        title: "Few light cells",
        column: "white cells",
        drawn: "The payload is black but for some white cells; upright, and turned by 180 degrees.",
        rows: vec![
            row("1 in 2", IN_2, false),
            row("1 in 10", IN_10, false),
            row("1 in 50", IN_50, false),
            row("1 in 250", IN_250, false),
            row("none", NONE, false),
            row("1 in 2, turned", IN_2, true),
            row("1 in 10, turned", IN_10, true),
            row("1 in 50, turned", IN_50, true),
            row("1 in 250, turned", IN_250, true),
            row("none, turned", NONE, true),
        ],
        same_light: false,
        ordered: false,
        times: 1,
    }
}

/// The whole bench picture of seed i + 1, turned or mirrored.
pub fn bench_turned(i: usize, quarters: usize, mirrored: bool) -> Scene {
    let s = scene::bench(i as u64 + 1);
    let s = (0..quarters).fold(s, |s, _| s.quarter_turned());
    if mirrored {
        s.mirrored()
    } else {
        s
    }
}

/// A card whose inside divides evenly into cells.
pub const EVEN: Frame = Frame { width: 852, height: 632, cell: 10, margin: 106 };

fn wrong_way_round() -> Condition {
    let row = |label: &str, quarters: usize, mirrored: bool, ordinary: bool| Row {
        label: label.to_string(),
        ordinary,
        draw: Box::new(move |i, _: &mut Random| bench_turned(i, quarters, mirrored)),
    };
    Condition {
        title: "The wrong way round",
        column: "picture",
        drawn: "The bench pictures of seeds 1, 2, .., upright, turned by quarters and mirrored. The rings are alike.",
        rows: vec![
            row("upright", 0, false, true),
            row("turned by 90 degrees", 1, false, false),
            row("turned by 180 degrees", 2, false, false),
            row("turned by 270 degrees", 3, false, false),
            row("mirrored", 0, true, false),
            row("mirrored and turned by 180 degrees", 2, true, false),
        ],
        same_light: false,
        ordered: false,
        times: 1,
    }
}

/// The one that nothing can see. It stands last.
fn wrong_way_round_even() -> Condition {
    let row = |label: &str, half_turn: bool, mirrored: bool| Row {
        label: label.to_string(),
        ordinary: !half_turn && !mirrored,
        draw: Box::new(move |i, r: &mut Random| {
            let mut p = plan(i, r);
            p.card.frame = EVEN;
            let s = scene(p);
            let s = if half_turn { s.turned(std::f64::consts::PI) } else { s };
            if mirrored {
                s.mirrored()
            } else {
                s
            }
        }),
    };
    Condition {
        title: "The wrong way round, inside divided evenly",
        column: "card",
        drawn: "A card of 852 by 632, whose inside is 64 by 42 whole cells: turned half round its cell borders are cell borders again.",
        rows: vec![row("upright", false, false), row("turned by 180 degrees", true, false), row("mirrored", false, true)],
        same_light: false,
        ordered: false,
        times: 1,
    }
}

/// Everything at once: each strength drawn up to `most` times what the row's name says.
fn together() -> Condition {
    let row = |label: &str, most: f64, ordinary: bool| Row {
        label: label.to_string(),
        ordinary,
        draw: Box::new(move |i, r: &mut Random| {
            let mut p = plan(i, r);
            let mut up_to = |v: f64| r.within(-v, v) * most;
            p.pose.sideways = up_to(10.0);
            p.pose.up = up_to(10.0);
            p.pose.roll = up_to(8.0);
            p.pose.share = 0.75 - up_to(0.1).abs();
            p.k = up_to(0.08);
            let (blur, noise, gain) = (up_to(1.0).abs(), up_to(8.0).abs(), up_to(0.3));
            let motion = Motion { length: 1 + up_to(3.0).abs() as usize, direction: up_to(3.0) };
            let mut s = scene(p);
            (s.blur, s.motion, s.normal_noise) = (blur, motion, noise);
            s.exposure.gain = (1.0 + gain).max(0.2);
            s
        }),
    };
    Condition {
        title: "All together",
        column: "strengths",
        drawn: "Tilt up to 10 degrees each way, turn 8, height 0.75 to 0.65, k ±0.08, blur σ 1, motion 4, noise σ 8, gain 0.7 to 1.3, \
                each drawn anew; and up to 2 and 3 times as much.",
        rows: vec![row("ordinary", 1.0, true), row("twice", 2.0, false), row("three times", 3.0, false)],
        same_light: false,
        ordered: true,
        times: 4,
    }
}

pub fn all() -> Vec<Condition> {
    vec![
        blur(),
        motion(),
        noise(),
        exposure(),
        gamma(),
        tilt_sideways(),
        tilt_up(),
        turn(),
        distance(),
        lens(),
        size(),
        glare(),
        surroundings(),
        grating(),
        fine_grating(),
        missing(),
        few_light_cells(),
        together(),
        wrong_way_round(),
        wrong_way_round_even(),
    ]
}

/// Ordinary photographs, for the quick run.
pub fn ordinary(i: usize, r: &mut Random) -> Scene {
    scene(plan(i, r))
}

/// Photographs of a card with a ring missing, for the quick run.
pub fn ring_missing(i: usize, r: &mut Random) -> Scene {
    without_ring(i, r, 6.0, false)
}
