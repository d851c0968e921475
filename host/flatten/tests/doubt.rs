//! Which cards the command and the wrapper call doubtful.

mod common;
use common::*;
use flatten::p6::Picture;
use flatten::{Frame, Workspace};
use scene::{Card, Cells, Grating, Random, Ring, Scene, BENCH_CELLS};

/// The picture whose pixel (x, y) is the pixel `from(x, y)` of another.
fn moved(p: &Picture, w: usize, h: usize, from: impl Fn(usize, usize) -> (usize, usize)) -> Picture {
    let at = |i: usize| {
        let (x, y) = from(i % w, i / w);
        3 * (y * p.w + x)
    };
    Picture { w, h, data: (0..w * h).flat_map(|i| p.data[at(i)..at(i) + 3].to_vec()).collect() }
}

fn half_turned(p: &Picture) -> Picture {
    moved(p, p.w, p.h, |x, y| (p.w - 1 - x, p.h - 1 - y))
}

fn mirrored(p: &Picture) -> Picture {
    moved(p, p.w, p.h, |x, y| (p.w - 1 - x, y))
}

/// Turned by an angle about the middle, in a picture that holds it at every angle.
fn turned(p: &Picture, degrees: f64) -> Picture {
    let side = (p.w as f64).hypot(p.h as f64).ceil() as usize;
    let (sin, cos) = degrees.to_radians().sin_cos();
    let mut data = Vec::with_capacity(3 * side * side);
    for i in 0..side * side {
        let (x, y) = ((i % side) as f64 - side as f64 / 2.0, (i / side) as f64 - side as f64 / 2.0);
        let (u, v) = (cos * x + sin * y + p.w as f64 / 2.0, cos * y - sin * x + p.h as f64 / 2.0);
        if u >= 0.0 && v >= 0.0 && u < p.w as f64 && v < p.h as f64 {
            let at = 3 * (v as usize * p.w + u as usize);
            data.extend(&p.data[at..at + 3]);
        } else {
            data.extend([60, 58, 52]);
        }
    }
    Picture { w: side, h: side, data }
}

fn bytes(p: &Picture) -> Vec<u8> {
    p6(p.w, p.h, &p.data)
}

#[test]
fn an_upright_card_is_not_doubtful() {
    let out = flatten(&["--strict"], &bytes(&bench()));
    assert_eq!(out.status.code(), Some(0));
    assert_eq!(text(&out.stderr), "flatten: score 6073.4, phase 0.084\n");
    assert_eq!(out.stdout.len(), 15 + 3 * 848 * 636);
}

/// The rings are alike, so the rules accept the bench picture whichever way it lies.
#[test]
fn turned_and_mirrored_cards_are_doubtful() {
    let p = bench();
    let folder = Folder::new("turned");
    for (i, wrong) in [
        half_turned(&p),
        mirrored(&p),
        half_turned(&mirrored(&p)),
        moved(&p, p.h, p.w, |x, y| (y, p.h - 1 - x)),
        moved(&p, p.h, p.w, |x, y| (p.w - 1 - y, x)),
        turned(&p, 51.0),
        turned(&p, -51.0),
    ]
    .iter()
    .enumerate()
    {
        folder.put("in.ppm", bytes(wrong));
        let out = folder.sh("$F -o card.ppm in.ppm");
        assert_eq!(out.status.code(), Some(0), "{i}");
        let said = text(&out.stderr);
        let phase: f64 = said.lines().next().unwrap().rsplit(' ').next().unwrap().parse().unwrap();
        assert!(said.starts_with("flatten: score ") && phase > 0.25, "{i}: {said}");
        for words in [
            "warning: this card is doubtful: its score is below 60 and its phase above 0.25\n",
            "before a wheel is cut look at the overlay (--overlay FILE)",
            "a ring that is covered, cut or blurred",
            "turned, mirrored or upside down",
            "EXIF turn that was not applied",
            "a lens beyond ±0.20",
        ] {
            assert!(said.contains(words), "{i}: {said}");
        }
        assert!(folder.get("card.ppm").len() == 15 + 3 * 848 * 636);

        // With --strict there is no card, and the rest as without.
        folder.put("card.ppm", "as it was");
        let out = folder.sh("$F --strict --report r.json --overlay v.ppm --page p.txt -o card.ppm in.ppm");
        assert_eq!(out.status.code(), Some(3), "{i}");
        assert!(text(&out.stderr).contains("before a wheel is cut look at v.ppm"));
        assert!(text(&out.stderr).ends_with("flatten: the doubtful card is not written (--strict)\n"));
        assert_eq!(folder.text("card.ppm"), "as it was");
        let out = folder.sh("$F --strict in.ppm");
        assert_eq!((out.status.code(), out.stdout.len()), (Some(3), 0));
        assert_eq!(folder.get("v.ppm").len(), bytes(wrong).len());

        // The wrapper gives the report's numbers.
        let mut ws = Workspace::new(wrong.w, wrong.h, Frame::BENCH).unwrap();
        let r = ws.rectify(&wrong.data).unwrap();
        assert!(r.doubtful());
        assert_eq!(folder.get("p.txt"), ws.page().unwrap());
        let fields = format!("\"refusal\": 0, \"score\": {:?}, \"phase\": {:?}, \"doubtful\": true, ", r.score, r.phase);
        assert!(folder.text("r.json").contains(&fields), "{}", folder.text("r.json"));
    }
    assert_eq!(folder.names(), ["card.ppm", "in.ppm", "p.txt", "r.json", "v.ppm"]);
}

/// The advice at 7 and 8: the card's rings are whole at each of these angles.
#[test]
fn a_turn_of_ten_degrees_or_more_may_be_refused() {
    let p = bench();
    for (degrees, number) in [(-10.0, 0), (10.0, 0), (15.0, 7), (20.0, 7), (25.0, 7), (-20.0, 7), (-25.0, 7), (45.0, 8)] {
        let out = flatten(&[], &bytes(&turned(&p, degrees)));
        let said = text(&out.stderr);
        if number == 0 {
            assert!(out.status.code() == Some(0) && !said.contains("doubtful"), "{degrees}: {said}");
        } else {
            assert!(said.starts_with(&format!("refused {number}: ")), "{degrees}: {said}");
            assert!(said.ends_with("the card upright: turned by less than 10 degrees\n"), "{degrees}: {said}");
        }
    }
}

/// The incident of the request, on the bench: a panel behind a grating that breaks the picture into thousands of patches, and a
/// blob of the payload like a ring. Where the lower right ring is not to be seen, something else takes its corner.
fn grating(seed: u64, whole: bool) -> Scene {
    let mut r = Random::new(seed);
    let mut card = Card::new(scene::Frame::BENCH, Cells::Mixed(BENCH_CELLS, r.bits()));
    card.rings.push(Ring { x: r.within(500.0, 640.0), y: r.within(330.0, 440.0), side: r.within(60.0, 80.0) });
    card.markers[2] = whole;
    let mut s = Scene::straight(1280, 720, card, 0.9);
    s.grating = Some(Grating {
        pitch: [r.within(6.0, 9.0), r.within(6.0, 9.0)],
        bar: r.within(2.5, 3.5),
        turn: r.within(0.0, 0.1),
        light: r.within(40.0, 120.0),
        top: 380.0,
    });
    s.samples = 2;
    s.seed = r.bits();
    s
}

#[test]
fn the_incident_is_doubtful() {
    let mut ws = Workspace::new(1280, 720, Frame::BENCH).unwrap();
    for seed in 1..=3 {
        let without = ws.rectify(&grating(seed, false).take()).unwrap();
        assert!(ws.patches().len() > 4000 && without.doubtful(), "{seed}: {without:?}");
        let place = |r: &flatten::Rectified, ws: &Workspace| ws.candidates().find(|c| c.place == r.corners[2]).map(|c| (c.x, c.y)).unwrap();
        let taken = place(&without, &ws);
        let whole = ws.rectify(&grating(seed, true).take()).unwrap();
        assert!(!whole.doubtful(), "{seed}: {whole:?}");
        let right = place(&whole, &ws);
        assert!((taken.0 - right.0).hypot(taken.1 - right.1) > 100.0, "{seed}: {taken:?} is near {right:?}");
    }
    let out = flatten(&["--strict"], &p6(1280, 720, &grating(1, false).take()));
    assert_eq!((out.status.code(), out.stdout.len()), (Some(3), 0));
}

/// What neither sign can see: a card that lies half round, where its inside divides evenly into cells, has its edges on the cell
/// borders and its cells as even as the right one's. README and DECISIONS say so; on the bench frame's 63.6 by 42.4 cells it
/// shows.
#[test]
fn half_a_turn_on_an_even_frame_cannot_be_seen() {
    let frame = scene::Frame { width: 852, height: 632, cell: 10, margin: 106 };
    let s = Scene::straight(1280, 720, Card::new(frame, Cells::Mixed(BENCH_CELLS, 1)), 0.9);
    let p = Picture { w: s.w, h: s.h, data: s.take() };
    for p in [half_turned(&p), p] {
        let out = flatten(&["--strict", "--frame", "852,632,10,106"], &bytes(&p));
        assert!(out.status.code() == Some(0) && !text(&out.stderr).contains("doubtful"), "{}", text(&out.stderr));
    }
}

/// The names stand at the rings of their corners, and the arrow points to the side of TL and TR.
#[test]
fn the_overlay_names_the_corners() {
    let p = bench();
    let folder = Folder::new("names");
    for p in [&p, &turned(&p, 38.0), &half_turned(&p)] {
        folder.put("in.ppm", bytes(p));
        let out = folder.sh("$F -o card.ppm --overlay v.ppm --report r.json in.ppm");
        assert_eq!(out.status.code(), Some(0), "{}", text(&out.stderr));
        let drawn = flatten::p6::read(&mut &folder.get("v.ppm")[..]).unwrap();
        let mut ws = Workspace::new(p.w, p.h, Frame::BENCH).unwrap();
        let r = ws.rectify(&p.data).unwrap();
        let of = |colour: [u8; 3], x: f64, y: f64, half: f64| {
            let near = |i: &usize| ((i % p.w) as f64 - x).abs() <= half && ((i / p.w) as f64 - y).abs() <= half;
            (0..p.w * p.h).filter(near).filter(|&i| drawn.data[3 * i..3 * i + 3] == colour && p.data[3 * i..3 * i + 3] != colour).count()
        };
        let corner = |i: usize| ws.candidates().find(|c| c.place == r.corners[i]).unwrap();
        for i in 0..4 {
            let (c, other) = (corner(i), corner(i ^ 1));
            let (dx, dy) = (other.x - c.x, other.y - c.y);
            let away = c.size * 1.2 / dx.hypot(dy);
            let inked = of([255, 0, 0], c.x + dx * away, c.y + dy * away, c.size * 0.4);
            assert!(inked > 150, "corner {i}: {inked} pixels of its name");
        }
        let (tip, foot) = (r.fit.map(424.0, 0.38 * 636.0), r.fit.map(424.0, 0.62 * 636.0));
        let yellow = |p: [f64; 2]| of([255, 230, 0], p[0], p[1], 20.0);
        assert!(yellow(tip) > 2 * yellow(foot) && yellow(foot) > 0, "{} at the tip, {} at the foot", yellow(tip), yellow(foot));
    }
}
