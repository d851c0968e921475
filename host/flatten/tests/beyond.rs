//! Cards that leave the photograph: how many of their pixels were read from beyond the picture's edge.

mod common;
use common::*;
use flatten::book::Record;
use flatten::{ffi, Fit, Frame, Grade, Workspace};
use scene::{Card, Cells, Scene};

const W: usize = 190;
const H: usize = 180;
const SQUARE: Frame = Frame { width: 240, height: 240, cell: 8, margin: 60 };
const PIXELS: usize = 240 * 240;

/// The card at a share of the picture's height, and moved from the middle.
fn photograph(share: f64, dx: f64, dy: f64) -> Vec<u8> {
    let frame = scene::Frame { width: 240, height: 240, cell: 8, margin: 60 };
    Scene::straight(W, H, Card::new(frame, Cells::Mixed(scene::FOUR, 1)), share).moved(dx, dy).take()
}

fn inside() -> Vec<u8> {
    photograph(0.95, 0.0, 0.0)
}

/// Off on every side, to the right, and above.
fn leaving() -> [Vec<u8>; 3] {
    [photograph(1.07, 0.0, 0.0), photograph(0.95, 14.0, 0.0), photograph(0.95, 0.0, -9.0)]
}

/// Pixels of the card whose position is not inside the picture: x and y at least 0, x below w, y below h, and a NaN is not inside.
fn beyond(fit: &Fit) -> usize {
    let off = |i: usize| {
        let [x, y] = fit.map((i % SQUARE.width) as f64 + 0.5, (i / SQUARE.width) as f64 + 0.5);
        !(x >= 0.0 && y >= 0.0 && x < W as f64 && y < H as f64)
    };
    (0..PIXELS).filter(|&i| off(i)).count()
}

fn workspace() -> Workspace {
    Workspace::new(W, H, SQUARE).unwrap()
}

#[test]
fn pixels_beyond_the_edge_are_counted() {
    let mut ws = workspace();
    for p in leaving() {
        let r = ws.rectify(&p).unwrap();
        assert!(r.beyond == beyond(&r.fit) && (500..PIXELS / 4).contains(&r.beyond), "{} and {}", r.beyond, beyond(&r.fit));
        // The same under the fit as it is kept.
        assert_eq!(ws.warp_with(&p, &r.fit), Ok(r.beyond));
        let record = Record::of(1, 1, Grade::Score(r.score), &r.fit);
        assert_eq!(ws.warp_record(&p, &record), Ok(r.beyond));
        // Nothing of it stays for the next card.
        assert_eq!(ws.rectify(&inside()).unwrap().beyond, 0);
    }
}

/// Positions on the edges themselves: 0 is inside, w and h are not.
#[test]
fn the_edges() {
    let whole = Fit::new([1.0, 0.0, -0.5, 0.0, 1.0, -0.5, 0.0, 0.0, 1.0, 0.0, 95.0, 90.0, 1.0]);
    assert_eq!(workspace().warp_with(&inside(), &whole), Ok(PIXELS - W * H));
}

/// A fit that is no fit: every pixel is counted, and is black.
#[test]
fn a_nan_is_not_inside() {
    let mut ws = workspace();
    let nan = Fit::new([f64::NAN; ffi::FIT_LEN]);
    assert_eq!((ws.warp_with(&inside(), &nan), beyond(&nan)), (Ok(PIXELS), PIXELS));
    assert!(ws.canonical().iter().all(|&b| b == 0));
    let record = Record { numbers: [u64::MAX; ffi::FIT_LEN], ..Record::of(1, 1, Grade::Score(1.0), &nan) };
    assert_eq!(ws.warp_record(&inside(), &record), Ok(PIXELS));
}

/// A line of the command and a number of the report for a card that leaves the photograph; no line and 0 for one that does not.
#[test]
fn the_command_warns() {
    let folder = Folder::new("beyond");
    for p in leaving().into_iter().chain([inside()]) {
        let r = workspace().rectify(&p).unwrap();
        let out = flatten(&["--frame", "240,240,8,60", "--report", path(&folder.file("r"))], &p6(W, H, &p));
        assert_eq!((out.status.code(), out.stdout.len()), (Some(0), 15 + 3 * PIXELS));
        let warning = match beyond(&r.fit) {
            0 => String::new(),
            n => format!(
                "flatten: warning: {n} of the card's 57600 pixels were read from beyond the picture's edge; \
                 their colours look real, and are not the card's\n"
            ),
        };
        assert_eq!(text(&out.stderr), format!("flatten: score {:.1}, phase {:.3}\n{warning}", r.score, r.phase));
        let end = format!(", \"homographies\": 78, \"beyond\": {}}}\n", beyond(&r.fit));
        assert!(folder.text("r").ends_with(&end), "{}", folder.text("r"));
    }
    // A refused card has no such pixels.
    let out = flatten(&["--frame", "240,240,8,60", "--report", path(&folder.file("r"))], &p6(W, H, &photograph(1.5, 0.0, 0.0)));
    assert_eq!((out.status.code(), text(&out.stderr).lines().count()), (Some(1), 1));
    assert!(folder.text("r").ends_with(", \"beyond\": null}\n"), "{}", folder.text("r"));
}

/// Places about a side's ends, and whether they lie within it.
fn places(side: f64) -> [(f64, bool); 12] {
    let [before, past] = [side.next_down(), side.next_up()];
    let within = [-0.0, 0.0, 5e-324, before].map(|x| (x, true));
    let off = [-5e-324, -1.0, side, past, side + 1.0, f64::INFINITY, f64::NEG_INFINITY, f64::NAN].map(|x| (x, false));
    std::array::from_fn(|i| if i < 4 { within[i] } else { off[i - 4] })
}

#[test]
fn a_reading_tells_whether_it_is_inside() {
    let picture: Vec<u8> = (1..=60).collect();
    for (x, across) in places(5.0) {
        for (y, down) in places(4.0) {
            let mut colour = [9; 6];
            assert_eq!(ffi::bilinear(&picture, 5, 4, x, y, &mut colour), 0);
            assert_eq!(colour[3..], [u8::from(across && down), 9, 9], "{x:?}, {y:?}");
        }
    }
    let mut colour = [9; ffi::COLOUR_LEN - 1];
    assert_eq!((ffi::bilinear(&picture, 5, 4, 1.0, 1.0, &mut colour), colour), (3, [9; 3]));
    assert_eq!((ffi::bilinear(&picture, 5, 5, 1.0, 1.0, &mut colour), colour), (2, [9; 3]));
}

/// A short slice is 3, after 1 and 2 and before 4, a longer one keeps its rest, and a refusal leaves all of it.
#[test]
fn counts_of_a_warp() {
    let (p, fit) = (inside(), [f64::NAN; ffi::FIT_LEN]);
    let bits = fit.map(f64::to_bits);
    for (frame, capture, lent, room, number) in [
        (SQUARE, &p[..], 2, 3 * PIXELS, 0),
        (Frame { width: 0, ..SQUARE }, &p[1..], 0, 0, 1),
        (SQUARE, &p[1..], 0, 0, 2),
        (SQUARE, &p, 0, 0, 3),
        (SQUARE, &p, 0, 3 * PIXELS, 3),
        (SQUARE, &p, 1, 0, 4),
    ] {
        let wanted = if number == 0 { (vec![0; room], vec![PIXELS as u64, 9]) } else { (vec![7; room], vec![9; lent]) };
        let mut found = (vec![7; room], vec![9; lent]);
        assert_eq!(ffi::warp_with(capture, W, H, frame, &fit, &mut found.0, &mut found.1), number);
        assert!(found == wanted, "{number}: {:?}", found.1);
        let mut found = (vec![7; room], vec![9; lent]);
        assert_eq!(ffi::warp_record(capture, W, H, frame, 0, &bits, &mut found.0, &mut found.1), number);
        assert!(found == wanted, "{number}: {:?}", found.1);
    }
    let mut counts = [9; 2];
    assert_eq!(ffi::warp_record(&p, W, H, SQUARE, 1, &bits, &mut vec![7; 3 * PIXELS], &mut counts), 16);
    assert_eq!(counts, [9; 2]);
}
