//! The wrapper.

use flatten::{ffi, Fit, Frame, Grade, Patch, Rectangle, Refusal, Responsible, Window, Workspace};

const SMALL: Frame = Frame { width: 192, height: 192, cell: 1, margin: 48 };

fn card() -> Vec<u8> {
    let mut data: Vec<u8> = (0..192 * 192).flat_map(|i| [if (i % 192 / 8 + i / 192 / 8) % 2 == 0 { 90 } else { 160 }; 3]).collect();
    assert_eq!(ffi::stamp_fiducials(&mut data, 192, 192, SMALL), 0);
    data
}

#[test]
fn one_workspace_serves_many_captures() {
    let mut ws = Workspace::new(192, 192, SMALL).unwrap();
    assert!(!ws.looked() && ws.patches().len() == 0);
    let first = ws.rectify(&card()).unwrap();
    let flat = ws.canonical().to_vec();
    assert_eq!(ws.grade(), Some(Grade::Score(first.score)));
    assert_eq!((first.trials, first.homographies), (78, 78));
    // The corners are candidates, and stand as corners do.
    let at = first.corners.map(|place| ws.candidates().find(|c| c.place == place).unwrap());
    assert!(at[0].x < at[1].x && at[3].x < at[2].x && at[0].y < at[3].y && at[1].y < at[2].y);
    let dark: u64 = ws.patches().map(|p| p.area).sum();
    assert!(dark > 0 && ws.waited() > 0);

    // A refusal leaves the card of the call before, and shows what it found.
    let refusal = ws.rectify(&vec![255; 3 * 192 * 192]).unwrap_err();
    assert_eq!((refusal.number(), refusal.responsible()), (7, Responsible::Photographer));
    assert!(ws.looked() && ws.candidates().len() == 0);
    assert_eq!(ws.canonical(), flat);

    // A capture of another length is refused without a look.
    let refusal = ws.rectify(&[0; 10]).unwrap_err();
    assert_eq!((refusal.number(), refusal.responsible()), (2, Responsible::Host));
    assert!(!ws.looked() && ws.patches().len() == 0);

    // And the first answer comes again.
    let again = ws.rectify(&card()).unwrap();
    assert_eq!(again.fit.numbers(), first.fit.numbers());
    assert_eq!(ws.canonical(), flat);
}

/// Four sampled cells: the fit is the original's and has no score, and no card is laid by it.
#[test]
fn an_unscored_card_is_refused_with_its_grade() {
    let frame = Frame { width: 224, height: 224, cell: 28, margin: 56 };
    let mut data: Vec<u8> = (0..224 * 224).flat_map(|i| [if (i % 224 / 8 + i / 224 / 8) % 2 == 0 { 90 } else { 160 }; 3]).collect();
    assert_eq!(ffi::stamp_fiducials(&mut data, 224, 224, frame), 0);
    let mut ws = Workspace::new(224, 224, frame).unwrap();
    let fitted = ws.fit_geometry(&data).unwrap();
    assert_eq!((fitted.grade, fitted.fit.k()), (Grade::TooFew, -0.2));
    ws.warp_with(&data, &fitted.fit).unwrap();
    let before = ws.canonical().to_vec();

    data[..3 * 224].fill(0);
    let refusal = ws.rectify(&data).unwrap_err();
    assert_eq!((refusal.number(), refusal.responsible()), (16, Responsible::Photographer));
    assert!(ws.looked() && ws.candidates().len() == 4 && ws.patches().len() > 4);
    // Every stage keeps its first term, −0.20.
    assert_eq!((ws.grade(), ws.trials()), (Some(Grade::TooFew), (61, 61)));
    assert_eq!(ws.canonical(), before);

    // Patches alone have no grade.
    ws.label_blobs(&[1; 224 * 224]).unwrap();
    assert_eq!((ws.patches().len(), ws.grade()), (1, None));
}

/// A lens term that a stage tries again is one trial. The terms that are kept are the original's.
#[test]
fn different_lens_terms_are_counted() {
    let (w, h, frame) = (190, 180, Frame { width: 240, height: 240, cell: 8, margin: 60 });
    let card = scene::Frame { width: 240, height: 240, cell: 8, margin: 60 };
    let mut scene = scene::Scene::straight(w, h, scene::Card::new(card, scene::Cells::Mixed(scene::FOUR, 1)), 0.9);
    let mut ws = Workspace::new(w, h, frame).unwrap();
    for (lens, kept, trials) in [
        // The first two stages keep the end: the second tries it 11 times in 21, the third 8 times in 16.
        (-0.21, -0.2, 41 + 11 + 9),
        (0.24, 0.2, 41 + 11 + 9),
        // The first keeps 0.19: the second tries 0.20 for 0.2008 and 0.2020, and the third does not reach it.
        (0.22, 0.1813, 41 + 20 + 16),
        (0.0, -0.0715, 41 + 21 + 16),
    ] {
        scene.k = lens;
        let r = ws.rectify(&scene.take()).unwrap();
        assert!((r.fit.k() - kept).abs() < 1e-9 && r.score > 0.0, "{lens}: {}", r.fit.k());
        assert_eq!((r.trials, r.homographies, ws.trials()), (trials, trials, (trials, trials)), "{lens}");
    }
}

/// The fit alone is rectify's, and the card under it is rectify's.
#[test]
fn fit_and_warp_apart() {
    let (mut whole, mut apart) = (Workspace::new(192, 192, SMALL).unwrap(), Workspace::new(192, 192, SMALL).unwrap());
    let rectified = whole.rectify(&card()).unwrap();
    let fitted = apart.fit_geometry(&card()).unwrap();
    assert_eq!(fitted.fit.numbers(), rectified.fit.numbers());
    assert_eq!((fitted.grade, fitted.corners), (Grade::Score(rectified.score), rectified.corners));
    assert_eq!((fitted.trials, fitted.homographies), (78, 78));
    assert_eq!(apart.candidates().len(), 4);
    assert!(apart.canonical().iter().all(|&b| b == 0));

    // The same numbers, kept as numbers.
    let fit = Fit::new(fitted.fit.numbers().try_into().unwrap());
    assert_eq!(apart.warp_with(&card(), &fit), Ok(rectified.beyond));
    assert_eq!(apart.canonical(), whole.canonical());
    assert_eq!(apart.candidates().len(), 4);

    assert_eq!(apart.warp_with(&[0; 10], &fit).map_err(Refusal::number), Err(2));
    assert_eq!(apart.fit_geometry(&vec![255; 3 * 192 * 192]).unwrap_err().number(), 7);
    assert!(apart.looked() && apart.candidates().len() == 0);
    assert_eq!(apart.canonical(), whole.canonical());
}

#[test]
fn patches_of_a_mask() {
    let mut ws = Workspace::new(5, 4, SMALL).unwrap();
    #[rustfmt::skip]
    let mask = [
        9, 0, 0, 0, 1,
        9, 9, 0, 1, 0,
        0, 0, 0, 0, 0,
        0, 0, 0, 0, 255,
    ];
    ws.label_blobs(&mask).unwrap();
    let found: Vec<Patch> = ws.patches().collect();
    let one = |x: u64, y: u64| Patch { area: 1, sum_x: x, sum_y: y, x0: x, y0: y, x1: x, y1: y, outline: 4 };
    let three = Patch { area: 3, sum_x: 1, sum_y: 2, x0: 0, y0: 0, x1: 1, y1: 1, outline: 8 };
    assert_eq!(found, [three, one(4, 0), one(3, 1), one(4, 3)]);
    // Never two: a pixel that is taken has at most one dark neighbour that is not yet marked.
    assert_eq!((ws.candidates().len(), ws.waited()), (0, 1));
    // After a refusal there is nothing to read.
    assert_eq!(ws.label_blobs(&mask[1..]).map_err(Refusal::number), Err(2));
    assert_eq!(ws.patches().len(), 0);
}

/// The numbers are what the original's stack says, with its pushes counted (host/oracle/prepare).
#[test]
fn waited_as_on_the_originals_stack() {
    let masks: [(&[&str], usize); 4] = [
        // A tooth is newer than the row's next pixel, and done first. With up before right teeth would wait for the row's end: 3.
        (&["#.#.#.#", "#######"], 2),
        // The right arm is done before the left one forks. With right before left it would wait beside the fork: 3.
        (&["..#..", "#.#..", "#####", "#...."], 2),
        // And so the lower arm before the upper one forks. With down before up: 3.
        (&["#.#.", "#.##", "###.", "..#."], 2),
        // That of the first patch, whose area is 9; the last has 1.
        (&["###.#", "###..", "###.#"], 3),
    ];
    for (rows, waited) in masks {
        let mask: Vec<u8> = rows.concat().bytes().map(|c| u8::from(c == b'#')).collect();
        let mut ws = Workspace::new(rows[0].len(), rows.len(), SMALL).unwrap();
        ws.label_blobs(&mask).unwrap();
        assert_eq!(ws.waited(), waited, "{rows:?}");
    }
}

/// Outlines, in the order of the patches; the first two masks are M7 and M8 of docs/REQUIREMENTS.md, 24.4.
#[test]
fn outlines_of_masks() {
    let masks: [(&[&str], &[u64]); 13] = [
        (&["#.#", ".#.", "##."], &[4, 4, 8]),
        (&["#.#", "#.#", "###"], &[16]),
        (&["#"], &[4]),
        (&["."], &[]),
        (&["##", "##"], &[8]),
        // a hole has sides too; what stands in it is another patch
        (&["###", "#.#", "###"], &[16]),
        (&["#####", "#...#", "#.#.#", "#...#", "#####"], &[32, 4]),
        // a row's last pixel and the next row's first are no neighbours, nor are pixels that touch at a corner
        (&["..#", "#.."], &[4, 4]),
        (&["#.", ".#"], &[4, 4]),
        (&["####"], &[10]),
        (&["##.#"], &[6, 4]),
        (&["#", "#", "#"], &[8]),
        (&["#", ".", "#", "#"], &[4, 6]),
    ];
    for (rows, outlines) in masks {
        let mask: Vec<u8> = rows.concat().bytes().map(|c| u8::from(c == b'#')).collect();
        let mut ws = Workspace::new(rows[0].len(), rows.len(), SMALL).unwrap();
        ws.label_blobs(&mask).unwrap();
        assert_eq!(ws.patches().map(|p| p.outline).collect::<Vec<_>>(), outlines, "{rows:?}");
    }
}

/// The sides of dark pixels that face a light pixel or the picture's border, from the mask alone.
fn dark_sides(mask: &[u8], w: usize) -> u64 {
    let dark = |x: usize, y: usize| x < w && y < mask.len() / w && mask[y * w + x] != 0;
    let facing = |i: usize| {
        let (x, y) = (i % w, i / w);
        let around = [(x.wrapping_sub(1), y), (x + 1, y), (x, y.wrapping_sub(1)), (x, y + 1)];
        around.into_iter().filter(|&(x, y)| !dark(x, y)).count() as u64
    };
    (0..mask.len()).filter(|&i| mask[i] != 0).map(facing).sum()
}

/// Sides of every picture of up to so many pixels.
fn sides_up_to(pixels: usize) -> impl Iterator<Item = (usize, usize)> {
    (1..=pixels).flat_map(move |w| (1..=pixels / w).map(move |h| (w, h)))
}

/// The mask whose pixels are the lowest bits of a number.
fn mask_of(dark: u32, pixels: usize) -> Vec<u8> {
    (0..pixels).map(|i| (dark >> i & 1) as u8).collect()
}

/// Of every mask of up to 12 pixels, and of larger ones from light to dark.
#[test]
fn outlines_add_up_to_the_dark_sides() {
    let check = |ws: &mut Workspace, mask: &[u8]| {
        ws.label_blobs(mask).unwrap();
        let (sum, w) = (ws.patches().map(|p| p.outline).sum::<u64>(), ws.width());
        assert_eq!(sum, dark_sides(mask, w), "{w} by {}: {mask:?}", ws.height());
    };
    for (w, h) in sides_up_to(12) {
        let mut ws = Workspace::new(w, h, SMALL).unwrap();
        (0..1 << (w * h)).for_each(|dark| check(&mut ws, &mask_of(dark, w * h)));
    }
    for (w, h) in [(64, 64), (37, 23), (200, 1), (1, 200)] {
        let mut ws = Workspace::new(w, h, SMALL).unwrap();
        for dark in 0..=13 {
            check(&mut ws, &(0..w * h).map(|i| u8::from((i * i + i / w) % 13 < dark)).collect::<Vec<_>>());
        }
    }
}

/// The checkerboard fills the memory for patches, at sizes with an even and an odd width and with a single line.
#[test]
fn most_patches() {
    for (w, h) in [(1, 1), (5, 4), (4, 5), (7, 9), (33, 1), (1, 33)] {
        let mut ws = Workspace::new(w, h, SMALL).unwrap();
        let mask = ws.checkerboard();
        assert_eq!(mask, (0..w * h).map(|i| u8::from((i % w + i / w).is_multiple_of(2))).collect::<Vec<_>>());
        ws.label_blobs(&mask).unwrap();
        assert_eq!((ws.patches().len(), ws.waited()), ((w * h).div_ceil(2), 1), "{w} by {h}");
        let last = (w * h - 1) as u64 - u64::from(mask[w * h - 1] == 0);
        let found = ws.patches().last().unwrap();
        assert_eq!((found.area, found.y0 * w as u64 + found.x0), (1, last));
        assert!(ws.patches().all(|p| p.outline == 4), "{w} by {h}");
    }
    // Every mask of up to 16 pixels: none has more, and some has as many.
    for (w, h) in sides_up_to(16) {
        let mut ws = Workspace::new(w, h, SMALL).unwrap();
        let count = |dark: u32| {
            ws.label_blobs(&mask_of(dark, w * h)).unwrap();
            ws.patches().len()
        };
        assert_eq!((0..1 << (w * h)).map(count).max(), Some((w * h).div_ceil(2)), "{w} by {h}");
    }
    // A longer mask keeps its rest, and a refused one all of it.
    for (w, h, number, wanted) in [(2, 2, 0, [1, 0, 0, 1, 9]), (0, 5, 2, [9; 5]), (4097, 5, 2, [9; 5]), (2, 3, 3, [9; 5])] {
        let mut mask = [9; 5];
        assert_eq!((ffi::checkerboard(w, h, &mut mask), mask), (number, wanted), "{w} by {h}");
    }
}

/// Three patches, and their boxes as x0, y0, x1, y1.
const THREE: [&str; 6] = ["##......", "##......", "....###.", "....#.#.", "....###.", "#......."];
const BOXES: [[u64; 4]; 3] = [[0, 0, 1, 1], [4, 2, 6, 4], [0, 5, 0, 5]];

/// What a look at such rows leaves.
fn looked_at(rows: &[&str]) -> Workspace {
    let mask: Vec<u8> = rows.concat().bytes().map(|c| u8::from(c == b'#')).collect();
    let mut ws = Workspace::new(rows[0].len(), rows.len(), SMALL).unwrap();
    ws.label_blobs(&mask).unwrap();
    ws
}

fn rectangle([x0, y0, x1, y1]: [u64; 4]) -> Rectangle {
    Rectangle { x0, y0, x1, y1 }
}

fn window(count: u64, first: Option<usize>, nearest: Option<usize>) -> Window {
    Window { count, first, nearest }
}

#[test]
fn windows_over_known_patches() {
    let asked: [(&[&str], [u64; 4], Window); 13] = [
        // the last pixel of the first box and the first of the second
        (&THREE, [1, 1, 4, 2], window(2, Some(0), Some(0))),
        (&THREE, [6, 4, 7, 5], window(1, Some(1), Some(1))),
        // apart by one: to the right, to the left, above, below and at a corner
        (&THREE, [2, 0, 3, 1], window(0, None, Some(0))),
        (&THREE, [2, 2, 3, 4], window(0, None, Some(1))),
        (&THREE, [4, 0, 6, 1], window(0, None, Some(1))),
        (&THREE, [4, 5, 6, 5], window(0, None, Some(1))),
        (&THREE, [7, 5, 7, 5], window(0, None, Some(1))),
        // the hole of a ring lies in its box
        (&THREE, [5, 3, 5, 3], window(1, Some(1), Some(1))),
        (&THREE, [0, 0, 7, 5], window(3, Some(0), Some(1))),
        // the later patch alone touches, and the earlier is as near
        (&["#..###"], [1, 0, 3, 0], window(1, Some(1), Some(0))),
        // 25 + 0 and 9 + 9
        (&[".......", ".......", ".##....", ".....##", ".....##"], [4, 2, 4, 2], window(0, None, Some(1))),
        // past the picture
        (&["#.#"], [4095, 4095, 4095, 4095], window(0, None, Some(1))),
        (&["...", "..."], [0, 0, 2, 1], window(0, None, None)),
    ];
    for (rows, at, wanted) in asked {
        assert_eq!(looked_at(rows).windows(&[rectangle(at)]), Ok(vec![wanted]), "{rows:?}, {at:?}");
    }
}

/// Pixels of a box, both ends counted.
fn pixels([x0, y0, x1, y1]: [u64; 4]) -> impl Iterator<Item = (u64, u64)> {
    (y0..=y1).flat_map(move |y| (x0..=x1).map(move |x| (x, y)))
}

/// Pixel by pixel, and the least distance as often as it comes.
fn defined(at: [u64; 4]) -> Window {
    let touching: Vec<usize> = (0..BOXES.len()).filter(|&i| pixels(BOXES[i]).any(|p| pixels(at).any(|q| p == q))).collect();
    let between = |a: u64, b: u64, c: u64, d: u64| (a + b).abs_diff(c + d).pow(2);
    let distances = BOXES.map(|b| between(b[0], b[2], at[0], at[2]) + between(b[1], b[3], at[1], at[3]));
    let least = distances.iter().min().unwrap();
    window(touching.len() as u64, touching.first().copied(), distances.iter().position(|d| d == least))
}

/// Every rectangle in the picture and one pixel past it, 64 a call.
#[test]
fn windows_by_their_definition() {
    let ws = looked_at(&THREE);
    assert_eq!(ws.patches().map(|p| [p.x0, p.y0, p.x1, p.y1]).collect::<Vec<_>>(), BOXES);
    let spans = |to: u64| (0..=to).flat_map(move |a| (a..=to).map(move |b| (a, b)));
    let all: Vec<[u64; 4]> = spans(8).flat_map(|(x0, x1)| spans(6).map(move |(y0, y1)| [x0, y0, x1, y1])).collect();
    assert_eq!(all.len(), 45 * 28);
    for part in all.chunks(64) {
        let found = ws.windows(&part.iter().copied().map(rectangle).collect::<Vec<_>>()).unwrap();
        assert_eq!(found.len(), part.len());
        for (&at, found) in part.iter().zip(found) {
            assert_eq!(found, defined(at), "{at:?}");
        }
    }
}

#[test]
fn rectangles_that_are_refused() {
    let ws = looked_at(&THREE);
    let good = [1, 1, 4, 2];
    let asked = |count: usize, last: [u64; 4]| {
        let mut all = vec![rectangle(good); count];
        all[count - 1] = rectangle(last);
        ws.windows(&all).map(|found| found.len())
    };
    assert_eq!((ws.windows(&[]), asked(1, good), asked(64, good)), (Ok(vec![]), Ok(1), Ok(64)));
    assert_eq!((asked(1, [0, 0, 4095, 4095]), asked(64, [4095; 4])), (Ok(1), Ok(64)));
    let refusal = asked(65, good).unwrap_err();
    assert_eq!((refusal.number(), refusal.responsible(), refusal.looked()), (17, Responsible::Rectangles, false));
    assert_eq!(asked(1000, good), Err(refusal));
    for last in [[5, 1, 4, 2], [1, 3, 4, 2], [1, 1, 4096, 2], [1, 1, 4, 4096], [1, 1, u64::MAX, 2], [u64::MAX; 4]] {
        assert_eq!((asked(1, last), asked(64, last)), (Err(refusal), Err(refusal)), "{last:?}");
    }
    // A refusal is no call that looks.
    assert_eq!(ws.patches().len(), 3);
}

/// Without a look there is an empty list.
#[test]
fn windows_are_those_of_the_last_look() {
    let whole = [rectangle([0, 0, 7, 5])];
    let (none, three) = (Ok(vec![window(0, None, None)]), Ok(vec![window(3, Some(0), Some(1))]));
    assert_eq!(Workspace::new(8, 6, SMALL).unwrap().windows(&whole), none);
    let mut ws = looked_at(&THREE);
    assert_eq!(ws.windows(&whole), three);
    assert_eq!(ws.label_blobs(&[1; 47]).map_err(Refusal::number), Err(2));
    assert_eq!(ws.windows(&whole), none);
    assert_eq!(ws.windows(&[rectangle([1, 0, 0, 0])]).map_err(Refusal::number), Err(17));
    ws.label_blobs(&[0; 48]).unwrap();
    assert_eq!(ws.windows(&whole), none);
}

/// The list of such boxes; of a record nothing else is read.
fn list(boxes: &[[u64; 4]]) -> Vec<u64> {
    boxes.iter().flat_map(|b| [u64::MAX, 0, u64::MAX, b[0], b[1], b[2], b[3], u64::MAX]).collect()
}

#[test]
fn a_refusal_of_the_library_leaves_the_answers() {
    let (good, bad) = ([1, 1, 4, 2], [1, 1, 0, 2]);
    let ends = |last: [u64; 4], count: usize| [vec![good; count - 1], vec![last]].concat().concat();
    let boxes = |last: [u64; 4]| list(&[BOXES[0], BOXES[1], last]);
    let far = [1 << 61, 1 << 62, 1 << 63, usize::MAX / 3 + 1, usize::MAX];
    let mut asked = vec![
        // Each a number too short, which goes before 17.
        (boxes(bad)[..23].to_vec(), 3, ends(bad, 2), 2, 6, 3),
        (boxes(bad), 3, ends(bad, 2)[..7].to_vec(), 2, 6, 3),
        (boxes(bad), 3, ends(bad, 2), 2, 5, 3),
        (boxes(good), 3, ends(good, 65), 65, 194, 3),
        (boxes(good), 3, ends(good, 65), 65, 195, 17),
        (boxes(good), 3, ends(bad, 2), 2, 6, 17),
        (boxes(bad), 3, ends(good, 2), 2, 6, 17),
        // The boxes are tried without a rectangle too.
        (boxes(bad), 3, vec![], 0, 6, 17),
        (boxes([4096, 0, 4096, 0]), 3, vec![], 0, 6, 17),
    ];
    asked.extend(far.map(|n| (boxes(good), n, ends(good, 2), 2, 6, 3)));
    asked.extend(far.map(|k| (boxes(good), 3, ends(good, 2), k, 6, 3)));
    for (patches, n, windows, k, length, number) in asked {
        let mut answers = vec![9; length];
        assert_eq!(ffi::patch_windows(&patches, n, &windows, k, &mut answers), number, "{n} patches, {k} rectangles, {length}");
        assert!(answers.iter().all(|&a| a == 9), "{n} patches, {k} rectangles, {length}");
    }
}

/// What lies past the count is not looked at, and what lies past the answers stays.
#[test]
fn longer_lists_of_the_library() {
    let (patches, windows) = (list(&[BOXES[0], [4, 2, 4095, 4095], [9, 9, 8, 8]]), [1, 1, 4, 2, 7, 7, 6, 6]);
    let mut answers = [9; 5];
    assert_eq!((ffi::patch_windows(&patches, 2, &windows, 1, &mut answers), answers), (0, [2, 0, 0, 9, 9]));
    assert_eq!((ffi::patch_windows(&patches, 0, &windows, 1, &mut answers), answers), (0, [0, ffi::NO_PATCH, ffi::NO_PATCH, 9, 9]));
    assert_eq!((ffi::patch_windows(&patches, 2, &windows, 0, &mut answers), answers), (0, [0, ffi::NO_PATCH, ffi::NO_PATCH, 9, 9]));
    assert_eq!(ffi::patch_windows(&[], 0, &[], 0, &mut []), 0);
}

#[test]
fn limits() {
    for (w, h, frame, number) in [
        (0, 1, SMALL, 2),
        (4097, 1, SMALL, 2),
        (1, usize::MAX, SMALL, 2),
        (1, 1, Frame { cell: 513, ..SMALL }, 1),
        (0, 0, Frame { margin: 4097, ..SMALL }, 1),
    ] {
        assert_eq!(Workspace::new(w, h, frame).err().map(|r| r.number()), Some(number));
    }
    assert!(Workspace::new(1, 1, Frame { width: 1, height: 1, cell: 512, margin: 4096 }).is_ok());
}

#[test]
fn refusals_say_what_to_do() {
    let refusal = Workspace::new(1, 1, Frame { cell: 0, ..SMALL }).err().unwrap();
    assert_eq!(refusal.responsible(), Responsible::Frame);
    assert_eq!(
        refusal.to_string(),
        "refused 1: a frame number is outside its limit (sides 1 to 4096, cell 1 to 512, margin 0 to 4096); correct the frame description"
    );
}

#[test]
fn frames_in_words() {
    assert_eq!("848,636,10,106".parse(), Ok(Frame::BENCH));
    assert_eq!(Frame::BENCH.to_string(), "848,636,10,106");
    assert_eq!(Frame::BENCH.grid().unwrap(), (63, 42));
}

/// The lengths that the library names are those of docs/REQUIREMENTS.md, 3.1, and one entry less is refused by 3.
#[test]
fn smallest_lengths() {
    let mut n = [0; ffi::LENGTHS_LEN];
    assert_eq!(ffi::lengths(33, 47, SMALL, &mut n), 0);
    let pixels = 33 * 47;
    assert_eq!(n, [3 * pixels, pixels, 34 * 48, pixels, pixels, pixels, 8 * 776, 4 * 48, 48, 1024, 3 * 192 * 192]);
    assert_eq!(ffi::lengths(33, 47, SMALL, &mut n[..10]), 3);
}
