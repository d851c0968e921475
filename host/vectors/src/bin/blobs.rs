//! Vectors for the program crate test_blobs: masks, and how many patches each has and how many pixels waited. In host/vectors,
//! after host/oracle/prepare:
//!   CARGO_TARGET_DIR=../target cargo run --release --offline --bin blobs
//! writes crates/test_blobs/stdin and stdout.
//!
//! stdin has the masks one after the other: width and height as 64-bit words, lowest byte first, then a byte for each pixel, 0
//! where it is light and any other value where it is dark. stdout has a line for each mask: width, height, the number of patches
//! of the original's `label_blobs`, and the most pixels that its stack held.
//!
//! Builds that report another number are tried here too, by a search of their own. Of each it is printed how many masks tell it
//! from the original; fewer than three are not enough.

use std::collections::VecDeque;
use vectors::masks::{comb_down, comb_up, mask, mixed, rows, spiral, Mask};
use vectors::patches::{records, waited};

#[derive(Clone, Copy)]
enum Step {
    Left,
    Right,
    Up,
    Down,
}

use Step::{Down, Left, Right, Up};

/// What a search counts the waiting pixels after.
#[derive(Clone, Copy, PartialEq)]
enum Counted {
    /// Each pixel that goes on.
    GoneOn,
    /// Each but a patch's first.
    NeighbourGoneOn,
    /// Each that is taken, before its neighbours go on.
    Taken,
}

#[derive(Clone, Copy)]
struct Search {
    /// The newest pixel is taken first, else the oldest.
    newest: bool,
    /// In which neighbours go on.
    order: [Step; 4],
    /// Pixels are marked as they go on, else when they are taken.
    marked_going_on: bool,
    counted: Counted,
}

const ORIGINAL: Search = Search { newest: true, order: [Left, Right, Up, Down], marked_going_on: true, counted: Counted::GoneOn };

struct Patch {
    area: usize,
    waited: usize,
}

fn neighbour(m: &Mask, i: usize, step: Step) -> Option<usize> {
    let x = i % m.w;
    match step {
        Left => (x > 0).then(|| i - 1),
        Right => (x + 1 < m.w).then_some(i + 1),
        Up => i.checked_sub(m.w),
        Down => Some(i + m.w).filter(|&i| i < m.w * m.h),
    }
}

/// The patch of a first pixel.
fn traced(m: &Mask, s: Search, marked: &mut [bool], first: usize) -> Patch {
    let mut waiting = VecDeque::from([first]);
    marked[first] = s.marked_going_on;
    let mut p = Patch { area: 0, waited: usize::from(s.counted == Counted::GoneOn) };
    while let Some(i) = if s.newest { waiting.pop_back() } else { waiting.pop_front() } {
        if !s.marked_going_on && std::mem::replace(&mut marked[i], true) {
            continue;
        }
        p.area += 1;
        if s.counted == Counted::Taken {
            p.waited = p.waited.max(waiting.len());
        }
        for j in s.order.into_iter().filter_map(|step| neighbour(m, i, step)) {
            if m.dark[j] && !marked[j] {
                marked[j] = s.marked_going_on;
                waiting.push_back(j);
                if s.counted != Counted::Taken {
                    p.waited = p.waited.max(waiting.len());
                }
            }
        }
    }
    p
}

fn patches(m: &Mask, s: Search) -> Vec<Patch> {
    let (mut marked, mut patches) = (vec![false; m.dark.len()], Vec::new());
    for i in 0..m.dark.len() {
        if m.dark[i] && !marked[i] {
            patches.push(traced(m, s, &mut marked, i));
        }
    }
    patches
}

/// What a build reports of the patches that its search finds.
type Report = fn(&[Patch]) -> usize;

fn most(patches: &[Patch]) -> usize {
    patches.iter().map(|p| p.waited).max().unwrap_or(0)
}

fn wrong_builds() -> [(&'static str, Search, Report); 11] {
    let order = |order| Search { order, ..ORIGINAL };
    [
        ("the oldest pixel taken first", Search { newest: false, ..ORIGINAL }, most),
        ("right before left", order([Right, Left, Up, Down]), most),
        ("up and down before left and right", order([Up, Down, Left, Right]), most),
        ("down before up", order([Left, Right, Down, Up]), most),
        ("marked when taken", Search { marked_going_on: false, ..ORIGINAL }, most),
        ("counted when a pixel is taken, before its neighbours", Search { counted: Counted::Taken, ..ORIGINAL }, most),
        ("the first pixel not counted", Search { counted: Counted::NeighbourGoneOn, ..ORIGINAL }, most),
        ("the first patch's", ORIGINAL, |p| p.first().map_or(0, |p| p.waited)),
        ("the last patch's", ORIGINAL, |p| p.last().map_or(0, |p| p.waited)),
        ("the sum over the patches", ORIGINAL, |p| p.iter().map(|p| p.waited).sum()),
        ("the largest area", ORIGINAL, |p| p.iter().map(|p| p.area).max().unwrap_or(0)),
    ]
}

fn full(w: usize, h: usize) -> Mask {
    mask(w, h, |_, _| true)
}

/// Light, single pixels, lines, whole rectangles, a spiral, a plus sign and rings.
fn plain() -> Vec<Mask> {
    vec![
        mask(5, 4, |_, _| false),
        full(1, 1),
        mask(7, 5, |x, y| (x, y) == (4, 2)),
        mask(9, 3, |_, y| y == 1),
        mask(3, 9, |x, _| x == 1),
        full(64, 1),
        full(1, 64),
        full(5, 3),
        full(3, 5),
        full(64, 64),
        spiral(33),
        rows(&["..#..", "..#..", "#####", "..#..", "..#.."]),
        rows(&["###", "#.#", "###"]),
        rows(&["#####", "#...#", "#.#.#", "#...#", "#####"]),
        mask(16, 15, |x, y| (x + y) % 2 == 0),
        mask(13, 8, |x, y| x % 3 == 1 && y % 2 == 0),
    ]
}

/// Combs with their teeth up, down, to the left, to the right and to both sides; a trunk with branches that have branches; and
/// forks behind which the arm done first is the plain one: with right before left, or down before up, it would wait.
fn branched() -> Vec<Mask> {
    vec![
        comb_up(33, 9),
        comb_down(33, 9),
        mask(9, 33, |x, y| x == 8 || y % 2 == 0),
        mask(9, 33, |x, y| x == 0 || y % 2 == 0),
        mask(17, 21, |x, y| x == 8 || y % 2 == 0),
        mask(21, 17, |x, y| y == 8 || x % 2 == 0),
        mask(33, 31, |x, y| x == 16 || y % 6 == 3 || x % 4 == 2 && y % 6 != 0),
        rows(&["..#..", "#.#..", "#####", "#...."]),
        rows(&["#.#.", "#.##", "###.", "..#."]),
    ]
}

/// Masks side by side, a light column between each two.
fn beside(parts: &[&Mask]) -> Mask {
    let h = parts.iter().map(|m| m.h).max().unwrap();
    let w = parts.iter().map(|m| m.w + 1).sum::<usize>() - 1;
    let mut all = mask(w, h, |_, _| false);
    let mut left = 0;
    for m in parts {
        for i in (0..m.dark.len()).filter(|&i| m.dark[i]) {
            all.dark[i / m.w * w + left + i % m.w] = true;
        }
        left += m.w + 1;
    }
    all
}

/// Three patches, of which the first, the second and the third has the greatest number.
fn several() -> [Mask; 3] {
    let (line, plus, block) = (full(1, 7), rows(&[".#.", "###", ".#."]), full(7, 6));
    let masks = [[&block, &plus, &line], [&line, &block, &plus], [&plus, &line, &block]].map(|parts| beside(&parts));
    for (i, m) in masks.iter().enumerate() {
        let numbers: Vec<usize> = patches(m, ORIGINAL).iter().map(|p| p.waited).collect();
        assert!(numbers.len() == 3 && (0..3).all(|j| j == i || numbers[j] < numbers[i]), "{numbers:?}");
    }
    masks
}

/// From few dark pixels to few light ones, no side as long as the other.
fn at_random() -> Vec<Mask> {
    let sides = [(17, 11, 2), (11, 17, 3), (45, 27, 4), (27, 45, 5), (63, 37, 6), (37, 63, 6), (61, 64, 7), (64, 59, 7)];
    (1..).zip(sides).map(|(seed, (w, h, k))| mixed(w, h, k, seed)).collect()
}

fn main() {
    let masks: Vec<Mask> = plain().into_iter().chain(branched()).chain(several()).chain(at_random()).collect();
    let (mut input, mut output, mut numbers) = (Vec::new(), String::new(), Vec::new());
    for m in &masks {
        assert!(m.w <= 64 && m.h <= 64);
        input.extend([m.w, m.h].iter().flat_map(|&n| (n as u64).to_le_bytes()));
        input.extend((0..m.dark.len()).map(|i| if m.dark[i] { 1 + (i % 255) as u8 } else { 0 }));
        let (count, waited) = (records(&m.dark, m.w, m.h).len(), waited(&m.dark, m.w, m.h));
        let ours = patches(m, ORIGINAL);
        assert_eq!((ours.len(), most(&ours)), (count, waited), "{} by {}", m.w, m.h);
        output += &format!("{} {} {count} {waited}\n", m.w, m.h);
        numbers.push(waited);
    }
    assert!(masks.len() <= 40 && input.len() <= 65535);
    println!("{} masks, {} bytes", masks.len(), input.len());
    for (name, search, report) in wrong_builds() {
        let told = masks.iter().zip(&numbers).filter(|(m, &n)| report(&patches(m, search)) != n).count();
        println!("{told:3} tell it: {name}");
        assert!(told >= 3, "{name}");
    }
    vectors::write("test_blobs", &input, &output);
}
