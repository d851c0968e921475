//! Vectors for the program crate test_windows: patch lists, rectangles over them, and what each is answered. In host/vectors, after
//! host/oracle/prepare:
//!   CARGO_TARGET_DIR=../target cargo run --release --offline --bin windows
//! writes crates/test_windows/stdin and stdout.
//!
//! stdin has the questions one after the other, all words 64 bits, lowest byte first: w, h, the length of the list, n, the length of
//! the windows, k, the length of the answers; then, where w is above 0, a byte for each pixel of a mask, 0 where it is light and any
//! other value where it is dark, whose patches are the list, and else the words of the list; then the words of the windows. The patch
//! area of the program has 16,384 numbers, that of the windows 512 and that of the answers 256, all 9 before each question.
//! stdout has for each question, where w is above 0, `patches` and their number, as many as the original's `label_blobs` lists; then
//! `accepted` or `refused` and the number; where accepted a line for each rectangle, how many patches touch it, the first of them and
//! the nearest patch, `-` where there is none; and `rest`, how many of the 256 answers from 3k on, or of all where refused, are still 9.
//!
//! Builds that answer otherwise are tried here too. Of each it is printed how many questions tell it from the right one.

use vectors::masks::{mask, mixed, rows, Mask};
use vectors::patches::{records, PATCH_LEN};
use vectors::Random;

const RECTANGLE_LEN: usize = 4;
const WINDOW_LEN: usize = 3;
const MOST_WINDOWS: u64 = 64;
const LAST: u64 = 4095;

/// The program's areas, and what it reads.
const PATCH_AREA: usize = 16384;
const WINDOW_AREA: usize = 512;
const ANSWER_AREA: usize = 256;
const INPUT: usize = 65535;

/// x0, y0, x1, y1, both ends counted.
type Ends = [u64; RECTANGLE_LEN];

struct Question {
    mask: Option<Mask>,
    /// Of a mask its patches: they are not written, the program finds them.
    list: Vec<u64>,
    n: u64,
    windows: Vec<u64>,
    k: u64,
    answers_len: usize,
}

/// What a rectangle is answered: a count and two places.
type Window = (usize, Option<usize>, Option<usize>);

/// Columns and rows of both. Where it is little work every pixel of the one is held against every pixel of the other too.
fn touches(a: Ends, b: Ends) -> bool {
    let pixels = |e: Ends| (e[1]..=e[3]).flat_map(move |y| (e[0]..=e[2]).map(move |x| (x, y)));
    let size = |e: Ends| (e[2] - e[0] + 1) * (e[3] - e[1] + 1);
    let common = |axis: usize| (a[axis]..=a[axis + 2]).any(|i| (b[axis]..=b[axis + 2]).contains(&i));
    let found = common(0) && common(1);
    if size(a) * size(b) <= 1 << 20 {
        assert_eq!(found, pixels(a).any(|p| pixels(b).any(|q| p == q)), "{a:?} and {b:?}");
    }
    found
}

/// The differences of the doubled centres.
fn apart(a: Ends, b: Ends) -> [i64; 2] {
    [0, 1].map(|axis| (a[axis] + a[axis + 2]) as i64 - (b[axis] + b[axis + 2]) as i64)
}

fn squared([dx, dy]: [i64; 2]) -> i64 {
    dx * dx + dy * dy
}

/// An end before its start or above 4,095.
fn bad([x0, y0, x1, y1]: Ends) -> bool {
    x1 < x0 || y1 < y0 || x1 > LAST || y1 > LAST
}

/// A build, by what its answers are made of.
#[derive(Clone, Copy)]
struct Build {
    record_len: usize,
    rectangle: fn(Ends) -> Ends,
    touches: fn(Ends, Ends) -> bool,
    distance: fn(Ends, Ends) -> i64,
    count: fn(&[usize]) -> usize,
    first: fn(&[usize]) -> Option<usize>,
    /// Of all distances, and of the places that touch.
    nearest: fn(&[i64], &[usize]) -> Option<usize>,
    /// Of a length, the numbers of each and how many: whether it is too short.
    short: fn(usize, u64, u64) -> bool,
    bad_rectangle: fn(Ends) -> bool,
    bad_box: fn(Ends) -> bool,
    /// Of how many records and how many rectangles: which boxes are tried.
    tried: fn(usize, u64) -> usize,
    most: u64,
    /// 17 goes before 3.
    ends_first: bool,
}

const RIGHT: Build = Build {
    record_len: PATCH_LEN,
    rectangle: |at| at,
    touches,
    distance: |a, b| squared(apart(a, b)),
    count: |touching| touching.len(),
    first: |touching| touching.first().copied(),
    nearest: |distances, _| (0..distances.len()).min_by_key(|&i| (distances[i], i)),
    short: |length, each, count| (length as u128) < u128::from(each) * u128::from(count),
    bad_rectangle: bad,
    bad_box: bad,
    tried: |n, _| n,
    most: MOST_WINDOWS,
    ends_first: false,
};

impl Build {
    fn boxes(&self, q: &Question) -> Vec<Ends> {
        let each = q.list.chunks_exact(self.record_len);
        each.take(usize::try_from(q.n).unwrap()).map(|r| [r[3], r[4], r[5], r[6]]).collect()
    }

    fn rectangles(&self, q: &Question) -> Vec<Ends> {
        let each = q.windows.chunks_exact(RECTANGLE_LEN);
        each.take(usize::try_from(q.k).unwrap()).map(|e| (self.rectangle)([e[0], e[1], e[2], e[3]])).collect()
    }

    fn is_short(&self, q: &Question) -> bool {
        let lent = [(q.answers_len, WINDOW_LEN, q.k), (q.windows.len(), RECTANGLE_LEN, q.k), (q.list.len(), PATCH_LEN, q.n)];
        lent.iter().any(|&(length, each, count)| (self.short)(length, each as u64, count))
    }

    /// As far as there are rectangles and boxes.
    fn is_bad(&self, q: &Question) -> bool {
        let (boxes, rectangles) = (self.boxes(q), self.rectangles(q));
        let tried = &boxes[..(self.tried)(boxes.len(), q.k)];
        q.k > self.most || rectangles.into_iter().any(self.bad_rectangle) || tried.iter().any(|&b| (self.bad_box)(b))
    }

    /// 0 where it accepts.
    fn refusal(&self, q: &Question) -> u32 {
        match (self.is_short(q), self.is_bad(q)) {
            (false, false) => 0,
            (true, true) => [3, 17][usize::from(self.ends_first)],
            (short, _) => [17, 3][usize::from(short)],
        }
    }

    fn window(&self, at: Ends, boxes: &[Ends]) -> Window {
        let touching: Vec<usize> = (0..boxes.len()).filter(|&i| (self.touches)(at, boxes[i])).collect();
        let distances: Vec<i64> = boxes.iter().map(|&b| (self.distance)(at, b)).collect();
        ((self.count)(&touching), (self.first)(&touching), (self.nearest)(&distances, &touching))
    }

    /// Where it accepts.
    fn answers(&self, q: &Question) -> Vec<Window> {
        self.rectangles(q).into_iter().map(|at| self.window(at, &self.boxes(q))).collect()
    }

    /// Whether a question tells it from the right one.
    fn told_by(&self, q: &Question) -> bool {
        match RIGHT.refusal(q) {
            number if self.refusal(q) != number => true,
            number => number == 0 && self.answers(q) != RIGHT.answers(q),
        }
    }
}

/// As if the last column and row of both were not theirs.
fn touches_open(a: Ends, b: Ends) -> bool {
    [0, 1].iter().all(|&axis| a[axis] < b[axis + 2] && b[axis] < a[axis + 2])
}

fn halved(a: Ends, b: Ends) -> i64 {
    squared([0, 1].map(|axis| ((a[axis] + a[axis + 2]) / 2) as i64 - ((b[axis] + b[axis + 2]) / 2) as i64))
}

fn wrong_answers() -> [(&'static str, Build); 13] {
    [
        ("the later of equally near", Build { nearest: |d, _| (0..d.len()).rev().min_by_key(|&i| d[i]), ..RIGHT }),
        ("nearest only among those that touch", Build { nearest: |d, t| t.iter().copied().min_by_key(|&i| (d[i], i)), ..RIGHT }),
        (
            "of equally near the one that touches",
            Build { nearest: |d, t| (0..d.len()).min_by_key(|&i| (d[i], !t.contains(&i), i)), ..RIGHT },
        ),
        ("ends not counted", Build { touches: touches_open, ..RIGHT }),
        ("the last touching patch as the first", Build { first: |touching| touching.last().copied(), ..RIGHT }),
        ("the first that touches as the nearest", Build { nearest: |d, t| t.first().copied().or((RIGHT.nearest)(d, t)), ..RIGHT }),
        ("centres halved before they are compared", Build { distance: halved, ..RIGHT }),
        ("distance without squares", Build { distance: |a, b| apart(a, b).iter().map(|d| d.abs()).sum(), ..RIGHT }),
        ("only dx", Build { distance: |a, b| apart(a, b)[0].abs(), ..RIGHT }),
        ("only dy", Build { distance: |a, b| apart(a, b)[1].abs(), ..RIGHT }),
        ("x and y of a rectangle exchanged", Build { rectangle: |[x0, y0, x1, y1]| [y0, x0, y1, x1], ..RIGHT }),
        ("a count that stops at one", Build { count: |touching| touching.len().min(1), ..RIGHT }),
        ("a list read with seven numbers a record", Build { record_len: PATCH_LEN - 1, ..RIGHT }),
    ]
}

fn wrong_refusals() -> [(&'static str, Build); 11] {
    [
        ("17 before 3", Build { ends_first: true, ..RIGHT }),
        ("65 rectangles taken", Build { most: MOST_WINDOWS + 1, ..RIGHT }),
        ("64 rectangles refused", Build { most: MOST_WINDOWS - 1, ..RIGHT }),
        ("lengths that wrap", Build { short: |length, each, count| (length as u64) < each.wrapping_mul(count), ..RIGHT }),
        (
            "lengths that must be exact",
            Build { short: |length, each, count| length as u128 != u128::from(each) * u128::from(count), ..RIGHT },
        ),
        ("boxes not tried", Build { bad_box: |_| false, ..RIGHT }),
        ("rectangles not tried", Build { bad_rectangle: |_| false, ..RIGHT }),
        ("boxes not tried without a rectangle", Build { tried: |n, k| if k == 0 { 0 } else { n }, ..RIGHT }),
        ("the last box not tried", Build { tried: |n, _| n.saturating_sub(1), ..RIGHT }),
        (
            "4,095 refused",
            Build { bad_box: |b| bad(b) || b[2..].contains(&LAST), bad_rectangle: |b| bad(b) || b[2..].contains(&LAST), ..RIGHT },
        ),
        ("an end before its start taken", Build { bad_rectangle: |e| e.iter().any(|&end| end > LAST), ..RIGHT }),
    ]
}

/// The list of such boxes; of a record nothing else is read.
fn list(boxes: &[Ends]) -> Vec<u64> {
    boxes.iter().flat_map(|b| [7, 70, 700, b[0], b[1], b[2], b[3], 7000]).collect()
}

/// All boxes and all rectangles, in areas that just do.
fn over(boxes: &[Ends], rectangles: &[Ends]) -> Question {
    let (n, k) = (boxes.len(), rectangles.len());
    Question { mask: None, list: list(boxes), n: n as u64, windows: rectangles.concat(), k: k as u64, answers_len: WINDOW_LEN * k }
}

/// All patches of a mask.
fn over_mask(m: Mask, rectangles: &[Ends]) -> Question {
    let list: Vec<u64> = records(&m.dark, m.w, m.h).concat();
    Question { n: (list.len() / PATCH_LEN) as u64, list, mask: Some(m), ..over(&[], rectangles) }
}

const BOX: Ends = [10, 10, 20, 20];

/// One box, and how a rectangle can lie to it.
fn touching() -> Vec<Question> {
    let corners = [[5, 5, 10, 10], [20, 5, 25, 10], [5, 20, 10, 25], [20, 20, 25, 25]];
    let sides = [[5, 12, 10, 15], [20, 12, 25, 15], [12, 5, 15, 10], [12, 20, 15, 25]];
    let beside = [[5, 12, 9, 15], [21, 12, 25, 15], [12, 5, 15, 9], [12, 21, 15, 25]];
    let past_corners = [[5, 5, 9, 10], [5, 5, 10, 9], [21, 20, 25, 25], [20, 21, 25, 25], [5, 5, 9, 9], [21, 21, 25, 25]];
    // the same, around it, within it, across it both ways, a pixel of it
    let others = [BOX, [0, 0, 40, 40], [12, 13, 14, 17], [0, 14, 40, 16], [14, 0, 16, 40], [10, 20, 10, 20]];
    vec![
        over(&[BOX], &corners),
        over(&[BOX], &sides),
        over(&[BOX], &beside),
        over(&[BOX], &past_corners),
        over(&[BOX], &others),
        // a box of one pixel, and boxes that touch each other
        over(&[[7, 9, 7, 9]], &[[7, 9, 7, 9], [6, 8, 8, 10], [8, 9, 9, 9], [7, 8, 7, 8], [9, 7, 9, 7]]),
        over(&[BOX, [20, 20, 30, 30], [21, 10, 30, 19], BOX], &[[20, 20, 20, 20], [21, 19, 21, 19], [31, 31, 31, 31], [15, 15, 25, 25]]),
        // rectangles that touch two of four, the first of them not the first of the list
        over(&[[0, 0, 1, 1], [30, 0, 31, 1], [0, 30, 1, 31], [30, 30, 31, 31]], &[[1, 30, 30, 31], [30, 1, 30, 30], [2, 2, 29, 29]]),
    ]
}

/// Which box is nearest.
fn nearest() -> Vec<Question> {
    let (left, touches) = ([0, 10, 2, 10], [20, 10, 38, 10]);
    let at = [10, 10, 20, 10];
    vec![
        // both as far: the earlier, whichever of them touches
        over(&[left, touches], &[at]),
        over(&[touches, left], &[at]),
        over(&[[4, 4, 4, 4], [6, 4, 6, 4], [5, 3, 5, 3], [5, 5, 5, 5]], &[[5, 4, 5, 4], [4, 3, 6, 5], [5, 5, 5, 5]]),
        over(&[[9, 9, 9, 9], [4, 4, 4, 4], [4, 4, 4, 4], [4, 3, 4, 5]], &[[4, 4, 4, 4], [0, 0, 8, 8]]),
        // odd sums: doubled 3 and 2 apart, halved and rounded down both 1
        over(&[[0, 0, 0, 0], [2, 0, 3, 0]], &[[1, 0, 2, 0]]),
        over(&[[0, 0, 0, 0], [0, 2, 0, 3]], &[[0, 1, 0, 2]]),
        // 25 + 0 and 9 + 9
        over(&[[1, 2, 2, 2], [5, 3, 6, 4]], &[[4, 2, 4, 2]]),
        over(&[[2, 1, 2, 2], [3, 5, 4, 6]], &[[2, 4, 2, 4]]),
        // dx alone, and dy alone, would have the first
        over(&[[7, 40, 7, 40], [9, 3, 9, 3]], &[[7, 2, 7, 2]]),
        over(&[[40, 7, 40, 7], [3, 9, 3, 9]], &[[2, 7, 2, 7]]),
        // a large box touches, and the centre of a small one that does not is nearer
        over(&[[0, 0, 100, 10], [12, 20, 14, 22]], &[[2, 8, 20, 18]]),
        // as far apart as there is
        over(&[[0; 4], [LAST; 4]], &[[0; 4], [LAST; 4], [0, 0, LAST, LAST], [0, LAST, 0, LAST], [LAST, 0, LAST, 1]]),
    ]
}

/// Rectangles that overlap, from single pixels on.
fn many(count: u64) -> Vec<Ends> {
    (0..count).map(|i| [i % 16, i / 8, i % 16 + i % 5 * 4, i / 8 + i / 4]).collect()
}

const FOUR: [Ends; 4] = [BOX, [2, 3, 4, 5], [0, 0, 0, 0], [14, 1, 17, 8]];

/// Nothing in the list, and counts of rectangles.
fn counts() -> Vec<Question> {
    let at = [[0, 0, 9, 9], [LAST; 4]];
    vec![
        over_mask(mask(5, 4, |_, _| false), &at),
        Question { n: 0, ..over(&[BOX], &at) },
        over(&[], &at),
        over(&FOUR, &[]),
        over(&[], &[]),
        Question { answers_len: ANSWER_AREA, ..over(&[], &[]) },
        over(&FOUR, &many(1)),
        over(&FOUR, &many(2)),
        over(&FOUR, &many(64)),
        // the same one 64 times, in an area that is longer
        Question { answers_len: ANSWER_AREA, ..over(&FOUR, &[[4, 5, 10, 10]; 64]) },
    ]
}

/// An end before its start.
const BAD: Ends = [30, 30, 29, 30];

/// The last ends that are allowed, and bad ones that are not looked at.
fn just_allowed() -> Vec<Question> {
    let edges = [[LAST, 3, LAST, 3], [3, LAST, 3, LAST], [0, 0, LAST, LAST], [LAST; 4]];
    let mut all = vec![
        over(&edges, &edges),
        Question { n: 2, ..over(&[BOX, [0; 4], BAD, [u64::MAX; 4]], &[BOX]) },
        Question { k: 1, answers_len: 4, ..over(&[BOX], &[BOX, BAD]) },
        Question { k: 0, ..over(&[BOX], &[BAD]) },
    ];
    let mut part = over(&[BOX], &[BOX]);
    (part.list, part.windows) = ([part.list, vec![u64::MAX; 7]].concat(), [part.windows, vec![u64::MAX; 3]].concat());
    // all of a record but its box
    let mut unread = over(&[BOX, [2, 3, 4, 5]], &[[4, 5, 10, 10]]);
    unread.list.iter_mut().enumerate().filter(|(i, _)| !(3..7).contains(&(i % PATCH_LEN))).for_each(|(_, n)| *n = u64::MAX);
    all.extend([part, unread]);
    all
}

/// Of the lengths one is short, and in the second half a box and a rectangle are bad too; 65 rectangles with answers for less.
fn short() -> Vec<Question> {
    let mut all = Vec::new();
    for (boxes, rectangles) in [([BOX, [0; 4]], [[0; 4], BOX]), ([BOX, BAD], [BOX, BAD])] {
        let mut list = over(&boxes, &rectangles);
        list.list.pop();
        let mut windows = over(&boxes, &rectangles);
        windows.windows.pop();
        all.extend([list, windows, Question { answers_len: 5, ..over(&boxes, &rectangles) }]);
        all.push(Question { answers_len: 0, ..over(&boxes, &rectangles) });
        all.push(Question { n: 3, ..over(&boxes, &rectangles) });
    }
    let mut of_mask = over_mask(m7(), &[BOX]);
    of_mask.list.pop();
    all.extend([of_mask, Question { n: 4, ..over_mask(m7(), &[BOX]) }, Question { answers_len: 194, ..over(&FOUR, &many(65)) }]);
    all
}

/// Counts whose lengths pass 2^64: what is left is 0 or little.
fn wild() -> Vec<Question> {
    let counts = [1 << 61, (1 << 61) + 1, 1 << 62, (1 << 62) + 1, 1 << 63, (1 << 63) + 1, u64::MAX / 3 + 1, u64::MAX];
    let asked = || Question { answers_len: ANSWER_AREA, ..over(&[BOX, [0; 4]], &[BOX; 2]) };
    let all = |count: u64| [Question { n: count, ..asked() }, Question { k: count, ..asked() }, Question { n: count, k: count, ..asked() }];
    counts.into_iter().flat_map(all).collect()
}

/// Each way to be bad, just so and by the greatest numbers.
fn bad_ends() -> Vec<Ends> {
    let whole = u64::MAX;
    let ways = [[21, 10, 20, 20], [10, 21, 20, 20], [10, 10, LAST + 1, 20], [10, 10, 20, LAST + 1]];
    let great = [[whole, 10, 20, 20], [10, whole, 20, 20], [10, 10, whole, 20], [10, 10, 20, whole], [whole; 4], [LAST + 1; 4]];
    // the low half is allowed
    let half = [[10, 10, (1 << 32) + 20, 20], [10, 10, 20, (1 << 32) + 20]];
    [&ways[..], &great, &half].concat()
}

/// Of lists and rectangles the last is bad, or the first; boxes without a rectangle; 65 rectangles with answers for all.
fn refused() -> Vec<Question> {
    let mut all = Vec::new();
    for bad in bad_ends() {
        all.push(over(&[[0; 4], BOX, bad], &[BOX]));
        all.push(over(&[BOX], &[[0; 4], BOX, bad]));
    }
    all.extend([over(&[BAD, BOX], &[BOX]), over(&[BOX], &[BAD, BOX]), over(&[], &[BAD])]);
    all.extend([over(&[BOX, BAD], &[]), over(&[[0, 0, LAST + 1, 0]], &[])]);
    all.extend([over(&FOUR, &many(65)), over(&[], &[BOX; 65])]);
    all
}

/// M7 of docs/REQUIREMENTS.md, 24.4.
fn m7() -> Mask {
    rows(&["#.#", ".#.", "##."])
}

/// So many rectangles on a picture of w by h, a few of them over its edge.
fn random_rectangles(random: &mut Random, w: usize, h: usize, count: usize) -> Vec<Ends> {
    let mut span = |side: usize| {
        let ends = [random.below(side as u64 + 3) as u64, random.below(side as u64 + 3) as u64];
        [ends[0].min(ends[1]), ends[0].max(ends[1])]
    };
    let mut one = || {
        let ([x0, x1], [y0, y1]) = (span(w), span(h));
        [x0, y0, x1, y1]
    };
    (0..count).map(|_| one()).collect()
}

/// Lists of masks: M7 with every rectangle of its pixels, a checkerboard, and pixels at random.
fn of_masks() -> Vec<Question> {
    let spans = || (0..3).flat_map(|a| (a..3).map(move |b| [a, b]));
    let every: Vec<Ends> = spans().flat_map(|[x0, x1]| spans().map(move |[y0, y1]| [x0, y0, x1, y1])).collect();
    let mut all = vec![over_mask(m7(), &every), Question { n: 2, ..over_mask(m7(), &every[..9]) }];
    let mut random = Random(11);
    let mut drawn = |m: Mask| {
        let rectangles = random_rectangles(&mut random, m.w, m.h, 64);
        over_mask(m, &rectangles)
    };
    all.push(drawn(mask(32, 32, |x, y| (x + y) % 2 == 0)));
    let sides = [(9, 7, 2), (17, 11, 3), (11, 23, 4), (40, 24, 1), (24, 40, 5), (64, 5, 3)];
    all.extend((1..).zip(sides).map(|(seed, (w, h, k))| drawn(mixed(w, h, k, seed))));
    all
}

/// The bytes of a question.
fn asked(q: &Question) -> Vec<u8> {
    let (w, h) = q.mask.as_ref().map_or((0, 0), |m| (m.w, m.h));
    assert!(w <= 64 && h <= 64 && q.list.len() <= PATCH_AREA && q.windows.len() <= WINDOW_AREA && q.answers_len <= ANSWER_AREA);
    let head = [w as u64, h as u64, q.list.len() as u64, q.n, q.windows.len() as u64, q.k, q.answers_len as u64];
    let bytes = |words: &[u64]| words.iter().flat_map(|n| n.to_le_bytes()).collect::<Vec<u8>>();
    let list = match &q.mask {
        Some(m) => (0..m.dark.len()).map(|i| if m.dark[i] { 1 + (i % 255) as u8 } else { 0 }).collect(),
        None => bytes(&q.list),
    };
    [bytes(&head), list, bytes(&q.windows)].concat()
}

/// What the program prints for it.
fn printed(q: &Question) -> String {
    let place = |p: Option<usize>| p.map_or("-".to_string(), |i| i.to_string());
    let patches = q.mask.as_ref().map_or(String::new(), |m| format!("patches {}\n", records(&m.dark, m.w, m.h).len()));
    match RIGHT.refusal(q) {
        0 => {
            let all = RIGHT.answers(q);
            let lines: String = all.iter().map(|w| format!("{} {} {}\n", w.0, place(w.1), place(w.2))).collect();
            format!("{patches}accepted\n{lines}rest {}\n", ANSWER_AREA - WINDOW_LEN * all.len())
        }
        number => format!("{patches}refused {number}\nrest {ANSWER_AREA}\n"),
    }
}

fn main() {
    let parts: [(u32, Vec<Question>); 8] =
        [(0, touching()), (0, nearest()), (0, counts()), (0, just_allowed()), (3, short()), (3, wild()), (17, refused()), (0, of_masks())];
    for (number, part) in &parts {
        assert!(part.iter().all(|q| RIGHT.refusal(q) == *number), "a question is not refused by {number}");
        println!("{:3} questions, refusal {number}", part.len());
    }
    let questions: Vec<Question> = parts.into_iter().flat_map(|(_, part)| part).collect();
    let input: Vec<u8> = questions.iter().flat_map(asked).collect();
    assert!(input.len() <= INPUT, "{} bytes", input.len());
    println!("{:3} questions, {} bytes", questions.len(), input.len());
    for (name, build) in wrong_answers().into_iter().chain(wrong_refusals()) {
        let told = questions.iter().filter(|q| build.told_by(q)).count();
        println!("{told:3} tell it: {name}");
        assert!(told >= 1, "{name}");
    }
    vectors::write("test_windows", &input, &questions.iter().map(printed).collect::<String>());
}
