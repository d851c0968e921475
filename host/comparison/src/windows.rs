//! Rectangles over a patch list, which the original does not have, against a definition of its own: each rectangle by itself, its
//! columns and rows as sets in which those of a box are looked for, and all distances worked out before the least is taken.

use crate::{few, Defined};
use flatten::ffi;
use scene::Random;

/// Numbers of a patch, of a rectangle and of its answers; rectangles of a call; columns and rows that there can be.
const PATCH: usize = 8;
const RECTANGLE: usize = 4;
const ANSWERS: usize = 3;
const MOST: usize = 64;
const SIDE: u64 = 4096;

/// x0, y0, x1, y1, of a rectangle or a patch.
pub type Ends = [u64; RECTANGLE];

/// Columns, or rows, as a set.
struct Set(Vec<bool>);

impl Set {
    fn of(start: u64, end: u64) -> Set {
        let mut set = vec![false; SIDE as usize];
        set[start as usize..=end as usize].fill(true);
        Set(set)
    }

    fn has_any(&self, start: u64, end: u64) -> bool {
        (start..=end).any(|i| self.0[i as usize])
    }
}

fn allowed([x0, y0, x1, y1]: Ends) -> bool {
    [[x0, x1], [y0, y1]].iter().all(|&[start, end]| end < SIDE && start <= end)
}

/// Of a rectangle and a box: the squared distance of the centres, in doubled numbers.
fn distance(a: Ends, b: Ends) -> i64 {
    let centre = |e: Ends| [e[0] as i64 + e[2] as i64, e[1] as i64 + e[3] as i64];
    let ([ax, ay], [bx, by]) = (centre(a), centre(b));
    (ax - bx).pow(2) + (ay - by).pow(2)
}

/// What one rectangle is answered: how many boxes have a column and a row of it, the first of them, the nearest of all.
fn window(at: Ends, boxes: &[Ends]) -> [u64; ANSWERS] {
    let (columns, rows) = (Set::of(at[0], at[2]), Set::of(at[1], at[3]));
    let touching: Vec<usize> = (0..boxes.len())
        .filter(|&i| {
            let [x0, y0, x1, y1] = boxes[i];
            columns.has_any(x0, x1) && rows.has_any(y0, y1)
        })
        .collect();
    let distances: Vec<i64> = boxes.iter().map(|&b| distance(at, b)).collect();
    let nearest = distances.iter().min().and_then(|least| distances.iter().position(|d| d == least));
    let place = |p: Option<usize>| p.map_or(u64::MAX, |i| i as u64);
    [touching.len() as u64, place(touching.first().copied()), place(nearest)]
}

/// A call, by what it is handed and what it leaves.
#[derive(Clone, Default)]
pub struct Call {
    pub patches: Vec<u64>,
    pub n: usize,
    pub windows: Vec<u64>,
    pub k: usize,
    pub answers: Vec<u64>,
}

impl Call {
    /// What is stored, or the number of the refusal.
    fn stored(&self) -> Result<Vec<u64>, u32> {
        let lent = [(&self.patches, PATCH, self.n), (&self.windows, RECTANGLE, self.k), (&self.answers, ANSWERS, self.k)];
        if lent.iter().any(|(slice, each, count)| (slice.len() as u128) < *each as u128 * *count as u128) {
            return Err(3);
        }
        let boxes: Vec<Ends> = self.patches.chunks_exact(PATCH).take(self.n).map(|p| [p[3], p[4], p[5], p[6]]).collect();
        let rectangles: Vec<Ends> = self.windows.chunks_exact(RECTANGLE).take(self.k).map(|e| [e[0], e[1], e[2], e[3]]).collect();
        if self.k > MOST || boxes.iter().chain(&rectangles).any(|&e| !allowed(e)) {
            return Err(17);
        }
        Ok(rectangles.iter().flat_map(|&at| window(at, &boxes)).collect())
    }

    /// An end of a rectangle or a box, or of the last, becomes one that is just not allowed, or just is.
    pub fn spoil(&mut self, r: &mut Random) {
        let of_patches = self.windows.is_empty() || r.chance(0.5);
        let (list, each, ends) = if of_patches { (&mut self.patches, PATCH, 3) } else { (&mut self.windows, RECTANGLE, 0) };
        let Some(last) = (list.len() / each).checked_sub(1) else { return };
        let one = each * if r.chance(0.5) { last } else { r.below(last + 1) } + ends;
        let axis = r.below(2);
        let (start, end) = (list[one + axis], list[one + axis + 2]);
        let (at, number) = match r.below(6) {
            0 => (axis, end + 1),
            1 => (axis, end),
            2 => (axis + 2, start.saturating_sub(1)),
            3 => (axis + 2, SIDE - 1),
            4 => (axis + 2, SIDE),
            _ => (r.below(4), r.one_of(&[u64::MAX, 1 << 63, 1 << 32, (1 << 32) + start])),
        };
        list[one + at] = number;
    }

    /// The shortest slices that do.
    pub fn shorten(&mut self) {
        self.patches.truncate(PATCH * self.n);
        self.windows.truncate(RECTANGLE * self.k);
        self.answers.truncate(ANSWERS * self.k);
    }

    /// Fills what is lent, and what is not looked at: records past n, numbers past k rectangles, and of a record all but its box.
    pub fn garbage(&mut self, r: &mut Random) {
        let (n, k) = (self.n, self.k);
        let unread = self.patches.iter_mut().enumerate().filter(|(i, _)| i / PATCH >= n || !(3..7).contains(&(i % PATCH)));
        unread.for_each(|(_, v)| *v = r.bits());
        let unread = self.windows.iter_mut().enumerate().filter(|(i, _)| i / RECTANGLE >= k);
        unread.for_each(|(_, v)| *v = r.bits());
        self.answers.iter_mut().for_each(|v| *v = r.bits());
    }
}

impl Defined for Call {
    fn expected(&self) -> (u32, Call) {
        let mut left = self.clone();
        let stored = self.stored().map(|answers| left.answers[..answers.len()].copy_from_slice(&answers));
        (stored.err().unwrap_or(0), left)
    }

    fn run(&mut self) -> u32 {
        ffi::patch_windows(&self.patches, self.n, &self.windows, self.k, &mut self.answers)
    }

    fn same(&self, wanted: &Call) -> Result<(), String> {
        same("patches", &self.patches, &wanted.patches)?;
        same("windows", &self.windows, &wanted.windows)?;
        same("answers", &self.answers, &wanted.answers)
    }
}

fn same(what: &str, ours: &[u64], wanted: &[u64]) -> Result<(), String> {
    match ours.iter().zip(wanted).position(|(a, b)| a != b) {
        None => Ok(()),
        Some(i) => Err(format!("{what}, entry {i} of {}: {}, it should be {}", wanted.len(), ours[i], wanted[i])),
    }
}

/// Two ends from `from` on, below `to`.
fn span(r: &mut Random, [from, to]: [usize; 2]) -> [u64; 2] {
    let ends = [r.between(from, to - 1) as u64, r.between(from, to - 1) as u64];
    [ends[0].min(ends[1]), ends[0].max(ends[1])]
}

/// Two ends by those of a box: beside it, with one pixel of it, the same, within it or around it.
fn by(r: &mut Random, [start, end]: [u64; 2]) -> [u64; 2] {
    let (past, length) = (r.below(2) as u64, r.below(6) as u64);
    let [a, b] = match r.below(5) {
        0 => [end + past, end + past + length],
        1 => [start.saturating_sub(past + length), start.saturating_sub(past)],
        2 => [start, end],
        3 => span(r, [start as usize, end as usize + 1]),
        _ => [start.saturating_sub(length), end + length],
    };
    [a.min(SIDE - 1), b.min(SIDE - 1)]
}

fn ends([x0, x1]: [u64; 2], [y0, y1]: [u64; 2]) -> Ends {
    [x0, y0, x1, y1]
}

/// So many boxes and rectangles that are allowed. Where they lie close together many touch, and many distances are the same.
pub fn drawn(r: &mut Random, n: usize, k: usize) -> Call {
    let length = r.one_of(&[3, 8, 40, 300, SIDE as usize]);
    let from = r.one_of(&[0, 0, SIDE as usize - length]);
    let within = [from, from + length];
    let boxes: Vec<Ends> = (0..n).map(|_| ends(span(r, within), span(r, within))).collect();
    let one = |_| match boxes.len() {
        n if n > 0 && r.chance(0.5) => {
            let [x0, y0, x1, y1] = boxes[r.below(n)];
            ends(by(r, [x0, x1]), by(r, [y0, y1]))
        }
        _ => ends(span(r, within), span(r, within)),
    };
    let windows = (0..k).flat_map(one).collect();
    let patches = boxes.iter().flat_map(|b| [1, 2, 3, b[0], b[1], b[2], b[3], 4]).collect();
    Call { patches, n, windows, k, answers: vec![9; ANSWERS * k] }
}

/// A call as words: the counts of patches and rectangles, the length of the answers, that of the list, the list, the rectangles.
pub fn call(r: &mut Random) -> Vec<u64> {
    let (n, k) = (few(r), r.one_of(&[0, 1, 1, 2, 3, 5, 9, 64, 65]));
    let mut c = drawn(r, n, k);
    if r.chance(0.2) {
        c.spoil(r);
    }
    let (records, numbers) = (r.one_of(&[0, 0, 1]), r.one_of(&[0, 0, 1, RECTANGLE]));
    c.patches.resize(c.patches.len() + PATCH * records, u64::MAX);
    c.windows.resize(c.windows.len() + numbers, u64::MAX);
    let length = c.answers.len() + r.one_of(&[0, 0, 1, ANSWERS, 100]);
    let mut words = [n, k, length, c.patches.len()].map(|w| w as u64).to_vec();
    words.extend(c.patches.iter().chain(&c.windows));
    words
}

/// Makes a call of such words, and where it is accepted each rectangle's again, alone.
pub fn check_words(words: &[u64]) -> Result<(), String> {
    let [n, k, length, list, numbers @ ..] = words else {
        return Err("windows have two counts, two lengths, a list and rectangles".into());
    };
    let [n, k, length, list] = [n, k, length, list].map(|&w| w as usize);
    let Some((patches, windows)) = numbers.split_at_checked(list) else { return Err("the list of windows is not there".into()) };
    let mut c = Call { patches: patches.to_vec(), n, windows: windows.to_vec(), k, answers: vec![9; length] };
    if c.check()? != 0 {
        return Ok(());
    }
    for (i, at) in windows.chunks_exact(RECTANGLE).take(k).enumerate() {
        let mut alone = Call { patches: patches.to_vec(), n, windows: at.to_vec(), k: 1, answers: vec![9; ANSWERS] };
        alone.check().map_err(|e| format!("rectangle {i} alone: {e}"))?;
        same("answers together", &c.answers[ANSWERS * i..][..ANSWERS], &alone.answers)?;
    }
    Ok(())
}

/// 64 rectangles over what a look at a picture of w by h left, against the original's records of it: in the picture, over its edge
/// and past it.
pub fn over(patches: &[u64], records: &[[u64; PATCH]], w: usize, h: usize) -> Result<(), String> {
    let mut r = Random::new((w * h + records.len()) as u64);
    let mut around = |side: usize| span(&mut r, [0, (side + side / 8 + 1).min(SIDE as usize)]);
    let windows = (0..MOST).flat_map(|_| ends(around(w), around(h))).collect();
    let theirs = Call { patches: records.concat(), n: records.len(), windows, k: MOST, answers: vec![9; ANSWERS * MOST] };
    let wanted = theirs.expected().1;
    let mut answers = vec![9; ANSWERS * MOST];
    match ffi::patch_windows(patches, records.len(), &theirs.windows, MOST, &mut answers) {
        0 => same("answers", &answers, &wanted.answers),
        number => Err(format!("refusal {number}")),
    }
}
