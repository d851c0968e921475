//! Patch records with the outline, a number that the original does not have. Patches are put together here from pairs of
//! neighbours, and not traced from a first pixel, as the original and the port do it. The number of waiting pixels, which the
//! original does not tell, is that of its own stack, as host/oracle/prepare has it counted.

use lpcorepub::geometry::{label_blobs, Blob};
use lpcorestack::geometry::{self as counted, WAITED};

/// Area, sum of x, sum of y, x0, y0, x1, y1, outline.
pub const PATCH_LEN: usize = 8;
const OUTLINE: usize = 7;

pub type Record = [u64; PATCH_LEN];

/// The number of a light pixel's patch.
const NONE: u32 = u32::MAX;

/// The pixel that stands for the patch of pixel i, as far as it is put together. The ways there become shorter.
fn root(parent: &mut [u32], mut i: usize) -> usize {
    while parent[i] as usize != i {
        parent[i] = parent[parent[i] as usize];
        i = parent[i] as usize;
    }
    i
}

/// Of two patches that become one the earlier pixel stands for both: in the end that is the first of the patch.
fn join(parent: &mut [u32], i: usize, j: usize) {
    let (i, j) = (root(parent, i), root(parent, j));
    parent[i.max(j)] = i.min(j) as u32;
}

/// For each pixel the number of its patch, in raster order of the first pixels.
fn numbers(dark: &[bool], w: usize) -> Vec<u32> {
    let mut parent: Vec<u32> = (0..dark.len() as u32).collect();
    for i in (0..dark.len()).filter(|&i| dark[i]) {
        if i % w > 0 && dark[i - 1] {
            join(&mut parent, i - 1, i);
        }
        if i >= w && dark[i - w] {
            join(&mut parent, i - w, i);
        }
    }
    let (mut numbers, mut count) = (vec![NONE; dark.len()], 0);
    for i in (0..dark.len()).filter(|&i| dark[i]) {
        match root(&mut parent, i) {
            first if first < i => numbers[i] = numbers[first],
            _ => {
                numbers[i] = count;
                count += 1;
            }
        }
    }
    numbers
}

/// Records by the numbers of the pixels' patches. A side is part of the outline where no pixel of the same patch lies behind it.
fn listed(numbers: &[u32], w: usize, count: usize) -> Vec<Record> {
    let mut records: Vec<Record> = Vec::with_capacity(count);
    for (i, &n) in numbers.iter().enumerate().filter(|(_, &n)| n != NONE) {
        let (column, x, y) = (i % w, (i % w) as u64, (i / w) as u64);
        if n as usize == records.len() {
            records.push([0, 0, 0, x, y, x, y, 0]);
        }
        let joined = [
            column > 0 && numbers[i - 1] == n,
            column + 1 < w && numbers[i + 1] == n,
            i >= w && numbers[i - w] == n,
            i + w < numbers.len() && numbers[i + w] == n,
        ];
        let [area, sum_x, sum_y, x0, y0, x1, y1, outline] = records[n as usize];
        let outline = outline + joined.iter().filter(|&&j| !j).count() as u64;
        records[n as usize] = [area + 1, sum_x + x, sum_y + y, x0.min(x), y0.min(y), x1.max(x), y1.max(y), outline];
    }
    records
}

/// For each patch how many pairs of its pixels touch side to side.
fn touching(dark: &[bool], numbers: &[u32], w: usize, count: usize) -> Vec<u64> {
    let mut pairs = vec![0; count];
    for (y, row) in dark.chunks(w).enumerate() {
        for x in (0..row.len() - 1).filter(|&x| row[x] && row[x + 1]) {
            pairs[numbers[y * w + x] as usize] += 1;
        }
        for x in (0..row.len()).filter(|&x| row[x] && dark.get((y + 1) * w + x) == Some(&true)) {
            pairs[numbers[y * w + x] as usize] += 1;
        }
    }
    pairs
}

/// The sides of dark pixels that face a light pixel or the picture's border, straight from the mask.
fn dark_sides(dark: &[bool], w: usize, h: usize) -> u64 {
    let is_dark = |x: usize, y: usize| x < w && y < h && dark[y * w + x];
    let facing = |x: usize, y: usize| {
        let around = [(x.wrapping_sub(1), y), (x + 1, y), (x, y.wrapping_sub(1)), (x, y + 1)];
        around.into_iter().filter(|&(x, y)| !is_dark(x, y)).count() as u64
    };
    let row = |y: usize| (0..w).filter(|&x| is_dark(x, y)).map(|x| facing(x, y)).sum::<u64>();
    (0..h).map(row).sum()
}

/// The records of a mask, `blobs` being what the original's `label_blobs` lists for it: all numbers but the outline must be
/// the original's, and the outlines must agree with two other ways to count them.
pub fn with_outlines(blobs: &[Blob], dark: &[bool], w: usize, h: usize) -> Vec<Record> {
    assert_eq!(dark.len(), w * h);
    let numbers = numbers(dark, w);
    let records = listed(&numbers, w, blobs.len());
    assert_eq!(records.len(), blobs.len(), "patches of {w} by {h}");
    let pairs = touching(dark, &numbers, w, records.len());
    for (i, (r, b)) in records.iter().zip(blobs).enumerate() {
        let theirs = [b.area as u64, b.sx as u64, b.sy as u64, b.x0 as u64, b.y0 as u64, b.x1 as u64, b.y1 as u64];
        assert_eq!(r[..OUTLINE], theirs, "patch {i} of {w} by {h}");
        assert_eq!(r[OUTLINE] + 2 * pairs[i], 4 * r[0], "the outline of patch {i} of {w} by {h}");
    }
    let sum: u64 = records.iter().map(|r| r[OUTLINE]).sum();
    assert_eq!(sum, dark_sides(dark, w, h), "the outlines of {w} by {h}");
    records
}

pub fn records(dark: &[bool], w: usize, h: usize) -> Vec<Record> {
    with_outlines(&label_blobs(dark, w, h), dark, w, h)
}

/// The most pixels that the stack of the original's `label_blobs` ever held, over all patches of a mask. The largest area is an
/// upper limit, and without a patch it is 0.
pub fn waited(dark: &[bool], w: usize, h: usize) -> usize {
    WAITED.set(0);
    let blobs = counted::label_blobs(dark, w, h);
    let (waited, largest) = (WAITED.get(), blobs.iter().map(|b| b.area as usize).max().unwrap_or(0));
    assert!(waited <= largest && (waited == 0) == blobs.is_empty(), "{waited} waited, the largest area of {w} by {h} is {largest}");
    waited
}

/// A record as the programs print it.
pub fn line(r: &Record) -> String {
    r.map(|n| n.to_string()).join(" ") + "\n"
}
