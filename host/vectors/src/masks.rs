//! Masks that more than one generator draws.

use crate::Random;

pub struct Mask {
    pub w: usize,
    pub h: usize,
    /// By rows.
    pub dark: Vec<bool>,
}

/// Dark where column and row say so.
pub fn mask(w: usize, h: usize, dark: impl Fn(usize, usize) -> bool) -> Mask {
    let dark = (0..w * h).map(|i| dark(i % w, i / w)).collect();
    Mask { w, h, dark }
}

/// Of rows of letters, `#` dark.
pub fn rows(rows: &[&str]) -> Mask {
    mask(rows[0].len(), rows.len(), |x, y| rows[y].as_bytes()[x] == b'#')
}

/// Every other column, joined by the last row.
pub fn comb_up(w: usize, h: usize) -> Mask {
    mask(w, h, |x, y| y == h - 1 || x % 2 == 0)
}

/// Every other column, joined by the first row.
pub fn comb_down(w: usize, h: usize) -> Mask {
    mask(w, h, |x, y| y == 0 || x % 2 == 0)
}

/// A line that winds inward, one pixel wide, one apart.
pub fn spiral(n: usize) -> Mask {
    let mut dark = vec![false; n * n];
    let (mut x, mut y, mut dx, mut dy) = (0i64, 0i64, 1i64, 0i64);
    let at = |dark: &Vec<bool>, x: i64, y: i64| x >= 0 && y >= 0 && x < n as i64 && y < n as i64 && dark[y as usize * n + x as usize];
    let inside = |x: i64, y: i64| x >= 0 && y >= 0 && x < n as i64 && y < n as i64;
    loop {
        dark[y as usize * n + x as usize] = true;
        let free = |dx: i64, dy: i64| inside(x + dx, y + dy) && !at(&dark, x + dx, y + dy) && !at(&dark, x + 2 * dx, y + 2 * dy);
        if !free(dx, dy) {
            let (ex, ey) = (-dy, dx);
            if !free(ex, ey) {
                break;
            }
            (dx, dy) = (ex, ey);
        }
        x += dx;
        y += dy;
    }
    Mask { w: n, h: n, dark }
}

/// Pixels at random, dark `k` times in eight.
pub fn mixed(w: usize, h: usize, k: u64, seed: u64) -> Mask {
    let mut random = Random(seed);
    let dark = (0..w * h).map(|_| random.next() >> 61 < k).collect();
    Mask { w, h, dark }
}
