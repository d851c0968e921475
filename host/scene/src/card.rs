//! A card as it is shown.

use crate::random::mix;

#[derive(Clone, Copy, Debug, PartialEq, Eq)]
pub struct Frame {
    pub width: usize,
    pub height: usize,
    pub cell: usize,
    pub margin: usize,
}

impl Frame {
    pub const BENCH: Frame = Frame { width: 848, height: 636, cell: 10, margin: 106 };
    pub const SMALL: Frame = Frame { width: 192, height: 192, cell: 1, margin: 48 };

    pub fn quiet(&self) -> usize {
        (8 * self.cell).clamp(72, 96) / 6
    }

    pub fn cols(&self) -> usize {
        self.width.saturating_sub(2 * self.margin) / self.cell
    }

    pub fn rows(&self) -> usize {
        self.height.saturating_sub(2 * self.margin) / self.cell
    }

    /// The canonical point in the middle of a cell.
    pub fn middle(&self, col: usize, row: usize) -> [f64; 2] {
        [col, row].map(|i| self.margin as f64 + (i as f64 + 0.5) * self.cell as f64)
    }
}

pub type Rgb = [f64; 3];
pub(crate) const BLACK: Rgb = [0.0; 3];
const WHITE: Rgb = [255.0; 3];
const BLUE: Rgb = [0.0, 0.0, 255.0];

/// What fills the payload.
#[derive(Clone, Copy, Debug)]
pub enum Cells {
    /// Each cell takes one of the colours, by a hash of its place and the seed.
    Mixed(&'static [Rgb], u64),
    Flat(Rgb),
}

/// Four colours with luma 0, 0.3, 0.7 and 1.
pub const FOUR: &[Rgb] = &[BLACK, [255.0, 0.0, 0.0], [0.0, 255.0, 255.0], WHITE];
/// More dark than light: few patches, as the bench pictures have.
pub const BENCH_CELLS: &[Rgb] =
    &[BLACK, BLACK, BLACK, BLACK, BLACK, BLUE, BLUE, BLUE, BLUE, BLUE, [0.0, 255.0, 255.0], [0.0, 255.0, 255.0], WHITE];

/// A ring drawn into the payload, as a marker is: centre and side in canonical pixels.
#[derive(Clone, Copy, Debug)]
pub struct Ring {
    pub x: f64,
    pub y: f64,
    pub side: f64,
}

/// A card as it is shown.
#[derive(Clone, Debug)]
pub struct Card {
    pub frame: Frame,
    pub cells: Cells,
    pub margin: Rgb,
    /// Which markers there are: TL, TR, BR, BL.
    pub markers: [bool; 4],
    pub rings: Vec<Ring>,
}

fn ring_at(dx: f64, dy: f64, side: f64) -> Option<Rgb> {
    let r = dx.abs().max(dy.abs()) / side * 6.0;
    match r {
        r if r < 1.0 => Some(BLACK),
        r if r < 2.0 => Some(WHITE),
        r if r < 3.0 => Some(BLACK),
        r if r < 4.0 => Some(WHITE),
        _ => None,
    }
}

impl Card {
    pub fn new(frame: Frame, cells: Cells) -> Card {
        Card { frame, cells, margin: BLACK, markers: [true; 4], rings: Vec::new() }
    }

    /// Marker side, as far as the margin leaves one.
    fn marker(&self) -> f64 {
        self.frame.margin as f64 - 2.0 * self.frame.quiet() as f64
    }

    /// Centres of the four markers: TL, TR, BR, BL.
    pub fn centres(&self) -> [[f64; 2]; 4] {
        let at = self.frame.quiet() as f64 + self.marker() / 2.0;
        let (w, h) = (self.frame.width as f64, self.frame.height as f64);
        [[at, at], [w - at, at], [w - at, h - at], [at, h - at]]
    }

    /// The colour at a canonical position; None beside the card.
    pub fn colour(&self, x: f64, y: f64) -> Option<Rgb> {
        let f = &self.frame;
        let (w, h, m) = (f.width as f64, f.height as f64, f.margin as f64);
        if !(x >= 0.0 && y >= 0.0 && x < w && y < h) {
            return None;
        }
        let (left, right, top, bottom) = (x < m, x >= w - m, y < m, y >= h - m);
        if (left || right) && (top || bottom) {
            let i = match (left, top) {
                (true, true) => 0,
                (false, true) => 1,
                (false, false) => 2,
                (true, false) => 3,
            };
            if self.markers[i] {
                let c = self.centres()[i];
                return Some(ring_at(x - c[0], y - c[1], self.marker()).unwrap_or(WHITE));
            }
            return Some(WHITE);
        }
        for r in &self.rings {
            if let Some(c) = ring_at(x - r.x, y - r.y, r.side) {
                return Some(c);
            }
        }
        if left || right || top || bottom {
            return Some(self.margin);
        }
        Some(self.cell(((x - m) / f.cell as f64) as usize, ((y - m) / f.cell as f64) as usize))
    }

    /// The colour of a cell.
    pub fn cell(&self, col: usize, row: usize) -> Rgb {
        match self.cells {
            Cells::Flat(c) => c,
            Cells::Mixed(colours, seed) => colours[(mix(seed ^ mix((col as u64) << 32 | row as u64)) % colours.len() as u64) as usize],
        }
    }
}
