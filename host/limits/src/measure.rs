//! One capture laid flat, against what was drawn.

use flatten::phase::{doubtful, phase};
use flatten::{Fit, Frame, Rectified, Workspace};
use scene::{Cells, Rgb, Scene};

/// What came of a capture.
#[derive(Clone, Copy, Debug)]
pub enum Outcome {
    /// By this number.
    Refused(u32),
    Accepted(Laid),
}

/// An accepted card.
#[derive(Clone, Copy, Debug)]
pub struct Laid {
    pub score: f64,
    pub phase: f64,
    /// The least correlation of the card with a ring's pattern at a marker's place.
    pub ring_pattern: f64,
    /// The greatest difference of a named ring's size from what the fit makes of its marker, as a share of that.
    pub ring_size: f64,
    /// The greatest error of a cell's place, in canonical pixels.
    pub error: f64,
    /// Half a cell, in canonical pixels.
    pub half_cell: f64,
    pub cells: usize,
    pub cells_read: usize,
}

impl Laid {
    /// No cell is more than half a cell off.
    pub fn right(&self) -> bool {
        self.error <= self.half_cell
    }

    pub fn doubtful(&self) -> bool {
        doubtful(self.score, self.phase)
    }
}

fn frame(f: scene::Frame) -> Frame {
    Frame { width: f.width, height: f.height, cell: f.cell, margin: f.margin }
}

/// Lays the scene's photograph flat.
pub fn measure(scene: &Scene, photograph: &[u8]) -> Outcome {
    let f = scene.card.frame;
    let mut workspace = match Workspace::new(scene.w, scene.h, frame(f)) {
        Ok(workspace) => workspace,
        Err(refusal) => return Outcome::Refused(refusal.number()),
    };
    let found = match workspace.rectify(photograph) {
        Ok(found) => found,
        Err(refusal) => return Outcome::Refused(refusal.number()),
    };
    let card = workspace.canonical();
    Outcome::Accepted(Laid {
        score: found.score,
        phase: phase(card, frame(f)),
        ring_pattern: markers(f).into_iter().map(|m| pattern_at(card, f, m)).fold(1.0, f64::min),
        ring_size: size_off(&workspace, &found, f),
        error: greatest_error(scene, &found.fit),
        half_cell: f.cell as f64 / 2.0,
        cells: f.cols() * f.rows(),
        cells_read: cells_read(scene, card),
    })
}

/// The greatest error of a cell's place: the middle of the cell goes into the photograph by the fit that was found and back to
/// the card by the map that drew it, and the error is how far from the middle that ends. Exact, not to first order.
fn greatest_error(scene: &Scene, fit: &Fit) -> f64 {
    let f = scene.card.frame;
    let back = scene.to_card();
    let mut greatest: f64 = 0.0;
    for row in 0..f.rows() {
        for col in 0..f.cols() {
            let [x, y] = f.middle(col, row);
            let error = match back(fit.map(x, y)) {
                Some([u, v]) => (u - x).hypot(v - y),
                None => f64::INFINITY,
            };
            greatest = if error.is_nan() { f64::INFINITY } else { greatest.max(error) };
        }
    }
    greatest
}

/// A marker's square in canonical pixels.
#[derive(Clone, Copy)]
struct Marker {
    x: usize,
    y: usize,
    side: usize,
}

/// TL, TR, BR, BL.
fn markers(f: scene::Frame) -> [Marker; 4] {
    let (near, side) = (f.quiet(), f.margin - 2 * f.quiet());
    let (far_x, far_y) = (f.width - near - side, f.height - near - side);
    [(near, near), (far_x, near), (far_x, far_y), (near, far_y)].map(|(x, y)| Marker { x, y, side })
}

/// The correlation of the card's luma with a ring's pattern, over the marker and its quiet zone; 0 where the card is of one luma.
fn pattern_at(card: &[u8], f: scene::Frame, m: Marker) -> f64 {
    let quiet = f.quiet();
    let half = m.side as f64 / 2.0;
    let mut pairs = Vec::new();
    for y in m.y - quiet..m.y + m.side + quiet {
        for x in m.x - quiet..m.x + m.side + quiet {
            let away = |v: usize, start: usize| (v as f64 + 0.5 - start as f64 - half).abs();
            let unit = away(x, m.x).max(away(y, m.y)) / m.side as f64 * 6.0;
            let light = if (1.0..2.0).contains(&unit) || unit >= 3.0 { 1.0 } else { 0.0 };
            let p = &card[3 * (y * f.width + x)..];
            pairs.push((light, 0.299 * p[0] as f64 + 0.587 * p[1] as f64 + 0.114 * p[2] as f64));
        }
    }
    correlation(&pairs)
}

fn correlation(pairs: &[(f64, f64)]) -> f64 {
    let n = pairs.len() as f64;
    let mean = |of: fn(&(f64, f64)) -> f64| pairs.iter().map(of).sum::<f64>() / n;
    let (a, b) = (mean(|p| p.0), mean(|p| p.1));
    let sum = |of: &dyn Fn(&(f64, f64)) -> f64| pairs.iter().map(of).sum::<f64>();
    let both = sum(&|p| (p.0 - a) * (p.1 - b));
    let spread = (sum(&|p| (p.0 - a).powi(2)) * sum(&|p| (p.1 - b).powi(2))).sqrt();
    if spread > 0.0 {
        both / spread
    } else {
        0.0
    }
}

/// A candidate's size is half the sum of its box's sides; the fit's is that of the box around the marker's four corners.
fn size_off(workspace: &Workspace, found: &Rectified, f: scene::Frame) -> f64 {
    let off = |(place, m): (usize, Marker)| {
        let size = workspace.candidates().find(|c| c.place == place).map_or(f64::INFINITY, |c| c.size);
        let (x, y, side) = (m.x as f64, m.y as f64, m.side as f64);
        let at = [(x, y), (x + side, y), (x + side, y + side), (x, y + side)].map(|(x, y)| found.fit.map(x, y));
        let extent = |i: usize| at.iter().map(|p| p[i]).fold(f64::MIN, f64::max) - at.iter().map(|p| p[i]).fold(f64::MAX, f64::min);
        (size / ((extent(0) + extent(1)) / 2.0) - 1.0).abs()
    };
    found.corners.into_iter().zip(markers(f)).map(off).fold(0.0, f64::max)
}

/// How many cells are read right: the mean over the middle of the cell lies nearer to the colour that was drawn there than to any
/// other colour of the card, each as the exposure shows it.
fn cells_read(scene: &Scene, card: &[u8]) -> usize {
    let f = scene.card.frame;
    let shown = |c: Rgb| c.map(|v| scene.exposure.of(v));
    let colours: Vec<Rgb> = match scene.card.cells {
        Cells::Mixed(colours, _) => colours.to_vec(),
        Cells::Flat(colour) => vec![colour],
    };
    let right = |col: usize, row: usize| {
        let seen = middle_mean(card, f, col, row);
        let away = |c: Rgb| shown(c).iter().zip(seen).map(|(a, b)| (a - b) * (a - b)).sum::<f64>();
        let drawn = scene.card.cell(col, row);
        colours.iter().all(|&c| c == drawn || away(drawn) < away(c))
    };
    (0..f.rows()).map(|row| (0..f.cols()).filter(|&col| right(col, row)).count()).sum()
}

/// Over the middle half of a cell's side, in both directions.
fn middle_mean(card: &[u8], f: scene::Frame, col: usize, row: usize) -> Rgb {
    let edge = if f.cell < 4 { 0 } else { f.cell.div_ceil(4) };
    let (x0, y0) = (f.margin + col * f.cell, f.margin + row * f.cell);
    let mut sum = [0.0; 3];
    for y in y0 + edge..y0 + f.cell - edge {
        for x in x0 + edge..x0 + f.cell - edge {
            for (s, &v) in sum.iter_mut().zip(&card[3 * (y * f.width + x)..]) {
                *s += v as f64;
            }
        }
    }
    let side = (f.cell - 2 * edge) as f64;
    sum.map(|s| s / (side * side))
}

#[cfg(test)]
mod tests {
    use super::*;

    /// The four markers stamped on white, and one of them left out.
    fn stamped(f: scene::Frame, markers: &[Marker]) -> Vec<u8> {
        let mut card = vec![255; 3 * f.width * f.height];
        for m in markers {
            for y in 0..m.side {
                for x in 0..m.side {
                    let far = |v: usize| (2 * v + 1).abs_diff(m.side) * 3;
                    let unit = far(x).max(far(y)) / m.side;
                    let at = 3 * ((m.y + y) * f.width + m.x + x);
                    card[at..at + 3].fill(if unit == 1 { 255 } else { 0 });
                }
            }
        }
        card
    }

    #[test]
    fn a_ring_has_its_pattern() {
        let f = scene::Frame::BENCH;
        let all = markers(f);
        let card = stamped(f, &all);
        for m in all {
            assert!(pattern_at(&card, f, m) > 0.95, "{}", pattern_at(&card, f, m));
        }
        let without = stamped(f, &all[1..]);
        assert_eq!(pattern_at(&without, f, all[0]), 0.0);
        let inverted: Vec<u8> = card.iter().map(|v| 255 - v).collect();
        assert!(pattern_at(&inverted, f, all[2]) < -0.95);
    }

    #[test]
    fn correlations() {
        assert!((correlation(&[(0.0, 3.0), (1.0, 5.0), (1.0, 5.0)]) - 1.0).abs() < 1e-12);
        assert_eq!(correlation(&[(0.0, 3.0), (1.0, 3.0)]), 0.0);
    }
}
