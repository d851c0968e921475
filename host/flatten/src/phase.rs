//! How far a card's edges lie off its cell borders, and when a card is doubtful.
//!
//! `rectify` lays out whatever four rings it finds. A card laid right has its edges on the cell borders everywhere; one that
//! was laid by a wrong ring, or turned, has them elsewhere in some part. This is read from the card's own bytes.

use crate::Frame;
use std::f64::consts::TAU;

/// A card is doubtful where its score is below the first and its phase above the second. Both come from 1,238 accepted
/// photographs drawn by other means than this project's (blur, motion, JPEG, tilt, roll, distance, lens, noise, glare,
/// grating), 206 of them wrong by more than half a cell: together they flag 200 of the 206, and 26 of the 1,032 right ones,
/// of which 1 in ordinary conditions. Wrong cards scored at most 42.5, right ones 70 to thousands in ordinary conditions
/// and 14 to 40 at the limits, so the score alone (below 40) flags 215 right ones; the phase alone would flag cards with
/// much of the payload in one colour. docs/LIMITS.md has a second set, and what the rule does not see.
pub const SCORE_LIMIT: f64 = 60.0;
pub const PHASE_LIMIT: f64 = 0.25;

/// Most tiles across and down, and fewest cells a side of one.
const TILES: (usize, usize) = (4, 3);
const TILE_CELLS: usize = 4;

/// Whether a card is not to be trusted by itself.
pub fn doubtful(score: f64, phase: f64) -> bool {
    score < SCORE_LIMIT && phase > PHASE_LIMIT
}

/// The largest phase of any tile in either direction: 0 where every edge is on a cell border, 0.5 at most (mid-cell). A tile
/// without edges has 0, and so has a card without cells.
///
/// # Panics
/// Where `card` is not 3 bytes for each pixel of the frame.
pub fn phase(card: &[u8], frame: Frame) -> f64 {
    let Ok((cols, rows)) = frame.grid() else { return 0.0 };
    assert_eq!(card.len(), 3 * frame.width * frame.height, "a card of {} by {}", frame.width, frame.height);
    let borders = |cells: usize, most: usize| {
        let tiles = (cells / TILE_CELLS).clamp(1, most);
        (0..=tiles).map(move |i| frame.margin + frame.cell * (cells * i / tiles)).collect::<Vec<_>>()
    };
    let (across, down) = (borders(cols, TILES.0), borders(rows, TILES.1));
    let mut largest: f64 = 0.0;
    for x in across.windows(2) {
        for y in down.windows(2) {
            let area = Area { x0: x[0], x1: x[1], y0: y[0], y1: y[1] };
            largest = largest.max(of_edges(&across_edges(card, frame, area))).max(of_edges(&down_edges(card, frame, area)));
        }
    }
    largest
}

/// Pixels x0 to x1 and y0 to y1, ends left out.
#[derive(Clone, Copy)]
struct Area {
    x0: usize,
    x1: usize,
    y0: usize,
    y1: usize,
}

/// The squared difference of two pixels' colours, by their places.
fn edge(card: &[u8], a: usize, b: usize) -> u64 {
    (0..3).map(|c| u64::from(card[3 * a + c].abs_diff(card[3 * b + c])).pow(2)).sum()
}

/// Entry r sums the edges between columns x − 1 and x, where x lies r pixels past a cell border.
fn across_edges(card: &[u8], frame: Frame, area: Area) -> Vec<u64> {
    let mut sums = vec![0; frame.cell];
    for y in area.y0..area.y1 {
        for x in area.x0.max(1)..area.x1 {
            let at = y * frame.width + x;
            sums[(x - frame.margin) % frame.cell] += edge(card, at - 1, at);
        }
    }
    sums
}

/// The same for rows.
fn down_edges(card: &[u8], frame: Frame, area: Area) -> Vec<u64> {
    let mut sums = vec![0; frame.cell];
    for y in area.y0.max(1)..area.y1 {
        for x in area.x0..area.x1 {
            let at = y * frame.width + x;
            sums[(y - frame.margin) % frame.cell] += edge(card, at - frame.width, at);
        }
    }
    sums
}

/// The phase of a cell's edge sums: |atan2(Σ e·sin t, Σ e·cos t)| / 2π with t = 2πr/cell.
fn of_edges(sums: &[u64]) -> f64 {
    let (mut sin, mut cos) = (0.0, 0.0);
    for (r, &e) in sums.iter().enumerate() {
        let t = TAU * r as f64 / sums.len() as f64;
        sin += e as f64 * t.sin();
        cos += e as f64 * t.cos();
    }
    f64::atan2(sin, cos).abs() / TAU
}

#[cfg(test)]
mod tests {
    use super::*;

    const FRAME: Frame = Frame { width: 120, height: 100, cell: 8, margin: 10 };

    /// A card of cells in colours that differ, its payload moved by (dx, dy) pixels inside `part` of the card.
    fn card(frame: Frame, dx: usize, dy: usize, part: impl Fn(usize, usize) -> bool) -> Vec<u8> {
        let mut data = Vec::new();
        for y in 0..frame.height {
            for x in 0..frame.width {
                let (dx, dy) = if part(x, y) { (dx, dy) } else { (0, 0) };
                let (c, r) = ((x + frame.cell * 2 - frame.margin - dx) / frame.cell, (y + frame.cell * 2 - frame.margin - dy) / frame.cell);
                data.extend([(c * 97 + r * 31) as u8, (c * 53 + r * 101) as u8, (c * 7 + r * 211) as u8]);
            }
        }
        data
    }

    fn near(a: f64, b: f64) -> bool {
        (a - b).abs() < 1e-9
    }

    #[test]
    fn a_card_laid_right_has_phase_0() {
        assert_eq!(phase(&card(FRAME, 0, 0, |_, _| false), FRAME), 0.0);
    }

    #[test]
    fn a_card_moved_has_the_part_of_a_cell_that_it_moved() {
        for (dx, dy, wanted) in [(1, 0, 0.125), (0, 2, 0.25), (3, 1, 0.375), (4, 0, 0.5), (0, 5, 0.375), (7, 7, 0.125)] {
            let found = phase(&card(FRAME, dx, dy, |_, _| true), FRAME);
            assert!(near(found, wanted), "moved by {dx}, {dy}: {found}");
        }
    }

    /// The 12 by 10 cells have 3 tiles across and 2 down; only the last tile's cells are moved.
    #[test]
    fn one_tile_is_enough() {
        let found = phase(&card(FRAME, 3, 0, |x, y| x >= 10 + 8 * 8 && y >= 10 + 5 * 8), FRAME);
        assert!(found > 0.3, "{found}");
    }

    #[test]
    fn nothing_to_see_is_0() {
        assert_eq!(phase(&[7; 3 * 120 * 100], FRAME), 0.0);
        let empty = Frame { margin: 60, ..FRAME };
        assert_eq!(phase(&card(FRAME, 3, 3, |_, _| true), empty), 0.0);
        let refused = Frame { cell: 0, ..FRAME };
        assert_eq!(phase(&[], refused), 0.0);
    }

    /// Without a margin the first column and row have no pixel before them; cells of one pixel have no inside.
    #[test]
    fn small_frames() {
        let bare = Frame { width: 40, height: 40, cell: 4, margin: 0 };
        assert_eq!(phase(&card(bare, 0, 0, |_, _| false), bare), 0.0);
        assert!(near(phase(&card(bare, 1, 0, |_, _| true), bare), 0.25));
        let fine = Frame { cell: 1, ..FRAME };
        assert_eq!(phase(&card(FRAME, 3, 3, |_, _| true), fine), 0.0);
    }

    #[test]
    #[should_panic(expected = "a card of 120 by 100")]
    fn another_length_is_a_mistake_of_the_caller() {
        phase(&[0; 3], FRAME);
    }

    #[test]
    fn both_limits_count() {
        assert!(doubtful(59.9, 0.26) && doubtful(0.0, 0.5));
        assert!(!doubtful(60.0, 0.5) && !doubtful(1.7, 0.25));
    }
}
