//! What is drawn into the capture.

mod common;
use common::*;
use flatten::{overlay, Fitted, Frame, Grade, Workspace};

const CROSS: [u8; 3] = [255, 160, 0];

/// Columns and rows of the sampled cells with a tap outside the picture, by row, then column.
fn cells_outside(ws: &Workspace, card: &Fitted) -> Vec<[usize; 2]> {
    let f = ws.frame();
    let (cols, rows) = f.grid().unwrap();
    let sampled = (0..rows).step_by(3).flat_map(|row| (0..cols).step_by(3).map(move |column| [column, row]));
    let at = |n: usize, tap: usize| (f.margin + f.cell * n) as f64 + [0.3, 0.5, 0.7][tap] * f.cell as f64;
    let off = |[x, y]: [f64; 2]| x < 0.0 || y < 0.0 || x >= ws.width() as f64 || y >= ws.height() as f64;
    sampled.filter(|&[column, row]| (0..9).any(|i| off(card.fit.map(at(column, i % 3), at(row, i / 3))))).collect()
}

/// How far a point lies from the straight line between two others.
fn away([x, y]: [f64; 2], [a, b]: [[f64; 2]; 2]) -> f64 {
    let (dx, dy) = (b[0] - a[0], b[1] - a[1]);
    let along = (((x - a[0]) * dx + (y - a[1]) * dy) / (dx * dx + dy * dy)).clamp(0.0, 1.0);
    (x - a[0] - along * dx).hypot(y - a[1] - along * dy)
}

/// The cross stands at the first sampled cell, by row, then column, that has a tap outside, and nowhere else. These cards have
/// too few sampled cells to score by: the first lens term tried is kept, and puts cells outside. In all but the third the first
/// cell by column is another one, and so is the last. The command draws the same, and no card.
#[test]
fn the_cross_stands_at_the_first_cell_outside() {
    for (frame, w, h, share, first) in [
        ("366,394,31,56", 183, 197, 1.04, [3, 0]),
        ("448,446,37,62", 268, 267, 1.06, [3, 0]),
        ("462,310,31,56", 231, 155, 1.07, [0, 3]),
        ("462,310,31,56", 277, 186, 1.05, [6, 0]),
    ] {
        let f: Frame = frame.parse().unwrap();
        let mut ws = Workspace::new(w, h, f).unwrap();
        let photograph = past_the_picture(f, w, h, share);
        let card = ws.fit_geometry(&photograph).unwrap();
        let cells = cells_outside(&ws, &card);
        assert_eq!(cells[0], first, "{frame}: {cells:?}");
        assert_eq!(cells.len() == 1, first == [0, 3], "{frame}: {cells:?}");
        assert!(cells.len() == 1 || cells.iter().min() != Some(&first), "{frame}: {cells:?}");
        let ([column, row], (cols, _)) = (first, f.grid().unwrap());
        assert_eq!(card.grade, Grade::Outside(row * cols + column), "{frame}");

        let mut drawn = photograph.clone();
        overlay::draw(&mut drawn, &ws, Some(&card));
        let corner = |right: usize, down: usize| {
            let at = |n: usize| (f.margin + f.cell * n) as f64;
            card.fit.map(at(column + right), at(row + down))
        };
        let lines = [[corner(0, 0), corner(1, 1)], [corner(1, 0), corner(0, 1)]];
        let places = (0..w * h).filter(|&i| drawn[3 * i..3 * i + 3] == CROSS).map(|i| [(i % w) as f64 + 0.5, (i / w) as f64 + 0.5]);
        let [on, off]: [Vec<_>; 2] = places.partition(|&p| lines.iter().any(|&line| away(p, line) < 1.0)).into();
        assert!(on.len() > 10 && off.is_empty(), "{frame}: {} pixels on the cross, and off it {off:?}", on.len());

        let folder = Folder::new("cross");
        let out = flatten(&["--frame", frame, "--overlay", path(&folder.file("o"))], &p6(w, h, &photograph));
        assert_eq!((out.status.code(), out.stdout.len()), (Some(1), 0), "{}", text(&out.stderr));
        assert!(folder.get("o") == p6(w, h, &drawn), "{frame}: the command draws something else");
    }
}
