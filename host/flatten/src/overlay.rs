//! The capture with what was found drawn in: candidates, the four corners with their names, the fitted grid, and an arrow to the
//! card's upper side.

use crate::{Candidate, Fitted, Grade, Workspace};

type Colour = [u8; 3];
type Position = [f64; 2];

const CANDIDATE: Colour = [255, 0, 255];
const CORNER: Colour = [255, 0, 0];
const GRID: Colour = [0, 200, 0];
const OUTSIDE: Colour = [255, 160, 0];
const ARROW: Colour = [255, 230, 0];
const SHADOW: Colour = [0, 0, 0];

/// Names of the corners, in their order.
const NAMES: [&str; 4] = ["TL", "TR", "BR", "BL"];

/// A letter of the names: seven rows of five pixels.
fn letter(c: char) -> [&'static str; 7] {
    match c {
        'T' => ["#####", "..#..", "..#..", "..#..", "..#..", "..#..", "..#.."],
        'B' => ["####.", "#...#", "#...#", "####.", "#...#", "#...#", "####."],
        'L' => ["#....", "#....", "#....", "#....", "#....", "#....", "#####"],
        'R' => ["####.", "#...#", "#...#", "####.", "#.#..", "#..#.", "#...#"],
        _ => ["....."; 7],
    }
}

struct Canvas<'a> {
    w: usize,
    h: usize,
    data: &'a mut [u8],
}

impl Canvas<'_> {
    fn dot(&mut self, x: f64, y: f64, c: Colour) {
        if x >= 0.0 && y >= 0.0 && x < self.w as f64 && y < self.h as f64 {
            let i = 3 * (y as usize * self.w + x as usize);
            self.data[i..i + 3].copy_from_slice(&c);
        }
    }

    /// A filled square about a point.
    fn block(&mut self, [x, y]: Position, half: f64, c: Colour) {
        let steps = (2.0 * half).ceil() as usize;
        for i in 0..=steps {
            for j in 0..=steps {
                self.dot(x - half + i as f64, y - half + j as f64, c);
            }
        }
    }

    /// A straight line. A line with an end that is not near the picture is left out: fits can send points anywhere.
    fn thick_line(&mut self, a: Position, b: Position, half: f64, c: Colour) {
        let near = |p: Position| p[0].abs() < 1e5 && p[1].abs() < 1e5;
        if !near(a) || !near(b) {
            return;
        }
        let steps = (b[0] - a[0]).abs().max((b[1] - a[1]).abs()).ceil().max(1.0);
        for i in 0..=steps as usize {
            let t = i as f64 / steps;
            self.block([a[0] + t * (b[0] - a[0]), a[1] + t * (b[1] - a[1])], half, c);
        }
    }

    fn line(&mut self, a: Position, b: Position, c: Colour) {
        self.thick_line(a, b, 0.0, c);
    }

    fn square(&mut self, x: f64, y: f64, half: f64, c: Colour) {
        let corners = [[x - half, y - half], [x + half, y - half], [x + half, y + half], [x - half, y + half]];
        for i in 0..4 {
            self.line(corners[i], corners[(i + 1) % 4], c);
        }
    }

    fn cross(&mut self, x: f64, y: f64, half: f64, c: Colour) {
        self.line([x - half, y], [x + half, y], c);
        self.line([x, y - half], [x, y + half], c);
    }

    /// Words of the letters above, upright, with their middle at a point; `unit` pixels for one of a letter's.
    fn text(&mut self, text: &str, [x, y]: Position, unit: f64, c: Colour) {
        let left = x - unit * (6 * text.len() - 1) as f64 / 2.0;
        let top = y - unit * 3.5;
        for (wider, colour) in [(unit / 2.0 + 1.0, SHADOW), (unit / 2.0 - 0.5, c)] {
            for (n, name) in text.chars().enumerate() {
                for (row, line) in letter(name).into_iter().enumerate() {
                    for (column, _) in line.bytes().enumerate().filter(|&(_, b)| b == b'#') {
                        let at = [left + unit * ((6 * n + column) as f64 + 0.5), top + unit * (row as f64 + 0.5)];
                        self.block(at, wider.max(0.0), colour);
                    }
                }
            }
        }
    }
}

/// Draws into a copy of the workspace's last capture; grid, arrow and corners where there is a fit.
pub fn draw(data: &mut [u8], workspace: &Workspace, card: Option<&Fitted>) {
    let mut canvas = Canvas { w: workspace.width(), h: workspace.height(), data };
    if let Some(card) = card {
        grid(&mut canvas, workspace, card);
        arrow(&mut canvas, workspace, card);
    }
    for c in workspace.candidates() {
        canvas.square(c.x, c.y, c.size / 2.0 + 1.0, CANDIDATE);
        canvas.cross(c.x, c.y, 2.0, CANDIDATE);
    }
    if let Some(card) = card {
        corners(&mut canvas, workspace, card);
    }
}

/// A red square about each corner's ring, and its name beside it, towards the other end of the card's upper or lower side.
fn corners(canvas: &mut Canvas, workspace: &Workspace, card: &Fitted) {
    let found: Vec<Candidate> = card.corners.iter().filter_map(|&place| workspace.candidates().find(|c| c.place == place)).collect();
    for (i, c) in found.iter().enumerate() {
        for wider in [3.0, 4.0] {
            canvas.square(c.x, c.y, c.size / 2.0 + wider, CORNER);
        }
        canvas.cross(c.x, c.y, 5.0, CORNER);
        let Some(other) = found.get(i ^ 1) else { continue };
        let (dx, dy) = (other.x - c.x, other.y - c.y);
        let length = dx.hypot(dy).max(1.0);
        // The name is eleven units wide and seven high.
        let unit = (c.size / 16.0).max(1.0);
        let away = c.size * 0.75 + unit * 7.0;
        canvas.text(NAMES[i], [c.x + dx / length * away, c.y + dy / length * away], unit, CORNER);
    }
}

/// From the card's middle towards its upper side.
fn arrow(canvas: &mut Canvas, workspace: &Workspace, card: &Fitted) {
    let frame = workspace.frame();
    let (w, h) = (frame.width as f64, frame.height as f64);
    let at = |x: f64, y: f64| card.fit.map(w * 0.5 + h * x, h * y);
    let (foot, head, left, right) = (at(0.0, 0.62), at(0.0, 0.38), at(-0.06, 0.45), at(0.06, 0.45));
    for (half, colour) in [(3.0, SHADOW), (1.5, ARROW)] {
        for (a, b) in [(foot, head), (left, head), (right, head)] {
            canvas.thick_line(a, b, half, colour);
        }
    }
}

fn grid(canvas: &mut Canvas, workspace: &Workspace, card: &Fitted) {
    let frame = workspace.frame();
    let Ok((cols, rows)) = frame.grid() else { return };
    let at = |n: usize| (frame.margin + n * frame.cell) as f64;
    // Sides are bent by the lens: each is drawn cell by cell.
    for r in 0..=rows {
        for c in 0..cols {
            canvas.line(card.fit.map(at(c), at(r)), card.fit.map(at(c + 1), at(r)), GRID);
        }
    }
    for c in 0..=cols {
        for r in 0..rows {
            canvas.line(card.fit.map(at(c), at(r)), card.fit.map(at(c), at(r + 1)), GRID);
        }
    }
    if let Grade::Outside(cell) = card.grade {
        if cols > 0 {
            let (c, r) = (cell % cols, cell / cols);
            canvas.line(card.fit.map(at(c), at(r)), card.fit.map(at(c + 1), at(r + 1)), OUTSIDE);
            canvas.line(card.fit.map(at(c + 1), at(r)), card.fit.map(at(c), at(r + 1)), OUTSIDE);
        }
    }
}
