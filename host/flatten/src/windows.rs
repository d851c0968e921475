//! Rectangles over a patch list. What is answered for one stands at tablet_patch_windows in host/include/tablet.h.

use crate::{ffi, Refusal};

/// Pixels from (x0, y0) to (x1, y1), both counted. It may lie outside the picture.
#[derive(Clone, Copy, Debug, PartialEq, Eq)]
pub struct Rectangle {
    pub x0: u64,
    pub y0: u64,
    pub x1: u64,
    pub y1: u64,
}

/// What a patch list has at a rectangle.
#[derive(Clone, Copy, Debug, PartialEq, Eq)]
pub struct Window {
    /// How many patches have a box that shares a pixel with it.
    pub count: u64,
    /// The place in the list of the first of them.
    pub first: Option<usize>,
    /// The place of the patch whose box has its centre nearest the rectangle's, touching or not, the earlier of equals.
    pub nearest: Option<usize>,
}

impl Window {
    fn of(answers: &[u64]) -> Window {
        let place = |answer: u64| (answer != ffi::NO_PATCH).then_some(answer as usize);
        Window { count: answers[0], first: place(answers[1]), nearest: place(answers[2]) }
    }
}

/// For each rectangle what the first n patches of a list have there, or 17.
pub(crate) fn over(patches: &[u64], n: usize, rectangles: &[Rectangle]) -> Result<Vec<Window>, Refusal> {
    // One more than are taken is refused whatever the rest are, so that no more are handed on.
    let taken = &rectangles[..rectangles.len().min(ffi::MOST_WINDOWS + 1)];
    let ends: Vec<u64> = taken.iter().flat_map(|r| [r.x0, r.y0, r.x1, r.y1]).collect();
    let mut answers = vec![0; ffi::WINDOW_LEN * taken.len()];
    Refusal::check(ffi::patch_windows(patches, n, &ends, taken.len(), &mut answers))?;
    Ok(answers.chunks_exact(ffi::WINDOW_LEN).map(Window::of).collect())
}
