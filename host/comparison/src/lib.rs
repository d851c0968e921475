//! What the comparison, the benchmark and the capture files share.
pub mod boards;
pub mod books;
pub mod captures;
pub mod clock;
pub mod damage;
pub mod direct;
pub mod kinds;
pub mod luma;
pub mod merges;
pub mod original;
pub mod pages;
pub mod windows;

use flatten::{ffi, Frame};
use scene::Random;

/// A capture with the frame that it is read by.
#[derive(Clone)]
pub struct Case {
    pub w: usize,
    pub h: usize,
    pub frame: Frame,
    pub data: Vec<u8>,
}

/// All NaNs as one.
pub fn bits(x: f64) -> u64 {
    if x.is_nan() {
        f64::NAN.to_bits()
    } else {
        x.to_bits()
    }
}

/// A call whose number and what it leaves are worked out by a definition of their own.
pub trait Defined: Sized {
    /// The number that the call must give, and what it must leave: all that it does not store as it was.
    fn expected(&self) -> (u32, Self);

    fn run(&mut self) -> u32;

    /// Every entry of what it is handed.
    fn same(&self, wanted: &Self) -> Result<(), String>;

    /// Makes the call: its number, where that and all that it left are as they should be.
    fn check(&mut self) -> Result<u32, String> {
        let (number, wanted) = self.expected();
        match self.run() {
            n if n == number => self.same(&wanted).map(|()| number),
            n => Err(format!("refusal {n}, it should be {number}")),
        }
    }
}

/// How many records a drawn list has: mostly below five, now and then about ten or a hundred.
fn few(r: &mut Random) -> usize {
    match r.below(50) {
        0 => r.between(95, 105),
        n if n < 5 => r.between(7, 12),
        _ => r.below(5),
    }
}

/// Sizes of a look's work areas, worked out here from docs/REQUIREMENTS.md, 3.1, and not asked of the library.
#[derive(Clone, Copy)]
pub struct Sizes {
    pub pixels: usize,
    pub integral: usize,
    pub patches: usize,
    pub candidates: usize,
    pub means: usize,
    pub canonical: usize,
}

/// Sampled cells: every third row and column.
pub fn sampled(f: Frame) -> usize {
    let cells = |side: usize| side.saturating_sub(2 * f.margin) / f.cell;
    cells(f.height).div_ceil(3) * cells(f.width).div_ceil(3)
}

pub fn sizes(w: usize, h: usize, f: Frame) -> Sizes {
    Sizes {
        pixels: w * h,
        integral: (w + 1) * (h + 1),
        patches: (w * h).div_ceil(2),
        candidates: w * h / 32,
        means: sampled(f),
        canonical: 3 * f.width * f.height,
    }
}

/// A look's work areas, with the cell means and the card.
#[derive(Clone)]
pub struct Memory {
    pub luma: Vec<f32>,
    pub integral: Vec<f64>,
    pub mask: Vec<u8>,
    pub seen: Vec<u8>,
    pub waiting: Vec<u32>,
    pub patches: Vec<u64>,
    pub candidates: Vec<f64>,
    pub blob_index: Vec<u32>,
    pub means: Vec<f64>,
    pub canonical: Vec<u8>,
}

impl Memory {
    /// Of the smallest lengths.
    pub fn new(w: usize, h: usize, f: Frame) -> Memory {
        let s = sizes(w, h, f);
        Memory {
            luma: vec![0.0; s.pixels],
            integral: vec![0.0; s.integral],
            mask: vec![0; s.pixels],
            seen: vec![0; s.pixels],
            waiting: vec![0; s.pixels],
            patches: vec![0; ffi::PATCH_LEN * s.patches],
            candidates: vec![0.0; 4 * s.candidates],
            blob_index: vec![0; s.candidates],
            means: vec![0.0; s.means],
            canonical: vec![0; s.canonical],
        }
    }

    /// The areas, the means and the card, each lent.
    pub fn lend(&mut self) -> (ffi::Areas<'_>, &mut [f64], &mut [u8]) {
        let areas = ffi::Areas {
            luma: &mut self.luma,
            integral: &mut self.integral,
            mask: &mut self.mask,
            seen: &mut self.seen,
            waiting: &mut self.waiting,
            patches: &mut self.patches,
            candidates: &mut self.candidates,
            blob_index: &mut self.blob_index,
        };
        (areas, &mut self.means, &mut self.canonical)
    }
}
