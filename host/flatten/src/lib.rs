//! A safe wrapper over the proved library libtablet.a, and the parts of the command `flatten`.
//!
//! ```no_run
//! use flatten::{Frame, Workspace};
//! # let photograph = vec![0u8; 3 * 1280 * 720];
//! let mut workspace = Workspace::new(1280, 720, Frame::BENCH).unwrap(); // once
//! match workspace.rectify(&photograph) {
//!     Ok(card) if card.doubtful() => println!("look at it: score {}, phase {}", card.score, card.phase),
//!     Ok(card) => println!("lens term {}", card.fit.k()),
//!     Err(refusal) => eprintln!("{refusal}"),
//! }
//! ```
#![deny(unsafe_code)]
#![warn(clippy::undocumented_unsafe_blocks)]

pub mod book;
pub mod command;
#[allow(unsafe_code)]
pub mod ffi;
mod files;
mod options;
pub mod overlay;
pub mod p6;
pub mod phase;
mod refusal;
pub mod report;
mod windows;
mod workspace;

pub use refusal::{Refusal, Responsible};
pub use windows::{Rectangle, Window};
pub use workspace::{Candidate, Fit, Fitted, Grade, Patch, Rectified, Workspace};

/// The description of a card: its sides, the side of a cell and the margin, in canonical pixels.
#[derive(Clone, Copy, Debug, PartialEq, Eq)]
pub struct Frame {
    pub width: usize,
    pub height: usize,
    pub cell: usize,
    pub margin: usize,
}

impl Frame {
    /// The card of the movement controllers.
    pub const BENCH: Frame = Frame { width: 848, height: 636, cell: 10, margin: 106 };

    /// Columns and rows of cells.
    pub fn grid(self) -> Result<(usize, usize), Refusal> {
        let mut numbers = [0; 2];
        Refusal::check(ffi::grid(self, &mut numbers))?;
        Ok((numbers[0] as usize, numbers[1] as usize))
    }
}

impl std::str::FromStr for Frame {
    type Err = String;

    /// `W,H,CELL,MARGIN`
    fn from_str(text: &str) -> Result<Frame, String> {
        let numbers: Vec<usize> =
            text.split(',').map(|part| part.parse().map_err(|_| format!("'{part}' is not a whole number"))).collect::<Result<_, _>>()?;
        match numbers[..] {
            [width, height, cell, margin] => Ok(Frame { width, height, cell, margin }),
            _ => Err(format!("four numbers are wanted, there are {}", numbers.len())),
        }
    }
}

impl std::fmt::Display for Frame {
    fn fmt(&self, f: &mut std::fmt::Formatter) -> std::fmt::Result {
        write!(f, "{},{},{},{}", self.width, self.height, self.cell, self.margin)
    }
}
