//! Photographs of cards, drawn from numbers and a seed. Std only, and nothing of the original or of the library: a scene is what
//! both are shown.

mod card;
mod light;
mod photograph;
mod pose;
mod random;

pub use card::{Card, Cells, Frame, Rgb, Ring, BENCH_CELLS, FOUR};
pub use light::{Exposure, Light, Motion};
pub use photograph::{bench, Glare, Grating, Scene};
pub use pose::{homography, Pose};
pub use random::{mix, step, Random};
