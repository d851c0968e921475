//! A pixel's luma over every three bytes that there are, which one picture holds.

use crate::{original, Memory};
use flatten::{ffi, Frame};

/// 4,096 by 4,096 pixels are 256 times 256 times 256.
const SIDE: usize = 4096;
pub const TRIPLES: usize = SIDE * SIDE;

/// Any frame that has room for its markers.
const FRAME: Frame = Frame { width: 192, height: 192, cell: 1, margin: 48 };

/// The bytes of pixel i.
fn triple(i: usize) -> [u8; 3] {
    [i >> 16, i >> 8, i].map(|n| n as u8)
}

/// Entry i of both is a luma of triple i: the same bits.
fn same(what: [&str; 2], a: &[f32], b: &[f32]) -> Result<(), String> {
    assert_eq!([a.len(), b.len()], [TRIPLES; 2]);
    let other: Vec<usize> = (0..TRIPLES).filter(|&i| a[i].to_bits() != b[i].to_bits()).collect();
    let Some(&i) = other.first() else { return Ok(()) };
    let (count, bytes, [x, y]) = (other.len(), triple(i), [a[i], b[i]].map(f32::to_bits));
    Err(format!("{count} of {TRIPLES} differ, first {bytes:?}: {} has {x:08x}, {} has {y:08x}", what[0], what[1]))
}

/// `luma` against the original's plane, and the plane of `fiducial_candidates` against `luma`.
pub fn check() -> Result<(), String> {
    let data: Vec<u8> = (0..TRIPLES).flat_map(triple).collect();
    let luma = |i| {
        let [r, g, b] = triple(i);
        ffi::luma(r, g, b)
    };
    let each: Vec<f32> = (0..TRIPLES).map(luma).collect();
    same(["luma", "the original's plane"], &each, &original::luma_plane(SIDE, SIDE, &data))?;

    let mut m = Memory::new(SIDE, SIDE, FRAME);
    m.luma.fill(f32::NAN);
    let mut counts = [0; ffi::LISTED_LEN];
    match ffi::fiducial_candidates(&data, SIDE, SIDE, FRAME, &mut m.lend().0, &mut counts) {
        0 => same(["the plane", "luma"], &m.luma, &each),
        number => Err(format!("fiducial_candidates: refusal {number}")),
    }
}
