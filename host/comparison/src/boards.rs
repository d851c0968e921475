//! The checkerboard, which the original does not have, against its formula; and its patches and how many pixels waited for them,
//! which the library and the original tell.

use crate::original;
use flatten::ffi::{self, PATCH_LEN};
use scene::Random;

/// Calls at the limits: most patches, a line, a column, and both sides odd.
pub const LIMITS: [[u64; 3]; 4] = [[4096, 4096, 0], [4096, 1, 0], [1, 4096, 0], [4095, 4095, 0]];

/// Pixel i of rows of w: 1 where column plus row is even.
pub fn square(w: usize, i: usize) -> u8 {
    u8::from((i % w + i / w).is_multiple_of(2))
}

/// A call as words: width, height, and by how much the mask is longer.
pub fn call(r: &mut Random) -> Vec<u64> {
    let most = r.one_of(&[4, 40, 400]);
    let sides = [r.between(1, most), r.between(1, most)];
    let [w, h] = if r.chance(0.1) { [1, r.between(1, 4096)] } else { sides };
    let [w, h] = if r.chance(0.5) { [w, h] } else { [h, w] };
    vec![w as u64, h as u64, r.one_of(&[0, 0, 1, 50])]
}

/// Makes a call of such words, and lists the patches of what it drew.
pub fn check_words(words: &[u64]) -> Result<(), String> {
    let &[w, h, past] = words else { return Err("a checkerboard has width, height and what its mask is longer by".into()) };
    let [w, h, past] = [w, h, past].map(|n| n as usize);
    let mut mask = vec![9; w * h + past];
    let number = ffi::checkerboard(w, h, &mut mask);
    if number != 0 {
        return Err(format!("refusal {number}"));
    }
    let wanted = |i| if i < w * h { square(w, i) } else { 9 };
    if let Some(i) = (0..mask.len()).find(|&i| mask[i] != wanted(i)) {
        return Err(format!("{w} by {h}, byte {i}: {}, it is {}", mask[i], wanted(i)));
    }
    listed(w, h, &mask[..w * h]).map_err(|e| format!("{w} by {h}: {e}"))
}

/// With as many patch records as are asked for every one is taken, and with a number less it is refused.
fn listed(w: usize, h: usize, mask: &[u8]) -> Result<(), String> {
    let most = (w * h).div_ceil(2);
    let (mut seen, mut waiting, mut counts) = (vec![9; w * h], vec![9; w * h], [9; ffi::LABELLED_LEN]);
    let mut patches = vec![9; PATCH_LEN * most];
    let mut label = |patches: &mut [u64]| (ffi::label_blobs(mask, w, h, &mut seen, &mut waiting, patches, &mut counts), counts);
    let (number, _) = label(&mut patches[..PATCH_LEN * most - 1]);
    if number != 3 || patches.iter().any(|&n| n != 9) {
        return Err(format!("with a number less for patch records: refusal {number}, or they were touched"));
    }
    let (number, [count, waited]) = label(&mut patches);
    if (number, count) != (0, most as u64) {
        return Err(format!("refusal {number}, {count} patches, they are {most}"));
    }
    let theirs = original::records(mask, w, h);
    if theirs.len() != most {
        return Err(format!("the original has {} patches, they are {most}", theirs.len()));
    }
    match original::waited(mask, w, h) {
        n if n as u64 == waited => {}
        n => return Err(format!("{waited} pixels waited, on the original's stack {n}")),
    }
    match patches.chunks_exact(PATCH_LEN).zip(&theirs).position(|(a, b)| a != b) {
        None => Ok(()),
        Some(i) => Err(format!("patch {i}: {:?}, the original has {:?}", &patches[PATCH_LEN * i..][..PATCH_LEN], theirs[i])),
    }
}
