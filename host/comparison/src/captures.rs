//! One capture on both sides: all that demand 2 names, planes, lists and the number of waiting pixels too.

use crate::direct::graded;
use crate::original::{self as o, Answer, Flat, Look};
use crate::{bits, pages, windows, Case, Memory};
use flatten::ffi;
use std::fmt::Debug;
use vectors::stages::possible_counts;

fn eq<T: PartialEq + Debug>(what: &str, ours: T, theirs: T) -> Result<(), String> {
    if ours == theirs {
        Ok(())
    } else {
        Err(format!("{what}: {ours:?}, the original has {theirs:?}"))
    }
}

fn each<T: Copy, B: PartialEq + Debug>(what: &str, ours: &[T], theirs: &[T], bits: impl Fn(T) -> B) -> Result<(), String> {
    eq(&format!("{what}'s length"), ours.len(), theirs.len())?;
    match ours.iter().zip(theirs).position(|(&a, &b)| bits(a) != bits(b)) {
        None => Ok(()),
        Some(i) => Err(format!("{what}, entry {i}: {:?}, the original has {:?}", bits(ours[i]), bits(theirs[i]))),
    }
}

/// Planes, marks, lists and their numbers, and that of the pixels that waited.
fn looked(m: &Memory, counts: &[u64], a: &Answer) -> Result<(), String> {
    let look = a.look.as_ref().ok_or("the original did not look at the picture")?;
    each("luma", &m.luma, &look.luma, f32::to_bits)?;
    each("integral", &m.integral, &look.integral, bits)?;
    each("mask", &m.mask, &look.mask, |b| b)?;
    each("marks", &m.seen, &look.mask, |b| b)?;
    listed(&m.patches, counts[ffi::PATCHES], counts[ffi::WAITED], look)?;
    let k = counts[ffi::CANDIDATES] as usize;
    eq("number of candidates", k, look.candidates.len())?;
    each("candidates", &m.candidates[..4 * k], look.candidates.as_flattened(), bits)?;
    let places: Vec<u32> = look.places.iter().map(|&p| p as u32).collect();
    each("places", &m.blob_index[..k], &places, |p| p)?;
    // The candidates are the original's, so the page is that of its candidates.
    pages::check(&m.candidates, k, 37 * k + 1).map_err(|e| format!("candidate_page: {e}"))
}

/// The number that waited is the original's own; the list itself is free.
fn listed(ours: &[u64], count: u64, waited: u64, look: &Look) -> Result<(), String> {
    let theirs = &look.patches;
    eq("number of patches", count as usize, theirs.len())?;
    each("patches", &ours[..ffi::PATCH_LEN * theirs.len()], theirs.as_flattened(), |n| n)?;
    eq("number of pixels that waited", waited as usize, look.waited)
}

/// What is told of a search whose kept trial has no score.
fn unscored(counts: &[u64], c: &Case, a: &Answer) -> Result<(), String> {
    let Some(flat) = &a.flat else { return Err("the original has no fit".into()) };
    each("corners", &counts[ffi::PLACES..ffi::PLACES + 4], &[0; 4], |p| p)?;
    searched(counts, flat)?;
    graded(&o::image(c), c.frame, &flat.fit, [counts[ffi::GRADE], counts[ffi::OUTSIDE_CELL]], flat.score)
}

fn searched(counts: &[u64], flat: &Flat) -> Result<(), String> {
    let trials = counts[ffi::TRIALS];
    eq("trials", trials, flat.trials)?;
    if !possible_counts().contains(&trials) {
        return Err(format!("trials: {trials}, and that is none of {:?}", possible_counts()));
    }
    eq("homographies", counts[ffi::HOMOGRAPHIES], flat.homographies)
}

fn fitted(counts: &[u64], fit: &[f64], c: &Case, a: &Answer) -> Result<(), String> {
    let (Some(found), Some(flat)) = (&a.found, &a.flat) else { return Err("the original has no fit".into()) };
    each("corners", &counts[ffi::PLACES..ffi::PLACES + 4], &found.corners.map(|p| p as u64), |p| p)?;
    each("fit", &fit[..13], &flat.fit, bits)?;
    eq("score", bits(fit[13]), bits(flat.score))?;
    graded(&o::image(c), c.frame, &fit[..13], [counts[ffi::GRADE], counts[ffi::OUTSIDE_CELL]], fit[13])?;
    searched(counts, flat)
}

/// What both sides say of a capture.
pub struct Agreed {
    /// The refusal number of `rectify`.
    pub number: u32,
    /// Trials tried, where it accepts.
    pub trials: Option<u64>,
}

/// Runs every public function that takes a capture on both sides. Where `rectify` refuses by 16 the original's card is not compared
/// with `rectify`'s, which has none; its fit is, with that of `fit_geometry`.
pub fn check(c: &Case) -> Result<Agreed, String> {
    let a = o::answer(c);
    let mut m = Memory::new(c.w, c.h, c.frame);
    m.canonical.fill(0xa5);
    let untouched = m.canonical.clone();
    let (mut counts, mut fit) = ([77; ffi::COUNTS_LEN], [f64::NAN; ffi::SCORED_FIT_LEN]);
    let (mut areas, means, canonical) = m.lend();
    let number = ffi::rectify(&c.data, c.w, c.h, c.frame, &mut areas, means, canonical, &mut counts, &mut fit);
    eq("rectify", number, a.rectify_number())?;
    if matches!(number, 0 | 7..=10 | 16) {
        looked(&m, &counts, &a)?;
    }
    match &a.flat {
        Some(flat) if number == 0 => {
            fitted(&counts, &fit, c, &a)?;
            eq("grade", counts[ffi::GRADE], ffi::SCORED)?;
            eq("beyond", counts[ffi::BEYOND] as usize, flat.beyond)?;
            each("canonical image", &m.canonical, &flat.canonical, |b| b)?;
        }
        _ => {
            eq("beyond", counts[ffi::BEYOND], if number >= 7 { 0 } else { 77 })?;
            each("canonical image", &m.canonical, &untouched, |b| b)?;
            each("fit", &fit, &[f64::NAN; ffi::SCORED_FIT_LEN], bits)?;
        }
    }
    if number == 16 {
        unscored(&counts, c, &a)?;
    }
    others(c, &a)?;
    Ok(Agreed { number, trials: (number == 0).then_some(counts[ffi::TRIALS]) })
}

/// fiducial_candidates, detect_fiducials, fit_geometry, label_blobs, grid_score, warp_with and warp_record, each in memory of its
/// own, so that none is compared by what another has left; and patch_windows over the list of label_blobs.
fn others(c: &Case, a: &Answer) -> Result<(), String> {
    listing(c, a).map_err(|e| format!("fiducial_candidates: {e}"))?;
    detecting(c, a).map_err(|e| format!("detect_fiducials: {e}"))?;
    fitting(c, a).map_err(|e| format!("fit_geometry: {e}"))?;
    if let Some(look) = &a.look {
        labelling(c, look).map_err(|e| format!("label_blobs: {e}"))?;
    }
    match &a.flat {
        Some(flat) => under_the_fit(c, flat, a.rectify_number()),
        None => Ok(()),
    }
}

fn listing(c: &Case, a: &Answer) -> Result<(), String> {
    let (mut m, mut counts) = (Memory::new(c.w, c.h, c.frame), [77; ffi::LISTED_LEN]);
    let number = ffi::fiducial_candidates(&c.data, c.w, c.h, c.frame, &mut m.lend().0, &mut counts);
    eq("refusal", number, if a.number >= 7 { 0 } else { a.number })?;
    if number == 0 {
        looked(&m, &counts, a)?;
    }
    Ok(())
}

/// After its refusals by 7 to 9 areas and counts are the original's too, and there are no corners.
fn detecting(c: &Case, a: &Answer) -> Result<(), String> {
    let (mut m, mut counts) = (Memory::new(c.w, c.h, c.frame), [77; ffi::DETECTED_LEN]);
    let mut points = [f64::NAN; ffi::POINTS_LEN];
    let number = ffi::detect_fiducials(&c.data, c.w, c.h, c.frame, &mut m.lend().0, &mut counts, &mut points);
    eq("refusal", number, if a.number == 10 { 0 } else { a.number })?;
    if a.look.is_some() {
        looked(&m, &counts, a)?;
        let corners = a.found.as_ref().map_or([0; 4], |found| found.corners.map(|p| p as u64));
        each("corners", &counts[ffi::PLACES..], &corners, |p| p)?;
    }
    let theirs = a.found.as_ref().map_or(&[[f64::NAN; 2]; 4], |found| &found.points);
    each("points", &points, theirs.as_flattened(), bits)
}

fn fitting(c: &Case, a: &Answer) -> Result<(), String> {
    let (mut m, mut counts) = (Memory::new(c.w, c.h, c.frame), [77; ffi::COUNTS_LEN]);
    let mut fit = [f64::NAN; ffi::SCORED_FIT_LEN];
    let (mut areas, means, _) = m.lend();
    let number = ffi::fit_geometry(&c.data, c.w, c.h, c.frame, &mut areas, means, &mut counts, &mut fit);
    eq("refusal", number, a.number)?;
    eq("twelfth count", counts[ffi::BEYOND], 77)?;
    if a.look.is_some() {
        looked(&m, &counts, a)?;
    }
    if a.flat.is_some() {
        fitted(&counts, &fit, c, a)?;
    }
    Ok(())
}

fn labelling(c: &Case, look: &Look) -> Result<(), String> {
    let (mut m, mut counts) = (Memory::new(c.w, c.h, c.frame), [77; ffi::LABELLED_LEN]);
    // Any nonzero byte is dark.
    let mask: Vec<u8> = look.mask.iter().enumerate().map(|(i, &d)| d * (1 + (i % 255) as u8)).collect();
    let number = ffi::label_blobs(&mask, c.w, c.h, &mut m.seen, &mut m.waiting, &mut m.patches, &mut counts);
    eq("refusal", number, 0)?;
    listed(&m.patches, counts[0], counts[1], look)?;
    each("marks", &m.seen, &look.mask, |b| b)?;
    windows::over(&m.patches, &look.patches, c.w, c.h).map_err(|e| format!("patch_windows over its list: {e}"))
}

/// grid_score, warp_with and warp_record of the original's fit.
fn under_the_fit(c: &Case, flat: &Flat, of_record: u32) -> Result<(), String> {
    let mut m = Memory::new(c.w, c.h, c.frame);
    let (mut grade, mut score, mut beyond) = ([77; 2], [f64::NAN], [77; ffi::WARPED_LEN]);
    let number = ffi::grid_score(&c.data, c.w, c.h, c.frame, &flat.fit, &mut m.means, &mut grade, &mut score);
    eq("grid_score", number, 0)?;
    graded(&o::image(c), c.frame, &flat.fit, grade, score[0]).map_err(|e| format!("grid_score: {e}"))?;
    eq("warp_with", ffi::warp_with(&c.data, c.w, c.h, c.frame, &flat.fit, &mut m.canonical, &mut beyond), 0)?;
    each("warp_with's image", &m.canonical, &flat.canonical, |b| b)?;
    eq("warp_with's beyond", beyond, [flat.beyond as u64])?;
    // The record that keeps this fit, over a card that is there.
    let before: Vec<u8> = flat.canonical.iter().map(|b| !b).collect();
    m.canonical.copy_from_slice(&before);
    let (numbers, mut beyond) = (flat.fit.map(f64::to_bits), [77; ffi::WARPED_LEN]);
    let number = ffi::warp_record(&c.data, c.w, c.h, c.frame, grade[0] as u32, &numbers, &mut m.canonical, &mut beyond);
    eq("warp_record", number, of_record)?;
    each("warp_record's image", &m.canonical, if number == 0 { &flat.canonical } else { &before }, |b| b)?;
    eq("warp_record's beyond", beyond, [if number == 0 { flat.beyond as u64 } else { 77 }])
}
