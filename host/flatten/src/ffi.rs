//! The functions of libtablet.a (host/include/tablet.h), each behind a safe function that takes slices.
//!
//! This is the only module with `unsafe`. The calls are sound for slices of any length and content: the library is proved to
//! read and write only inside what it is handed and to keep nothing, and Rust's borrows keep the slices apart. So each
//! `SAFETY` has to say only that a pointer goes with its own slice's length. Each function returns the refusal number, 0
//! where it accepts, but for `luma`, which refuses nothing and returns the luma.

use crate::Frame;

/// Entries of the counts.
pub const PATCHES: usize = 0;
pub const CANDIDATES: usize = 1;
pub const WAITED: usize = 2;
pub const PLACES: usize = 3;
pub const TRIALS: usize = 7;
pub const HOMOGRAPHIES: usize = 8;
pub const GRADE: usize = 9;
pub const OUTSIDE_CELL: usize = 10;
pub const BEYOND: usize = 11;

/// Grades.
pub const SCORED: u64 = 0;
pub const OUTSIDE: u64 = 1;
pub const TOO_FEW: u64 = 2;
pub const NO_GRADE: u64 = 3;

/// Lengths of result slices.
pub const LENGTHS_LEN: usize = 11;
pub const COUNTS_LEN: usize = 12;
pub const FITTED_LEN: usize = 11;
pub const DETECTED_LEN: usize = 7;
pub const LISTED_LEN: usize = 3;
pub const LABELLED_LEN: usize = 2;
pub const WARPED_LEN: usize = 1;
pub const SCORED_FIT_LEN: usize = 14;
pub const FIT_LEN: usize = 13;
pub const POINTS_LEN: usize = 8;
pub const MATRIX_LEN: usize = 9;
pub const LENS_LEN: usize = 4;
pub const COLOUR_LEN: usize = 4;

/// A record of patches: area, sum of x, sum of y, x0, y0, x1, y1, outline.
pub const PATCH_LEN: usize = 8;

/// A line of the candidate page: 36 columns and a line feed.
pub const PAGE_LINE_LEN: usize = 37;

/// Bytes of a book of fits: before its first record, and of each.
pub const BOOK_HEADER_LEN: usize = 16;
pub const BOOK_RECORD_LEN: usize = 120;

/// A record's panel, camera and grade.
pub const BOOK_HEAD_LEN: usize = 3;

/// A rectangle of windows: x0, y0, x1, y1, both ends counted.
pub const RECTANGLE_LEN: usize = 4;

/// What is answered for a rectangle: how many patches touch it, the first of them, the nearest patch.
pub const WINDOW_LEN: usize = 3;

/// Rectangles that one call takes.
pub const MOST_WINDOWS: usize = 64;

/// The place of a patch that there is not.
pub const NO_PATCH: u64 = u64::MAX;

/// The work areas of a look at the picture, in the order of the C functions.
pub struct Areas<'a> {
    pub luma: &'a mut [f32],
    pub integral: &'a mut [f64],
    pub mask: &'a mut [u8],
    pub seen: &'a mut [u8],
    pub waiting: &'a mut [u32],
    pub patches: &'a mut [u64],
    pub candidates: &'a mut [f64],
    pub blob_index: &'a mut [u32],
}

#[rustfmt::skip]
mod c {
    // A frame's four numbers, and a slice's pointer and length, are arguments of their own.
    macro_rules! looks {
        ($($name:ident($($extra:ident: $t:ty),*);)*) => {
            extern "C" {
                $(pub fn $name(
                    capture: *const u8, capture_len: usize, w: usize, h: usize,
                    width: usize, height: usize, cell: usize, margin: usize,
                    luma: *mut f32, luma_len: usize, integral: *mut f64, integral_len: usize,
                    mask: *mut u8, mask_len: usize, seen: *mut u8, seen_len: usize,
                    waiting: *mut u32, waiting_len: usize, patches: *mut u64, patches_len: usize,
                    candidates: *mut f64, candidates_len: usize, blob_index: *mut u32, blob_index_len: usize,
                    $($extra: $t),*
                ) -> u32;)*
            }
        };
    }
    looks! {
        tablet_rectify(means: *mut f64, means_len: usize, canonical: *mut u8, canonical_len: usize,
            counts: *mut u64, counts_len: usize, fit: *mut f64, fit_len: usize);
        tablet_fit_geometry(means: *mut f64, means_len: usize,
            counts: *mut u64, counts_len: usize, fit: *mut f64, fit_len: usize);
        tablet_detect_fiducials(counts: *mut u64, counts_len: usize, points: *mut f64, points_len: usize);
        tablet_fiducial_candidates(counts: *mut u64, counts_len: usize);
    }
    extern "C" {
        pub fn tablet_lengths(
            w: usize, h: usize, width: usize, height: usize, cell: usize, margin: usize,
            lengths: *mut u64, lengths_len: usize,
        ) -> u32;
        pub fn tablet_label_blobs(
            mask: *const u8, mask_len: usize, w: usize, h: usize,
            seen: *mut u8, seen_len: usize, waiting: *mut u32, waiting_len: usize,
            patches: *mut u64, patches_len: usize, counts: *mut u64, counts_len: usize,
        ) -> u32;
        pub fn tablet_fit_for(
            w: usize, h: usize, width: usize, height: usize, cell: usize, margin: usize,
            points: *const f64, points_len: usize, k: f64, fit: *mut f64, fit_len: usize,
        ) -> u32;
        pub fn tablet_grid_score(
            capture: *const u8, capture_len: usize, w: usize, h: usize,
            width: usize, height: usize, cell: usize, margin: usize,
            fit: *const f64, fit_len: usize, means: *mut f64, means_len: usize,
            grade: *mut u64, grade_len: usize, score: *mut f64, score_len: usize,
        ) -> u32;
        pub fn tablet_warp_with(
            capture: *const u8, capture_len: usize, w: usize, h: usize,
            width: usize, height: usize, cell: usize, margin: usize,
            fit: *const f64, fit_len: usize, canonical: *mut u8, canonical_len: usize,
            counts: *mut u64, counts_len: usize,
        ) -> u32;
        pub fn tablet_warp_record(
            capture: *const u8, capture_len: usize, w: usize, h: usize,
            width: usize, height: usize, cell: usize, margin: usize,
            grade: u32, numbers: *const u64, numbers_len: usize, canonical: *mut u8, canonical_len: usize,
            counts: *mut u64, counts_len: usize,
        ) -> u32;
        pub fn tablet_stamp_fiducials(
            image: *mut u8, image_len: usize, w: usize, h: usize,
            width: usize, height: usize, cell: usize, margin: usize,
        ) -> u32;
        pub fn tablet_marker_centers(
            width: usize, height: usize, cell: usize, margin: usize, points: *mut f64, points_len: usize,
        ) -> u32;
        pub fn tablet_marker_numbers(cell: usize, numbers: *mut u64, numbers_len: usize) -> u32;
        pub fn tablet_grid(
            width: usize, height: usize, cell: usize, margin: usize, numbers: *mut u64, numbers_len: usize,
        ) -> u32;
        pub fn tablet_from_points(
            source: *const f64, source_len: usize, target: *const f64, target_len: usize,
            matrix: *mut f64, matrix_len: usize,
        ) -> u32;
        pub fn tablet_inverse(matrix: *const f64, matrix_len: usize, result: *mut f64, result_len: usize) -> u32;
        pub fn tablet_apply(
            matrix: *const f64, matrix_len: usize, x: f64, y: f64, point: *mut f64, point_len: usize,
        ) -> u32;
        pub fn tablet_mat3_mul(
            a: *const f64, a_len: usize, b: *const f64, b_len: usize, result: *mut f64, result_len: usize,
        ) -> u32;
        pub fn tablet_radial(w: usize, h: usize, k: f64, lens: *mut f64, lens_len: usize) -> u32;
        pub fn tablet_distort(
            lens: *const f64, lens_len: usize, x: f64, y: f64, point: *mut f64, point_len: usize,
        ) -> u32;
        pub fn tablet_undistort(
            lens: *const f64, lens_len: usize, x: f64, y: f64, point: *mut f64, point_len: usize,
        ) -> u32;
        pub fn tablet_bilinear(
            capture: *const u8, capture_len: usize, w: usize, h: usize, x: f64, y: f64,
            colour: *mut u8, colour_len: usize,
        ) -> u32;
        pub fn tablet_luma(r: u8, g: u8, b: u8) -> f32;
        pub fn tablet_rms_error(
            a: *const f64, a_len: usize, b: *const f64, b_len: usize, result: *mut f64, result_len: usize,
        ) -> u32;
        pub fn tablet_checkerboard(w: usize, h: usize, mask: *mut u8, mask_len: usize) -> u32;
        pub fn tablet_candidate_page(
            candidates: *const f64, candidates_len: usize, count: usize, page: *mut u8, page_len: usize,
        ) -> u32;
        pub fn tablet_patch_windows(
            patches: *const u64, patches_len: usize, n: usize, windows: *const u64, windows_len: usize, k: usize,
            answers: *mut u64, answers_len: usize,
        ) -> u32;
        pub fn tablet_read_book(
            book: *const u8, book_len: usize, heads: *mut u32, heads_len: usize, numbers: *mut u64, numbers_len: usize,
        ) -> u32;
        pub fn tablet_write_book(
            heads: *const u32, heads_len: usize, numbers: *const u64, numbers_len: usize,
            count: usize, book: *mut u8, book_len: usize,
        ) -> u32;
        pub fn tablet_merge_books(
            first: *const u8, first_len: usize, second: *const u8, second_len: usize,
            target: *mut u8, target_len: usize,
        ) -> u32;
    }
}

pub fn lengths(w: usize, h: usize, f: Frame, lengths: &mut [u64]) -> u32 {
    // SAFETY: the results' slice goes with its own length, and is lent to this call alone.
    unsafe { c::tablet_lengths(w, h, f.width, f.height, f.cell, f.margin, lengths.as_mut_ptr(), lengths.len()) }
}

#[rustfmt::skip]
#[allow(clippy::too_many_arguments)]
pub fn rectify(
    capture: &[u8], w: usize, h: usize, f: Frame, a: &mut Areas,
    means: &mut [f64], canonical: &mut [u8], counts: &mut [u64], fit: &mut [f64],
) -> u32 {
    // SAFETY: each slice goes with its own length; the lent ones are borrowed apart from one another and from the capture.
    unsafe {
        c::tablet_rectify(
            capture.as_ptr(), capture.len(), w, h, f.width, f.height, f.cell, f.margin,
            a.luma.as_mut_ptr(), a.luma.len(), a.integral.as_mut_ptr(), a.integral.len(),
            a.mask.as_mut_ptr(), a.mask.len(), a.seen.as_mut_ptr(), a.seen.len(),
            a.waiting.as_mut_ptr(), a.waiting.len(), a.patches.as_mut_ptr(), a.patches.len(),
            a.candidates.as_mut_ptr(), a.candidates.len(), a.blob_index.as_mut_ptr(), a.blob_index.len(),
            means.as_mut_ptr(), means.len(), canonical.as_mut_ptr(), canonical.len(),
            counts.as_mut_ptr(), counts.len(), fit.as_mut_ptr(), fit.len(),
        )
    }
}

#[rustfmt::skip]
#[allow(clippy::too_many_arguments)]
pub fn fit_geometry(
    capture: &[u8], w: usize, h: usize, f: Frame, a: &mut Areas,
    means: &mut [f64], counts: &mut [u64], fit: &mut [f64],
) -> u32 {
    // SAFETY: each slice goes with its own length; the lent ones are borrowed apart from one another and from the capture.
    unsafe {
        c::tablet_fit_geometry(
            capture.as_ptr(), capture.len(), w, h, f.width, f.height, f.cell, f.margin,
            a.luma.as_mut_ptr(), a.luma.len(), a.integral.as_mut_ptr(), a.integral.len(),
            a.mask.as_mut_ptr(), a.mask.len(), a.seen.as_mut_ptr(), a.seen.len(),
            a.waiting.as_mut_ptr(), a.waiting.len(), a.patches.as_mut_ptr(), a.patches.len(),
            a.candidates.as_mut_ptr(), a.candidates.len(), a.blob_index.as_mut_ptr(), a.blob_index.len(),
            means.as_mut_ptr(), means.len(), counts.as_mut_ptr(), counts.len(), fit.as_mut_ptr(), fit.len(),
        )
    }
}

#[rustfmt::skip]
pub fn detect_fiducials(
    capture: &[u8], w: usize, h: usize, f: Frame, a: &mut Areas, counts: &mut [u64], points: &mut [f64],
) -> u32 {
    // SAFETY: each slice goes with its own length; the lent ones are borrowed apart from one another and from the capture.
    unsafe {
        c::tablet_detect_fiducials(
            capture.as_ptr(), capture.len(), w, h, f.width, f.height, f.cell, f.margin,
            a.luma.as_mut_ptr(), a.luma.len(), a.integral.as_mut_ptr(), a.integral.len(),
            a.mask.as_mut_ptr(), a.mask.len(), a.seen.as_mut_ptr(), a.seen.len(),
            a.waiting.as_mut_ptr(), a.waiting.len(), a.patches.as_mut_ptr(), a.patches.len(),
            a.candidates.as_mut_ptr(), a.candidates.len(), a.blob_index.as_mut_ptr(), a.blob_index.len(),
            counts.as_mut_ptr(), counts.len(), points.as_mut_ptr(), points.len(),
        )
    }
}

#[rustfmt::skip]
pub fn fiducial_candidates(capture: &[u8], w: usize, h: usize, f: Frame, a: &mut Areas, counts: &mut [u64]) -> u32 {
    // SAFETY: each slice goes with its own length; the lent ones are borrowed apart from one another and from the capture.
    unsafe {
        c::tablet_fiducial_candidates(
            capture.as_ptr(), capture.len(), w, h, f.width, f.height, f.cell, f.margin,
            a.luma.as_mut_ptr(), a.luma.len(), a.integral.as_mut_ptr(), a.integral.len(),
            a.mask.as_mut_ptr(), a.mask.len(), a.seen.as_mut_ptr(), a.seen.len(),
            a.waiting.as_mut_ptr(), a.waiting.len(), a.patches.as_mut_ptr(), a.patches.len(),
            a.candidates.as_mut_ptr(), a.candidates.len(), a.blob_index.as_mut_ptr(), a.blob_index.len(),
            counts.as_mut_ptr(), counts.len(),
        )
    }
}

#[rustfmt::skip]
pub fn label_blobs(
    mask: &[u8], w: usize, h: usize, seen: &mut [u8], waiting: &mut [u32], patches: &mut [u64], counts: &mut [u64],
) -> u32 {
    // SAFETY: each slice goes with its own length; the lent ones are borrowed apart from one another and from the mask.
    unsafe {
        c::tablet_label_blobs(
            mask.as_ptr(), mask.len(), w, h, seen.as_mut_ptr(), seen.len(), waiting.as_mut_ptr(), waiting.len(),
            patches.as_mut_ptr(), patches.len(), counts.as_mut_ptr(), counts.len(),
        )
    }
}

#[rustfmt::skip]
pub fn fit_for(w: usize, h: usize, f: Frame, points: &[f64], k: f64, fit: &mut [f64]) -> u32 {
    // SAFETY: points and fit go with their own lengths, and the fit is borrowed apart from the points.
    unsafe {
        c::tablet_fit_for(
            w, h, f.width, f.height, f.cell, f.margin,
            points.as_ptr(), points.len(), k, fit.as_mut_ptr(), fit.len(),
        )
    }
}

#[rustfmt::skip]
#[allow(clippy::too_many_arguments)]
pub fn grid_score(
    capture: &[u8], w: usize, h: usize, f: Frame, fit: &[f64], means: &mut [f64], grade: &mut [u64], score: &mut [f64],
) -> u32 {
    // SAFETY: each slice goes with its own length; means, grade and score are borrowed apart from one another and from what is read.
    unsafe {
        c::tablet_grid_score(
            capture.as_ptr(), capture.len(), w, h, f.width, f.height, f.cell, f.margin,
            fit.as_ptr(), fit.len(), means.as_mut_ptr(), means.len(),
            grade.as_mut_ptr(), grade.len(), score.as_mut_ptr(), score.len(),
        )
    }
}

#[rustfmt::skip]
pub fn warp_with(
    capture: &[u8], w: usize, h: usize, f: Frame, fit: &[f64], canonical: &mut [u8], counts: &mut [u64],
) -> u32 {
    // SAFETY: each slice goes with its own length; card and counts are borrowed apart from one another and from what is read.
    unsafe {
        c::tablet_warp_with(
            capture.as_ptr(), capture.len(), w, h, f.width, f.height, f.cell, f.margin,
            fit.as_ptr(), fit.len(), canonical.as_mut_ptr(), canonical.len(), counts.as_mut_ptr(), counts.len(),
        )
    }
}

#[rustfmt::skip]
#[allow(clippy::too_many_arguments)]
pub fn warp_record(
    capture: &[u8], w: usize, h: usize, f: Frame, grade: u32, numbers: &[u64], canonical: &mut [u8], counts: &mut [u64],
) -> u32 {
    // SAFETY: each slice goes with its own length; card and counts are borrowed apart from one another and from what is read.
    unsafe {
        c::tablet_warp_record(
            capture.as_ptr(), capture.len(), w, h, f.width, f.height, f.cell, f.margin,
            grade, numbers.as_ptr(), numbers.len(), canonical.as_mut_ptr(), canonical.len(),
            counts.as_mut_ptr(), counts.len(),
        )
    }
}

#[rustfmt::skip]
pub fn stamp_fiducials(image: &mut [u8], w: usize, h: usize, f: Frame) -> u32 {
    // SAFETY: the image goes with its own length, and is lent to this call alone.
    unsafe {
        c::tablet_stamp_fiducials(image.as_mut_ptr(), image.len(), w, h, f.width, f.height, f.cell, f.margin)
    }
}

pub fn marker_centers(f: Frame, points: &mut [f64]) -> u32 {
    // SAFETY: the points go with their own length, and are lent to this call alone.
    unsafe { c::tablet_marker_centers(f.width, f.height, f.cell, f.margin, points.as_mut_ptr(), points.len()) }
}

pub fn marker_numbers(cell: usize, numbers: &mut [u64]) -> u32 {
    // SAFETY: the numbers go with their own length, and are lent to this call alone.
    unsafe { c::tablet_marker_numbers(cell, numbers.as_mut_ptr(), numbers.len()) }
}

pub fn grid(f: Frame, numbers: &mut [u64]) -> u32 {
    // SAFETY: the numbers go with their own length, and are lent to this call alone.
    unsafe { c::tablet_grid(f.width, f.height, f.cell, f.margin, numbers.as_mut_ptr(), numbers.len()) }
}

#[rustfmt::skip]
pub fn from_points(source: &[f64], target: &[f64], matrix: &mut [f64]) -> u32 {
    // SAFETY: each slice goes with its own length; the matrix is borrowed apart from both point lists, which are only read.
    unsafe {
        c::tablet_from_points(
            source.as_ptr(), source.len(), target.as_ptr(), target.len(), matrix.as_mut_ptr(), matrix.len(),
        )
    }
}

pub fn inverse(matrix: &[f64], result: &mut [f64]) -> u32 {
    // SAFETY: both slices go with their own lengths, and the result is borrowed apart from the matrix.
    unsafe { c::tablet_inverse(matrix.as_ptr(), matrix.len(), result.as_mut_ptr(), result.len()) }
}

pub fn apply(matrix: &[f64], x: f64, y: f64, point: &mut [f64]) -> u32 {
    // SAFETY: both slices go with their own lengths, and the point is borrowed apart from the matrix.
    unsafe { c::tablet_apply(matrix.as_ptr(), matrix.len(), x, y, point.as_mut_ptr(), point.len()) }
}

pub fn mat3_mul(a: &[f64], b: &[f64], result: &mut [f64]) -> u32 {
    // SAFETY: each slice goes with its own length; the result is borrowed apart from both factors, which are only read.
    unsafe { c::tablet_mat3_mul(a.as_ptr(), a.len(), b.as_ptr(), b.len(), result.as_mut_ptr(), result.len()) }
}

pub fn radial(w: usize, h: usize, k: f64, lens: &mut [f64]) -> u32 {
    // SAFETY: the lens goes with its own length, and is lent to this call alone.
    unsafe { c::tablet_radial(w, h, k, lens.as_mut_ptr(), lens.len()) }
}

pub fn distort(lens: &[f64], x: f64, y: f64, point: &mut [f64]) -> u32 {
    // SAFETY: both slices go with their own lengths, and the point is borrowed apart from the lens.
    unsafe { c::tablet_distort(lens.as_ptr(), lens.len(), x, y, point.as_mut_ptr(), point.len()) }
}

pub fn undistort(lens: &[f64], x: f64, y: f64, point: &mut [f64]) -> u32 {
    // SAFETY: both slices go with their own lengths, and the point is borrowed apart from the lens.
    unsafe { c::tablet_undistort(lens.as_ptr(), lens.len(), x, y, point.as_mut_ptr(), point.len()) }
}

/// Red, green, blue, and 1 where the position is inside the picture, else 0.
pub fn bilinear(capture: &[u8], w: usize, h: usize, x: f64, y: f64, colour: &mut [u8]) -> u32 {
    // SAFETY: both slices go with their own lengths, and the colour is borrowed apart from the capture.
    unsafe { c::tablet_bilinear(capture.as_ptr(), capture.len(), w, h, x, y, colour.as_mut_ptr(), colour.len()) }
}

/// A pixel's luma, as the luma plane of a look has it.
pub fn luma(r: u8, g: u8, b: u8) -> f32 {
    // SAFETY: three bytes and no pointer.
    unsafe { c::tablet_luma(r, g, b) }
}

pub fn rms_error(a: &[f64], b: &[f64], result: &mut [f64]) -> u32 {
    // SAFETY: each slice goes with its own length; the result is borrowed apart from both point lists, which are only read.
    unsafe { c::tablet_rms_error(a.as_ptr(), a.len(), b.as_ptr(), b.len(), result.as_mut_ptr(), result.len()) }
}

pub fn checkerboard(w: usize, h: usize, mask: &mut [u8]) -> u32 {
    // SAFETY: the mask goes with its own length, and is lent to this call alone.
    unsafe { c::tablet_checkerboard(w, h, mask.as_mut_ptr(), mask.len()) }
}

pub fn candidate_page(candidates: &[f64], count: usize, page: &mut [u8]) -> u32 {
    // SAFETY: both slices go with their own lengths, and the page is borrowed apart from the candidates.
    unsafe { c::tablet_candidate_page(candidates.as_ptr(), candidates.len(), count, page.as_mut_ptr(), page.len()) }
}

#[rustfmt::skip]
pub fn patch_windows(patches: &[u64], n: usize, windows: &[u64], k: usize, answers: &mut [u64]) -> u32 {
    // SAFETY: each slice goes with its own length; the answers are borrowed apart from patches and windows, which are only read.
    unsafe {
        c::tablet_patch_windows(
            patches.as_ptr(), patches.len(), n, windows.as_ptr(), windows.len(), k, answers.as_mut_ptr(), answers.len(),
        )
    }
}

#[rustfmt::skip]
pub fn read_book(book: &[u8], heads: &mut [u32], numbers: &mut [u64]) -> u32 {
    // SAFETY: each slice goes with its own length; heads and numbers are borrowed apart from one another and from the book.
    unsafe {
        c::tablet_read_book(
            book.as_ptr(), book.len(), heads.as_mut_ptr(), heads.len(), numbers.as_mut_ptr(), numbers.len(),
        )
    }
}

#[rustfmt::skip]
pub fn write_book(heads: &[u32], numbers: &[u64], count: usize, book: &mut [u8]) -> u32 {
    // SAFETY: each slice goes with its own length; the book is borrowed apart from heads and numbers, which are only read.
    unsafe {
        c::tablet_write_book(
            heads.as_ptr(), heads.len(), numbers.as_ptr(), numbers.len(), count, book.as_mut_ptr(), book.len(),
        )
    }
}

#[rustfmt::skip]
pub fn merge_books(first: &[u8], second: &[u8], target: &mut [u8]) -> u32 {
    // SAFETY: each slice goes with its own length; the target is borrowed apart from both books, which are only read.
    unsafe {
        c::tablet_merge_books(
            first.as_ptr(), first.len(), second.as_ptr(), second.len(), target.as_mut_ptr(), target.len(),
        )
    }
}
