//! Calls with frames, captures, rectangles, books and areas of any numbers and lengths. The refusal must be the lowest number (that of
//! a book's reader the first of 14, 15, 3, and that of two books joined the first of 14, 15 of one, 14, 15 of the other, 3, 18), what
//! must stay untouched is compared byte by byte, and two runs must agree: the second has other garbage in areas of the smallest lengths.
//! Two books that are accepted are also joined the other way round.

use crate::original;
use crate::{boards, books, kinds, merges, pages, sizes, windows, Case, Defined, Memory};
use flatten::{ffi, Frame};
use scene::Random;

/// The public functions that take lent areas.
#[derive(Clone, Copy, Debug, PartialEq, Eq, PartialOrd, Ord)]
pub enum Function {
    Rectify,
    FitGeometry,
    DetectFiducials,
    FiducialCandidates,
    LabelBlobs,
    Checkerboard,
    GridScore,
    WarpWith,
    WarpRecord,
    StampFiducials,
    MarkerCenters,
    FitFor,
    Lengths,
    Bilinear,
    CandidatePage,
    PatchWindows,
    ReadBook,
    WriteBook,
    MergeBooks,
}

const FUNCTIONS: &[Function] = &[
    Function::Rectify,
    Function::Rectify,
    Function::Rectify,
    Function::Rectify,
    Function::Rectify,
    Function::FitGeometry,
    Function::DetectFiducials,
    Function::FiducialCandidates,
    Function::LabelBlobs,
    Function::Checkerboard,
    Function::GridScore,
    Function::WarpWith,
    Function::WarpRecord,
    Function::StampFiducials,
    Function::MarkerCenters,
    Function::FitFor,
    Function::Lengths,
    Function::Bilinear,
    Function::CandidatePage,
    Function::PatchWindows,
    Function::ReadBook,
    Function::WriteBook,
    Function::MergeBooks,
];

/// Where a colour is read.
const PLACE: [f64; 2] = [1.25, 0.75];

/// Those that are handed neither a frame nor a picture.
fn apart(f: Function) -> bool {
    matches!(f, Function::CandidatePage | Function::PatchWindows | Function::ReadBook | Function::WriteBook | Function::MergeBooks)
}

/// All that a call is handed.
#[derive(Clone)]
struct Call {
    function: Function,
    case: Case,
    memory: Memory,
    counts: Vec<u64>,
    numbers: Vec<f64>,
    colour: Vec<u8>,
    /// A fit, points or candidates, handed in.
    given: Vec<f64>,
    /// Of a record, whose fit is given.
    grade: u32,
    /// How many candidates, and the page for them.
    count: usize,
    page: Vec<u8>,
    windows: windows::Call,
    book: books::Call,
    merge: merges::Call,
}

/// The original's numbers for what passes 1 to 6.
#[derive(Clone, Copy)]
struct Numbers {
    rectify: u32,
    fit: u32,
}

impl Numbers {
    fn of(c: &Case) -> Numbers {
        let a = original::answer(c);
        Numbers { rectify: a.rectify_number(), fit: a.number }
    }
}

/// Captures with the original's answers.
pub struct Pool(Vec<(Case, Numbers)>);

impl Pool {
    pub fn new(seed: u64) -> Pool {
        let mut r = Random::new(seed);
        let from = [kinds::small, kinds::small, kinds::ties, kinds::degenerate, kinds::noise, kinds::outside];
        let mut cases = Vec::new();
        while cases.len() < 96 {
            let mut c = from[cases.len() % from.len()](&mut r);
            // Few cells make a fit quick; the markers are the same. Where the margin has room, now and then too few for a score.
            c.frame.cell = if c.frame.margin >= 56 && r.chance(0.3) { r.between(30, 48) } else { r.between(4, 9) };
            if c.w * c.h <= 20000 {
                let numbers = Numbers::of(&c);
                cases.push((c, numbers));
            }
        }
        Pool(cases)
    }
}

fn side(n: usize) -> bool {
    (1..=4096).contains(&n)
}

fn frame_outside(f: Frame) -> bool {
    !(side(f.width) && side(f.height) && (1..=512).contains(&f.cell) && f.margin <= 4096)
}

/// The lowest refusal (docs/REQUIREMENTS.md, 2.12): a list of numbers and whether each applies.
fn lowest(c: &Call, seen: Numbers) -> u32 {
    let (f, m, case) = (c.case.frame, &c.memory, &c.case);
    let frame_bad = frame_outside(f);
    let sides_bad = !(side(case.w) && side(case.h));
    let capture_bad = sides_bad || case.data.len() != 3 * case.w * case.h;
    if frame_bad || sides_bad {
        // Sizes can only be worked out inside the limits.
        let frame_counts = !apart(c.function) && !matches!(c.function, Function::LabelBlobs | Function::Checkerboard | Function::Bilinear);
        let sides_count = !apart(c.function) && c.function != Function::MarkerCenters;
        if frame_bad && frame_counts {
            return 1;
        }
        if sides_bad && sides_count {
            return 2;
        }
    }
    let frame = if frame_bad { Frame::BENCH } else { f };
    let s = if sides_bad { sizes(1, 1, frame) } else { sizes(case.w, case.h, frame) };
    let quiet = (8 * frame.cell).clamp(72, 96) / 6;
    let no_layout = frame.margin < 2 * quiet + 24 || frame.width < 4 * frame.margin || frame.height < 4 * frame.margin;
    let look_short = m.luma.len() < s.pixels
        || m.integral.len() < s.integral
        || m.mask.len() < s.pixels
        || m.seen.len() < s.pixels
        || m.waiting.len() < s.pixels
        || m.patches.len() < ffi::PATCH_LEN * s.patches
        || m.candidates.len() < 4 * s.candidates
        || m.blob_index.len() < s.candidates;
    let means_short = m.means.len() < s.means;
    let card_wrong = m.canonical.len() != s.canonical;
    let tiny = case.w < 32 || case.h < 32;
    let (counts, numbers, given) = (c.counts.len(), c.numbers.len(), c.given.len());
    let tests: &[(u32, bool)] = &match c.function {
        Function::Rectify => vec![
            (2, capture_bad),
            (3, look_short || means_short || counts < 12 || numbers < 14),
            (4, card_wrong),
            (5, no_layout),
            (6, tiny),
            (seen.rectify, seen.rectify >= 7),
        ],
        Function::FitGeometry => {
            vec![
                (2, capture_bad),
                (3, look_short || means_short || counts < 11 || numbers < 14),
                (5, no_layout),
                (6, tiny),
                (seen.fit, seen.fit >= 7),
            ]
        }
        Function::DetectFiducials => {
            vec![
                (2, capture_bad),
                (3, look_short || counts < 7 || numbers < 8),
                (5, no_layout),
                (6, tiny),
                (seen.fit, (7..10).contains(&seen.fit)),
            ]
        }
        Function::FiducialCandidates => vec![(2, capture_bad), (3, look_short || counts < 3), (5, no_layout), (6, tiny)],
        Function::LabelBlobs => vec![
            (2, m.mask.len() != s.pixels),
            (3, m.seen.len() < s.pixels || m.waiting.len() < s.pixels || m.patches.len() < ffi::PATCH_LEN * s.patches || counts < 2),
        ],
        Function::Checkerboard => vec![(3, m.mask.len() < s.pixels)],
        Function::GridScore => vec![(2, capture_bad), (3, given < 13 || means_short || counts < 2 || numbers < 1)],
        Function::WarpWith => vec![(2, capture_bad), (3, given < 13 || counts < 1), (4, card_wrong)],
        Function::WarpRecord => vec![(2, capture_bad), (3, given < 13 || counts < 1), (4, card_wrong), (16, c.grade != 0)],
        Function::StampFiducials => vec![(2, capture_bad), (5, no_layout)],
        Function::MarkerCenters => vec![(3, numbers < 8), (5, no_layout)],
        // The points of FitFor are never degenerate here.
        Function::FitFor => vec![(3, given < 8 || numbers < 13), (5, no_layout)],
        Function::Lengths => vec![(3, counts < 11)],
        Function::Bilinear => vec![(2, capture_bad), (3, c.colour.len() < 4)],
        Function::CandidatePage => vec![(pages::text(&c.given, c.count, c.page.len()).err().unwrap_or(0), true)],
        Function::PatchWindows => vec![(c.windows.expected().0, true)],
        Function::ReadBook | Function::WriteBook => vec![(c.book.expected().0, true)],
        Function::MergeBooks => vec![(c.merge.expected().0, true)],
    };
    tests.iter().filter(|(_, holds)| *holds).map(|(n, _)| *n).min().unwrap_or(0)
}

fn run(c: &mut Call) -> u32 {
    let (w, h, f) = (c.case.w, c.case.h, c.case.frame);
    let capture = &mut c.case.data;
    let (mut areas, means, canonical) = c.memory.lend();
    match c.function {
        Function::Rectify => ffi::rectify(capture, w, h, f, &mut areas, means, canonical, &mut c.counts, &mut c.numbers),
        Function::FitGeometry => ffi::fit_geometry(capture, w, h, f, &mut areas, means, &mut c.counts, &mut c.numbers),
        Function::DetectFiducials => ffi::detect_fiducials(capture, w, h, f, &mut areas, &mut c.counts, &mut c.numbers),
        Function::FiducialCandidates => ffi::fiducial_candidates(capture, w, h, f, &mut areas, &mut c.counts),
        Function::LabelBlobs => ffi::label_blobs(areas.mask, w, h, areas.seen, areas.waiting, areas.patches, &mut c.counts),
        Function::Checkerboard => ffi::checkerboard(w, h, areas.mask),
        Function::GridScore => ffi::grid_score(capture, w, h, f, &c.given, means, &mut c.counts, &mut c.numbers),
        Function::WarpWith => ffi::warp_with(capture, w, h, f, &c.given, canonical, &mut c.counts),
        Function::WarpRecord => {
            let numbers: Vec<u64> = c.given.iter().map(|x| x.to_bits()).collect();
            ffi::warp_record(capture, w, h, f, c.grade, &numbers, canonical, &mut c.counts)
        }
        Function::StampFiducials => ffi::stamp_fiducials(capture, w, h, f),
        Function::MarkerCenters => ffi::marker_centers(f, &mut c.numbers),
        Function::FitFor => ffi::fit_for(w, h, f, &c.given, 0.01, &mut c.numbers),
        Function::Lengths => ffi::lengths(w, h, f, &mut c.counts),
        Function::Bilinear => ffi::bilinear(capture, w, h, PLACE[0], PLACE[1], &mut c.colour),
        Function::CandidatePage => ffi::candidate_page(&c.given, c.count, &mut c.page),
        Function::PatchWindows => c.windows.run(),
        Function::ReadBook | Function::WriteBook => c.book.run(),
        Function::MergeBooks => c.merge.run(),
    }
}

/// How many entries of each area, from the first on, a call may have written.
struct Written {
    luma: usize,
    integral: usize,
    mask: usize,
    /// The waiting list too.
    marks: usize,
    patches: usize,
    candidates: usize,
    means: usize,
    page: usize,
}

/// How long an area is: mostly right, else one short, longer, or nothing.
fn length(r: &mut Random, right: usize, wrong: f64) -> usize {
    if !r.chance(wrong) {
        return right + if r.chance(0.2) { r.between(1, 9) } else { 0 };
    }
    match r.below(3) {
        0 => right.saturating_sub(1),
        1 => 0,
        _ => r.below(right + 1),
    }
}

fn exact(r: &mut Random, right: usize, wrong: f64) -> usize {
    if r.chance(wrong) {
        r.one_of(&[right + 1, right.saturating_sub(1), 0, right + 9])
    } else {
        right
    }
}

/// Candidates, their count and the length of the page: few, the most that have ranks, or one more. Now and then the count is one
/// that passes 2^64 times four or times 37, and what is left is little or nothing.
fn page_call(r: &mut Random, wrong: f64) -> (Vec<f64>, usize, usize) {
    let (count, wrong) = match r.below(25) {
        0 => (r.one_of(&[9999, 10000]), 0.3),
        n if n < 5 => (r.between(7, 12), wrong),
        _ => (r.below(5), wrong),
    };
    let mut list = pages::list(r, count, [0.0; 2]);
    if r.chance(2.0 * wrong) {
        pages::spoil(r, &mut list);
    }
    let (list_len, page_len) = (length(r, list.len(), wrong), length(r, 37 * count, wrong));
    // What lies past the count is not looked at.
    list.resize(list_len, f64::NAN);
    let far = [usize::MAX, 1 << 62, (1 << 62) + 1, 1 << 63, usize::MAX / 37 + 1];
    (list, if r.chance(0.2 * wrong) { r.one_of(&far) } else { count }, page_len)
}

/// Few patches, and rectangles up to one too many, often with an end that is spoiled. Now and then a count is one off, or passes 2^64
/// times 8, 4 or 3, and what is left is little or nothing.
fn windows_call(r: &mut Random, wrong: f64) -> windows::Call {
    let (n, k) = (r.one_of(&[0, 1, 2, 3, 5, 30]), r.one_of(&[0, 0, 1, 2, 3, 9, 64, 65]));
    let mut c = windows::drawn(r, n, k);
    if r.chance(0.4) {
        c.spoil(r);
    }
    // What lies past the counts is not looked at.
    c.patches.resize(length(r, 8 * n, wrong), u64::MAX);
    c.windows.resize(length(r, 4 * k, wrong), u64::MAX);
    c.answers.resize(length(r, 3 * k, wrong), 0);
    let far = [1 << 61, (1 << 61) + 1, 1 << 62, (1 << 62) + 1, 1 << 63, usize::MAX / 3 + 1, usize::MAX];
    let mut off = |count: usize| match r.chance(2.0 * wrong) {
        true if r.chance(0.5) => r.one_of(&far),
        true => r.one_of(&[count + 1, count.saturating_sub(1)]),
        false => count,
    };
    (c.n, c.k) = (off(n), off(k));
    c
}

/// Few records and their book. Now and then the count to be written is one off, or passes 2^64 times 3, 13 or 120.
fn book_call(r: &mut Random, wrong: f64, function: Function) -> books::Call {
    let count = r.one_of(&[0, 1, 2, 3, 4, 6]);
    let mut c = books::drawn(r, count);
    let far = [count + 1, count.saturating_sub(1), 35_791_394, usize::MAX, 1 << 61, (1 << 61) + 1, 1 << 63, usize::MAX / 3 + 1];
    let writes = function == Function::WriteBook;
    c.count = writes.then(|| if r.chance(wrong) { r.one_of(&far) } else { count });
    if r.chance(4.0 * wrong) {
        c.spoil(r);
    }
    // What lies past the count is not looked at.
    c.heads.resize(length(r, 3 * count, wrong), u32::MAX);
    c.numbers.resize(length(r, 13 * count, wrong), 0);
    if writes {
        c.book.resize(length(r, 16 + 120 * count, wrong), 0);
    }
    c
}

/// Two books of few records, often with a key under which they differ. Now and then one is spoiled, or both, or the target is short.
fn merge_call(r: &mut Random, wrong: f64) -> merges::Call {
    let count = r.one_of(&[0, 1, 2, 4, 8, 12]);
    let [first, second] = merges::drawn(r, count).map(|mut c| {
        if r.chance(3.0 * wrong) {
            c.spoil(r);
        }
        c.book
    });
    let mut c = merges::Call { first, second, target: vec![0; length(r, 16 + 120 * count, 2.0 * wrong)] };
    if r.chance(0.5) {
        c.differ(r);
    }
    c
}

/// Most calls have nothing wrong or one thing; some have anything.
fn call(r: &mut Random, pool: &Pool) -> (Call, Numbers) {
    let (case, numbers) = &pool.0[r.below(pool.0.len())];
    let (mut case, mut seen) = (case.clone(), *numbers);
    let wrong = r.one_of(&[0.0, 0.0, 0.05, 0.05, 0.3]);
    let function = r.one_of(FUNCTIONS);
    let true_case = case.clone();
    let far = [0, 4097, 5000, usize::MAX, usize::MAX / 2 + 1, 1 << 32];
    if r.chance(wrong) {
        match r.below(6) {
            0 => case.frame.width = r.one_of(&far),
            1 => case.frame.height = r.one_of(&far),
            2 => case.frame.cell = r.one_of(&[0, 513, 4096, usize::MAX]),
            3 => case.frame.margin = r.one_of(&[4097, usize::MAX, usize::MAX / 2 + 1]),
            // Inside the limits, with no room for markers.
            4 => case.frame.margin = r.one_of(&[0, 23, 47, 200, 4096]),
            _ => case.frame.width = r.between(1, 191),
        }
    }
    if r.chance(wrong) {
        match r.below(4) {
            0 => case.w = r.one_of(&far),
            1 => case.h = r.one_of(&far),
            2 => case.w = r.between(1, 4096),
            _ => std::mem::swap(&mut case.w, &mut case.h),
        }
    }
    let data_len = exact(r, case.data.len(), wrong);
    case.data.resize(data_len, 9);
    // Areas by the sizes that are right for the capture as it was, or as it now is where those are small.
    let in_limits = side(case.w) && side(case.h) && !frame_outside(case.frame);
    let s = if in_limits && case.w * case.h <= 40000 {
        sizes(case.w, case.h, case.frame)
    } else {
        sizes(true_case.w, true_case.h, true_case.frame)
    };
    let mask_len = if function == Function::LabelBlobs { exact(r, s.pixels, wrong) } else { length(r, s.pixels, wrong) };
    let memory = Memory {
        luma: vec![0.0; length(r, s.pixels, wrong)],
        integral: vec![0.0; length(r, s.integral, wrong)],
        mask: vec![0; mask_len],
        seen: vec![0; length(r, s.pixels, wrong)],
        waiting: vec![0; length(r, s.pixels, wrong)],
        patches: vec![0; length(r, ffi::PATCH_LEN * s.patches, wrong)],
        candidates: vec![0.0; length(r, 4 * s.candidates, wrong)],
        blob_index: vec![0; length(r, s.candidates, wrong)],
        means: vec![0.0; length(r, s.means, wrong)],
        canonical: vec![0; exact(r, s.canonical, wrong)],
    };
    let counts_len = match function {
        Function::Rectify => 12,
        Function::FitGeometry | Function::Lengths => 11,
        Function::DetectFiducials => 7,
        Function::FiducialCandidates => 3,
        Function::LabelBlobs | Function::GridScore => 2,
        Function::WarpWith | Function::WarpRecord => 1,
        _ => 0,
    };
    let numbers_len = match function {
        Function::Rectify | Function::FitGeometry => 14,
        Function::FitFor => 13,
        Function::DetectFiducials | Function::MarkerCenters => 8,
        Function::GridScore => 1,
        _ => 0,
    };
    let mut given = match function {
        Function::FitFor => vec![10.0, 11.0, 80.0, 12.0, 83.0, 90.0, 9.0, 85.0],
        _ => vec![0.5, 0.01, 3.0, -0.01, 0.5, 4.0, 1e-4, -1e-4, 1.0, r.within(-0.2, 0.2), 50.0, 50.0, 70.0],
    };
    let given_len = length(r, given.len(), wrong);
    given.resize(given_len, 0.25);
    let (mut count, mut page_len) = (0, 0);
    if function == Function::CandidatePage {
        (given, count, page_len) = page_call(r, wrong);
    }
    let books = matches!(function, Function::ReadBook | Function::WriteBook);
    let c = Call {
        function,
        memory,
        counts: vec![0; length(r, counts_len, wrong)],
        numbers: vec![0.0; length(r, numbers_len, wrong)],
        colour: vec![0; length(r, 4, wrong)],
        given,
        grade: if r.chance(2.0 * wrong) { r.one_of(&[1, 2, 3, u32::MAX]) } else { 0 },
        count,
        page: vec![0; page_len],
        windows: if function == Function::PatchWindows { windows_call(r, wrong) } else { windows::Call::default() },
        book: if books { book_call(r, wrong, function) } else { books::Call::default() },
        merge: if function == Function::MergeBooks { merge_call(r, wrong) } else { merges::Call::default() },
        case,
    };
    // A call that passes 1 to 6 has the original's answer to what it is now handed.
    let same = c.case.frame == true_case.frame && (c.case.w, c.case.h) == (true_case.w, true_case.h) && c.case.data == true_case.data;
    let looks = matches!(function, Function::Rectify | Function::FitGeometry | Function::DetectFiducials);
    if !same && looks && lowest(&c, Numbers { rectify: 0, fit: 0 }) == 0 {
        seen = Numbers::of(&c.case);
    }
    (c, seen)
}

/// The smallest areas that do: what longer ones are compared with.
fn shorten(c: &mut Call) {
    let f = if frame_outside(c.case.frame) { Frame::BENCH } else { c.case.frame };
    let s = if side(c.case.w) && side(c.case.h) { sizes(c.case.w, c.case.h, f) } else { sizes(1, 1, f) };
    let m = &mut c.memory;
    m.luma.truncate(s.pixels);
    m.integral.truncate(s.integral);
    m.mask.truncate(s.pixels);
    m.seen.truncate(s.pixels);
    m.waiting.truncate(s.pixels);
    m.patches.truncate(ffi::PATCH_LEN * s.patches);
    m.candidates.truncate(4 * s.candidates);
    m.blob_index.truncate(s.candidates);
    m.means.truncate(s.means);
    if c.function == Function::CandidatePage {
        c.given.truncate(4 * c.count);
        c.page.truncate(37 * c.count);
    }
    c.windows.shorten();
    c.book.shorten();
    c.merge.shorten();
}

fn garbage(c: &mut Call, r: &mut Random) {
    let m = &mut c.memory;
    m.luma.iter_mut().for_each(|v| *v = f32::from_bits(r.bits() as u32));
    m.integral.iter_mut().for_each(|v| *v = f64::from_bits(r.bits()));
    m.seen.iter_mut().for_each(|v| *v = r.bits() as u8);
    m.waiting.iter_mut().for_each(|v| *v = r.bits() as u32);
    m.patches.iter_mut().for_each(|v| *v = r.bits());
    m.candidates.iter_mut().for_each(|v| *v = f64::from_bits(r.bits()));
    m.blob_index.iter_mut().for_each(|v| *v = r.bits() as u32);
    m.means.iter_mut().for_each(|v| *v = f64::from_bits(r.bits()));
    m.canonical.iter_mut().for_each(|v| *v = r.bits() as u8);
    c.counts.iter_mut().for_each(|v| *v = r.bits());
    c.numbers.iter_mut().for_each(|v| *v = f64::from_bits(r.bits()));
    c.colour.iter_mut().for_each(|v| *v = r.bits() as u8);
    c.page.iter_mut().for_each(|v| *v = r.bits() as u8);
    c.windows.garbage(r);
    c.book.garbage(r);
    c.merge.garbage(r);
    if c.function != Function::LabelBlobs {
        c.memory.mask.iter_mut().for_each(|v| *v = r.bits() as u8);
    }
}

/// What a function may write: each area's written entries, from 0. All else stays.
fn written(c: &Call, number: u32) -> (Written, [usize; 3], usize) {
    let nothing = Written { luma: 0, integral: 0, mask: 0, marks: 0, patches: 0, candidates: 0, means: 0, page: 0 };
    if matches!(number, 1..=6 | 12..=15 | 17 | 18) {
        return (nothing, [0; 3], 0);
    }
    // A function that is not handed the frame, or the sides, can accept where they are outside their limits.
    let f = if frame_outside(c.case.frame) { Frame::BENCH } else { c.case.frame };
    let s = if side(c.case.w) && side(c.case.h) { sizes(c.case.w, c.case.h, f) } else { sizes(1, 1, f) };
    let listed = |i: usize| c.counts[i] as usize;
    let look = |means| Written {
        luma: s.pixels,
        integral: s.integral,
        mask: s.pixels,
        marks: s.pixels,
        patches: ffi::PATCH_LEN * listed(ffi::PATCHES),
        candidates: listed(ffi::CANDIDATES),
        means,
        page: 0,
    };
    let accepted = |n: usize| if number == 0 { n } else { 0 };
    match c.function {
        Function::Rectify => (look(s.means), [12, accepted(14), 0], accepted(s.canonical)),
        Function::FitGeometry => (look(s.means), [11, accepted(14), 0], 0),
        Function::DetectFiducials => (look(0), [7, accepted(8), 0], 0),
        Function::FiducialCandidates => (look(0), [3, 0, 0], 0),
        Function::LabelBlobs => (Written { marks: s.pixels, patches: ffi::PATCH_LEN * listed(0), ..nothing }, [2, 0, 0], 0),
        Function::Checkerboard => (Written { mask: s.pixels, ..nothing }, [0; 3], 0),
        Function::GridScore => (Written { means: s.means, ..nothing }, [2, 1, 0], 0),
        Function::WarpWith | Function::WarpRecord => (nothing, [accepted(1), 0, 0], accepted(s.canonical)),
        Function::MarkerCenters => (nothing, [0, accepted(8), 0], 0),
        Function::FitFor => (nothing, [0, accepted(13), 0], 0),
        Function::Lengths => (nothing, [11, 0, 0], 0),
        Function::Bilinear => (nothing, [0, 0, 4], 0),
        Function::StampFiducials => (nothing, [0; 3], 0),
        Function::CandidatePage => (Written { page: 37 * c.count, ..nothing }, [0; 3], 0),
        // Answers for rectangles, a book and its numbers, and a joined book are compared whole, with what they must be.
        Function::PatchWindows | Function::ReadBook | Function::WriteBook | Function::MergeBooks => (nothing, [0; 3], 0),
    }
}

fn kept<T: Copy, B: PartialEq>(what: &str, before: &[T], after: &[T], from: usize, bits: impl Fn(T) -> B) -> Result<(), String> {
    match (from..before.len()).find(|&i| bits(before[i]) != bits(after[i])) {
        None => Ok(()),
        Some(i) => Err(format!("{what}: entry {i} of {} was touched (only those before {from} may be)", before.len())),
    }
}

fn untouched(before: &Call, after: &Call, number: u32) -> Result<(), String> {
    let (w, [counts, numbers, colour], canonical) = written(after, number);
    let (a, b) = (&before.memory, &after.memory);
    kept("luma", &a.luma, &b.luma, w.luma, f32::to_bits)?;
    kept("integral", &a.integral, &b.integral, w.integral, f64::to_bits)?;
    kept("mask", &a.mask, &b.mask, w.mask, |v| v)?;
    kept("marks", &a.seen, &b.seen, w.marks, |v| v)?;
    kept("waiting list", &a.waiting, &b.waiting, w.marks, |v| v)?;
    kept("patches", &a.patches, &b.patches, w.patches, |v| v)?;
    kept("candidates", &a.candidates, &b.candidates, 4 * w.candidates, f64::to_bits)?;
    kept("places", &a.blob_index, &b.blob_index, w.candidates, |v| v)?;
    kept("means", &a.means, &b.means, w.means, f64::to_bits)?;
    kept("canonical image", &a.canonical, &b.canonical, canonical, |v| v)?;
    kept("counts", &before.counts, &after.counts, counts, |v| v)?;
    kept("numbers", &before.numbers, &after.numbers, numbers, f64::to_bits)?;
    kept("colour", &before.colour, &after.colour, colour, |v| v)?;
    kept("page", &before.page, &after.page, w.page, |v| v)?;
    after.windows.same(&before.windows.expected().1)?;
    after.book.same(&before.book.expected().1)?;
    after.merge.same(&before.merge.expected().1)?;
    let stamped = before.function == Function::StampFiducials && number == 0;
    kept("capture", &before.case.data, &after.case.data, if stamped { before.case.data.len() } else { 0 }, |v| v)
}

fn agreed<T: Copy, B: PartialEq>(what: &str, a: &[T], b: &[T], to: usize, bits: impl Fn(T) -> B) -> Result<(), String> {
    match (0..to).find(|&i| bits(a[i]) != bits(b[i])) {
        None => Ok(()),
        Some(i) => Err(format!("{what}: entry {i} depends on what the areas held before")),
    }
}

/// Two runs on other garbage: all but the waiting list and the means, which are free, is the same.
fn agree(x: &Call, y: &Call, number: u32) -> Result<(), String> {
    let (w, [counts, numbers, colour], canonical) = written(x, number);
    agreed("counts", &x.counts, &y.counts, counts, |v| v)?;
    let (a, b) = (&x.memory, &y.memory);
    agreed("luma", &a.luma, &b.luma, w.luma, f32::to_bits)?;
    agreed("integral", &a.integral, &b.integral, w.integral, f64::to_bits)?;
    agreed("mask", &a.mask, &b.mask, w.mask, |v| v)?;
    agreed("marks", &a.seen, &b.seen, w.marks, |v| v)?;
    agreed("patches", &a.patches, &b.patches, w.patches, |v| v)?;
    agreed("candidates", &a.candidates, &b.candidates, 4 * w.candidates, f64::to_bits)?;
    agreed("places", &a.blob_index, &b.blob_index, w.candidates, |v| v)?;
    agreed("canonical image", &a.canonical, &b.canonical, canonical, |v| v)?;
    agreed("numbers", &x.numbers, &y.numbers, numbers, f64::to_bits)?;
    agreed("colour", &x.colour, &y.colour, colour, |v| v)?;
    agreed("page", &x.page, &y.page, w.page, |v| v)?;
    agreed("capture", &x.case.data, &y.case.data, x.case.data.len(), |v| v)
}

/// The number of pixels beyond the edge that a call told, under the fit that it found or was given.
fn counted(c: &Call, told: u64, fit: &[f64]) -> Result<(), String> {
    match original::beyond(&original::fit(fit), c.case.frame, c.case.w, c.case.h) {
        n if n as u64 == told => Ok(()),
        n => Err(format!("{told} pixels are told to be beyond the edge, there are {n}")),
    }
}

/// The records of LabelBlobs and the number of pixels that waited.
fn labelled(c: &Call) -> Result<(), String> {
    let (mask, w, h) = (&c.memory.mask, c.case.w, c.case.h);
    let records = original::records(mask, w, h);
    let ours: Vec<&[u64]> = c.memory.patches.chunks_exact(ffi::PATCH_LEN).take(c.counts[0] as usize).collect();
    if ours.len() != records.len() {
        return Err(format!("{} patches, they are {}", ours.len(), records.len()));
    }
    if let Some(j) = (0..ours.len()).find(|&j| ours[j] != records[j]) {
        return Err(format!("patch {j}: {:?}, it is {:?}", ours[j], records[j]));
    }
    match original::waited(mask, w, h) {
        n if n as u64 == c.counts[1] => Ok(()),
        n => Err(format!("{} pixels are told to have waited, they are {n}", c.counts[1])),
    }
}

/// What an accepted call wrote: of Rectify and the warps the pixels beyond the edge, of Bilinear whether its place is inside, of
/// LabelBlobs the records and how many waited, of Checkerboard, Lengths and CandidatePage all.
fn answered(c: &Call) -> Result<(), String> {
    match c.function {
        Function::Rectify => counted(c, c.counts[ffi::BEYOND], &c.numbers)?,
        Function::WarpWith | Function::WarpRecord => counted(c, c.counts[0], &c.given)?,
        Function::Bilinear => {
            let inside = original::inside(PLACE, c.case.w, c.case.h);
            if c.colour[3] != u8::from(inside) {
                return Err(format!("inside is {}, it is {inside}", c.colour[3]));
            }
        }
        Function::LabelBlobs => labelled(c)?,
        Function::Checkerboard => {
            let (w, mask) = (c.case.w, &c.memory.mask);
            if let Some(i) = (0..w * c.case.h).find(|&i| mask[i] != boards::square(w, i)) {
                return Err(format!("byte {i} of the mask: {}, it is {}", mask[i], boards::square(w, i)));
            }
        }
        Function::Lengths => {
            let s = sizes(c.case.w, c.case.h, c.case.frame);
            let n = s.pixels;
            let all = [3 * n, n, s.integral, n, n, n, ffi::PATCH_LEN * s.patches, 4 * s.candidates, s.candidates, s.means, s.canonical];
            if c.counts[..11] != all.map(|v| v as u64) {
                return Err(format!("lengths {:?}, they are {all:?}", &c.counts[..11]));
            }
        }
        Function::CandidatePage => {
            let text = pages::text(&c.given, c.count, c.page.len()).unwrap_or_default();
            pages::same(&c.page, text.as_bytes())?
        }
        _ => {}
    }
    Ok(())
}

/// One call, by its seed: the function and the number that came, or what is wrong.
pub fn check(pool: &Pool, seed: u64) -> (Function, Result<u32, String>) {
    let mut r = Random::new(seed);
    let (mut first, seen) = call(&mut r, pool);
    if first.function == Function::LabelBlobs {
        let density = r.within(0.0, 1.0);
        first.memory.mask.iter_mut().for_each(|v| *v = if r.chance(density) { r.bits() as u8 } else { 0 });
    }
    let wanted = lowest(&first, seen);
    let mut second = first.clone();
    if !(1..=6).contains(&wanted) {
        shorten(&mut second);
    }
    garbage(&mut first, &mut r);
    garbage(&mut second, &mut r);
    let result = (|| {
        let mut numbers = [0; 2];
        for (number, c) in numbers.iter_mut().zip([&mut first, &mut second]) {
            let before = c.clone();
            *number = run(c);
            if *number != wanted {
                return Err(format!("refusal {number}, it should be {wanted}"));
            }
            untouched(&before, c, *number)?;
            if c.function == Function::MergeBooks {
                before.merge.exchanged(*number, &c.merge)?;
            }
        }
        agree(&first, &second, wanted)?;
        if wanted == 0 {
            answered(&first)?;
        }
        Ok(wanted)
    })();
    (first.function, result)
}
