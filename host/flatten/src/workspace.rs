//! Work areas that are made once and lent to each call.

use crate::book::Record;
use crate::{ffi, phase, windows};
use crate::{Frame, Rectangle, Refusal, Window};

/// A canonical-to-image map: a homography, then a lens.
#[derive(Clone, Copy, Debug)]
pub struct Fit([f64; ffi::FIT_LEN]);

impl Fit {
    /// Of a matrix by rows and then k, cx, cy, norm: those of a fit that was kept from before.
    pub fn new(numbers: [f64; ffi::FIT_LEN]) -> Fit {
        Fit(numbers)
    }

    pub fn numbers(&self) -> &[f64] {
        &self.0
    }

    /// Nine entries by rows.
    pub fn matrix(&self) -> &[f64] {
        &self.0[..ffi::MATRIX_LEN]
    }

    pub fn k(&self) -> f64 {
        self.0[9]
    }

    pub fn cx(&self) -> f64 {
        self.0[10]
    }

    pub fn cy(&self) -> f64 {
        self.0[11]
    }

    pub fn norm(&self) -> f64 {
        self.0[12]
    }

    /// Where a canonical point lies in the capture.
    pub fn map(&self, x: f64, y: f64) -> [f64; 2] {
        let (mut ideal, mut observed) = ([0.0; 2], [0.0; 2]);
        ffi::apply(&self.0[..ffi::MATRIX_LEN], x, y, &mut ideal);
        ffi::distort(&self.0[ffi::MATRIX_LEN..], ideal[0], ideal[1], &mut observed);
        observed
    }
}

/// What the cells say of the kept fit.
#[derive(Clone, Copy, Debug, PartialEq)]
pub enum Grade {
    Score(f64),
    /// A sampled cell has a tap outside the picture, and the lens term no evidence: the first by row, then column, as
    /// row·cols + column over all cells.
    Outside(usize),
    /// Fewer than 16 cells are sampled: the lens term has no evidence.
    TooFew,
}

/// The fit of a capture; unscored ones too.
#[derive(Clone, Copy, Debug)]
pub struct Fitted {
    pub fit: Fit,
    pub grade: Grade,
    /// The corners' patches by their places in the patch list: TL, TR, BR, BL.
    pub corners: [usize; 4],
    /// Different lens terms that were tried, added over the three stages: 43 to 78.
    pub trials: usize,
    /// Of them, those with a homography.
    pub homographies: usize,
}

/// An accepted rectification, which always has a score; the card itself is `Workspace::canonical`.
#[derive(Clone, Copy, Debug)]
pub struct Rectified {
    pub fit: Fit,
    pub score: f64,
    /// How far the card's edges lie off its cell borders: `phase::phase`.
    pub phase: f64,
    /// The corners' patches by their places in the patch list: TL, TR, BR, BL.
    pub corners: [usize; 4],
    /// As in `Fitted`.
    pub trials: usize,
    pub homographies: usize,
    /// How many of the card's pixels lie beyond the picture's edge: they have the edge's colours, which look real. 0 where the whole
    /// card is in the picture.
    pub beyond: usize,
}

impl Rectified {
    /// Whether a person should look at the capture before the card is used: `phase::doubtful`.
    pub fn doubtful(&self) -> bool {
        phase::doubtful(self.score, self.phase)
    }

    /// What `fit_geometry` gives for the same capture.
    pub fn fitted(&self) -> Fitted {
        let Rectified { fit, score, corners, trials, homographies, .. } = *self;
        Fitted { fit, grade: Grade::Score(score), corners, trials, homographies }
    }
}

/// A patch that passed the ring rule.
#[derive(Clone, Copy, Debug)]
pub struct Candidate {
    pub x: f64,
    pub y: f64,
    pub score: f64,
    pub size: f64,
    /// Its place in the patch list.
    pub place: usize,
}

/// All dark pixels joined edge to edge.
#[derive(Clone, Copy, Debug, PartialEq, Eq)]
pub struct Patch {
    pub area: u64,
    pub sum_x: u64,
    pub sum_y: u64,
    pub x0: u64,
    pub y0: u64,
    pub x1: u64,
    pub y1: u64,
    /// How many sides of its pixels face a light pixel or the picture's border, those of a hole too.
    pub outline: u64,
}

/// Memory for captures of one size and one frame, about 51 bytes a pixel and the card.
pub struct Workspace {
    w: usize,
    h: usize,
    frame: Frame,
    luma: Vec<f32>,
    integral: Vec<f64>,
    mask: Vec<u8>,
    seen: Vec<u8>,
    waiting: Vec<u32>,
    patches: Vec<u64>,
    candidates: Vec<f64>,
    blob_index: Vec<u32>,
    means: Vec<f64>,
    canonical: Vec<u8>,
    counts: [u64; ffi::COUNTS_LEN],
    fit: [f64; ffi::SCORED_FIT_LEN],
    /// The number of the last call, or None before the first.
    last: Option<u32>,
}

impl Workspace {
    /// Refused by 1 or 2 where frame or sides are outside the limits.
    pub fn new(w: usize, h: usize, frame: Frame) -> Result<Workspace, Refusal> {
        let mut lengths = [0; ffi::LENGTHS_LEN];
        Refusal::check(ffi::lengths(w, h, frame, &mut lengths))?;
        let [_, luma, integral, mask, seen, waiting, patches, candidates, blob_index, means, canonical] = lengths.map(|n| n as usize);
        Ok(Workspace {
            w,
            h,
            frame,
            luma: vec![0.0; luma],
            integral: vec![0.0; integral],
            mask: vec![0; mask],
            seen: vec![0; seen],
            waiting: vec![0; waiting],
            patches: vec![0; patches],
            candidates: vec![0.0; candidates],
            blob_index: vec![0; blob_index],
            means: vec![0.0; means],
            canonical: vec![0; canonical],
            counts: [0; ffi::COUNTS_LEN],
            fit: [0.0; ffi::SCORED_FIT_LEN],
            last: None,
        })
    }

    pub fn width(&self) -> usize {
        self.w
    }

    pub fn height(&self) -> usize {
        self.h
    }

    pub fn frame(&self) -> Frame {
        self.frame
    }

    /// The areas of a look, and the cell means, the card, the counts and the fit, each lent.
    #[allow(clippy::type_complexity)]
    fn lend(&mut self) -> (ffi::Areas<'_>, &mut [f64], &mut [u8], &mut [u64], &mut [f64]) {
        let areas = ffi::Areas {
            luma: &mut self.luma,
            integral: &mut self.integral,
            mask: &mut self.mask,
            seen: &mut self.seen,
            waiting: &mut self.waiting,
            patches: &mut self.patches,
            candidates: &mut self.candidates,
            blob_index: &mut self.blob_index,
        };
        (areas, &mut self.means, &mut self.canonical, &mut self.counts, &mut self.fit)
    }

    /// What a call that fits has left in counts and fit, or its refusal.
    fn fitted(&mut self, number: u32) -> Result<Fitted, Refusal> {
        self.last = Some(number);
        Refusal::check(number)?;
        let count = |i: usize| self.counts[i] as usize;
        let mut fit = [0.0; ffi::FIT_LEN];
        fit.copy_from_slice(&self.fit[..ffi::FIT_LEN]);
        Ok(Fitted {
            fit: Fit(fit),
            grade: self.grade().expect("an accepted fit has a grade"),
            corners: [0, 1, 2, 3].map(|i| count(ffi::PLACES + i)),
            trials: count(ffi::TRIALS),
            homographies: count(ffi::HOMOGRAPHIES),
        })
    }

    /// Lays a capture flat. On acceptance the card is in `canonical`; on a refusal `canonical` is as it was. Refused by 16, `grade`
    /// tells why the kept fit has no score.
    pub fn rectify(&mut self, capture: &[u8]) -> Result<Rectified, Refusal> {
        let (w, h, frame) = (self.w, self.h, self.frame);
        let (mut areas, means, canonical, counts, fit) = self.lend();
        let number = ffi::rectify(capture, w, h, frame, &mut areas, means, canonical, counts, fit);
        let Fitted { fit, corners, trials, homographies, .. } = self.fitted(number)?;
        let (score, phase) = (self.fit[ffi::FIT_LEN], phase::phase(&self.canonical, frame));
        Ok(Rectified { fit, score, phase, corners, trials, homographies, beyond: self.count(ffi::BEYOND) })
    }

    /// The fit of a capture alone; `canonical` is as it was.
    pub fn fit_geometry(&mut self, capture: &[u8]) -> Result<Fitted, Refusal> {
        let (w, h, frame) = (self.w, self.h, self.frame);
        let (mut areas, means, _, counts, fit) = self.lend();
        let number = ffi::fit_geometry(capture, w, h, frame, &mut areas, means, &mut counts[..ffi::FITTED_LEN], fit);
        self.fitted(number)
    }

    /// Lays a capture flat under a known fit, as that of another capture by the same camera from the same place. On acceptance
    /// the card is in `canonical`, and the answer is how many of its pixels lie beyond the picture's edge, as `Rectified::beyond`.
    /// Nothing is looked for: what the last look found stays to be read.
    pub fn warp_with(&mut self, capture: &[u8], fit: &Fit) -> Result<usize, Refusal> {
        let (w, h, frame, mut beyond) = (self.w, self.h, self.frame, [0; ffi::WARPED_LEN]);
        Refusal::check(ffi::warp_with(capture, w, h, frame, fit.numbers(), &mut self.canonical, &mut beyond))?;
        Ok(beyond[0] as usize)
    }

    /// Lays a capture flat under the fit that a book's record keeps, as `warp_with`. Refused by 16 where that fit was not scored.
    pub fn warp_record(&mut self, capture: &[u8], record: &Record) -> Result<usize, Refusal> {
        let (w, h, frame, mut beyond) = (self.w, self.h, self.frame, [0; ffi::WARPED_LEN]);
        let (grade, numbers) = (record.grade, &record.numbers);
        Refusal::check(ffi::warp_record(capture, w, h, frame, grade, numbers, &mut self.canonical, &mut beyond))?;
        Ok(beyond[0] as usize)
    }

    /// The patches of a mask of the capture's sides, one byte a pixel, any nonzero one dark: in `patches`, and there are no
    /// candidates then.
    pub fn label_blobs(&mut self, mask: &[u8]) -> Result<(), Refusal> {
        let mut found = [0; ffi::LABELLED_LEN];
        let number = ffi::label_blobs(mask, self.w, self.h, &mut self.seen, &mut self.waiting, &mut self.patches, &mut found);
        self.last = Some(number);
        Refusal::check(number)?;
        self.counts = [0; ffi::COUNTS_LEN];
        self.counts[ffi::GRADE] = ffi::NO_GRADE;
        (self.counts[ffi::PATCHES], self.counts[ffi::WAITED]) = (found[0], found[1]);
        Ok(())
    }

    /// The mask of the capture's sides with most patches, 1 where column plus row is even, else 0: `label_blobs` of it fills all
    /// memory for patches.
    pub fn checkerboard(&self) -> Vec<u8> {
        let mut mask = vec![0; self.w * self.h];
        Refusal::check(ffi::checkerboard(self.w, self.h, &mut mask)).expect("a workspace has sides within the limits");
        mask
    }

    /// The card of the last accepted call, 3·width·height bytes by rows.
    pub fn canonical(&self) -> &[u8] {
        &self.canonical
    }

    /// The last call looked at its picture: it was accepted, or refused by 7 to 10 or 16.
    pub fn looked(&self) -> bool {
        self.last.is_some_and(|number| Refusal::check(number).err().is_none_or(Refusal::looked))
    }

    fn count(&self, i: usize) -> usize {
        if self.looked() {
            self.counts[i] as usize
        } else {
            0
        }
    }

    /// What the last call found; nothing where it did not look.
    pub fn patches(&self) -> impl ExactSizeIterator<Item = Patch> + '_ {
        self.patches.chunks_exact(ffi::PATCH_LEN).take(self.count(ffi::PATCHES)).map(|r| Patch {
            area: r[0],
            sum_x: r[1],
            sum_y: r[2],
            x0: r[3],
            y0: r[4],
            x1: r[5],
            y1: r[6],
            outline: r[7],
        })
    }

    pub fn candidates(&self) -> impl ExactSizeIterator<Item = Candidate> + '_ {
        self.candidates.chunks_exact(4).zip(&self.blob_index).take(self.count(ffi::CANDIDATES)).map(|(r, &place)| Candidate {
            x: r[0],
            y: r[1],
            score: r[2],
            size: r[3],
            place: place as usize,
        })
    }

    /// The last call's candidates as text for a printer, a line of 37 bytes each (tablet_candidate_page in host/include/tablet.h);
    /// nothing where it did not look. Refused by 13 where there are more than 9,999.
    pub fn page(&self) -> Result<Vec<u8>, Refusal> {
        let count = self.count(ffi::CANDIDATES);
        let mut page = vec![0; ffi::PAGE_LINE_LEN * count];
        Refusal::check(ffi::candidate_page(&self.candidates, count, &mut page))?;
        Ok(page)
    }

    /// Which of the last call's patches each rectangle touches, and which lies nearest, in the rectangles' order; the places are those
    /// in `patches`. No patch where it did not look. Refused by 17 where there are more than 64 rectangles, or one has an end before
    /// its start or above 4,095.
    pub fn windows(&self, rectangles: &[Rectangle]) -> Result<Vec<Window>, Refusal> {
        windows::over(&self.patches, self.count(ffi::PATCHES), rectangles)
    }

    /// The most pixels that the search's stack ever held, over all patches: exactly the original's. A patch's first pixel counts as
    /// one, the largest area is an upper limit, and without a patch it is 0.
    pub fn waited(&self) -> usize {
        self.count(ffi::WAITED)
    }

    /// The grade of the trial that the last call kept: where it was accepted, or refused by 16.
    pub fn grade(&self) -> Option<Grade> {
        match (self.looked(), self.counts[ffi::GRADE]) {
            (true, ffi::SCORED) => Some(Grade::Score(self.fit[ffi::FIT_LEN])),
            (true, ffi::OUTSIDE) => Some(Grade::Outside(self.count(ffi::OUTSIDE_CELL))),
            (true, ffi::TOO_FEW) => Some(Grade::TooFew),
            _ => None,
        }
    }

    /// Trials and homographies of the last call, as in `Fitted`, where it was accepted or refused by 10 or 16; else 0. After 10
    /// they are those of the stages that were tried.
    pub fn trials(&self) -> (usize, usize) {
        (self.count(ffi::TRIALS), self.count(ffi::HOMOGRAPHIES))
    }

    /// How many cells a grid score samples.
    pub fn sampled_cells(&self) -> usize {
        self.means.len()
    }
}
