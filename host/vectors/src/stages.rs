//! The lens search over four points that are handed in, by the original's own parts.

use lpcorepub::frame::FrameSpec;
use lpcorepub::geometry::{fit_for, grid_score, GeometryFit, K_MAX, K_STAGES};
use lpcorepub::image::RgbImage;
use std::collections::BTreeSet;
use std::sync::OnceLock;

pub type Points = [[f64; 2]; 4];

/// What a search kept, and what the stages that were begun tried. The clamp makes a stage try one term several times: in `tried`
/// and `homographies` it counts once a stage.
pub struct Searched {
    pub kept: Option<(f64, GeometryFit)>,
    pub tried: u64,
    pub homographies: u64,
    /// For each stage how many of its entries had a homography, repeated terms too.
    pub found: Vec<u64>,
}

/// The terms of a stage about a centre, in the order in which they are tried.
fn terms(centre: f64, (span, step): (f64, f64)) -> impl Iterator<Item = f64> {
    let n = (2.0 * span / step).round() as i64;
    (0..=n).map(move |i| (centre - span + step * i as f64).clamp(-K_MAX, K_MAX))
}

/// The stage loop of the original's fit_geometry, with counts.
pub fn searched(img: &RgbImage, spec: &FrameSpec, obs: &Points) -> Searched {
    let mut s = Searched { kept: None, tried: 0, homographies: 0, found: vec![] };
    let mut centre = 0.0f64;
    for span_and_step in K_STAGES {
        let mut stage: Option<(f64, f64, GeometryFit)> = None;
        let mut tried = BTreeSet::new();
        let mut found = 0;
        for k in terms(centre, span_and_step) {
            let first = u64::from(tried.insert(k.to_bits()));
            s.tried += first;
            let Some(fit) = fit_for(img, spec, obs, k) else {
                continue;
            };
            s.homographies += first;
            found += 1;
            let sc = grid_score(img, spec, &fit);
            if stage.as_ref().is_none_or(|(bs, ..)| sc > *bs) {
                stage = Some((sc, k, fit));
            }
        }
        s.found.push(found);
        s.kept = stage.map(|(sc, _, fit)| (sc, fit));
        let Some((_, k, _)) = stage else {
            return s;
        };
        centre = k;
    }
    s
}

/// Every `tried` of a search that keeps a term in each stage, whichever terms these are. 70, of one that keeps ±0.19 and then ±0.20,
/// is among them, and no scores give it: the second stage tries ±0.19 again.
pub fn possible_counts() -> &'static BTreeSet<u64> {
    static COUNTS: OnceLock<BTreeSet<u64>> = OnceLock::new();
    COUNTS.get_or_init(|| {
        let mut ways = vec![(0, 0.0)];
        for stage in K_STAGES {
            let after = |(tried, centre): (u64, f64)| {
                let different: BTreeSet<u64> = terms(centre, stage).map(f64::to_bits).collect();
                terms(centre, stage).map(move |k| (tried + different.len() as u64, k))
            };
            ways = ways.into_iter().flat_map(after).collect();
        }
        ways.into_iter().map(|(tried, _)| tried).collect()
    })
}
