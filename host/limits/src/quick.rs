//! The quick run: what must hold of a few photographs.

use crate::conditions::{bench_turned, ordinary, ring_missing};
use crate::measure::{measure, Laid, Outcome};
use crate::tables::{percent, pixels, score};
use flatten::phase::{PHASE_LIMIT, SCORE_LIMIT};
use scene::{mix, Random, Scene};

/// Prints what came of a photograph, and whether it is as it must be.
fn checked(what: &str, scene: &Scene, test: impl Fn(&Laid) -> bool, may_be_refused: bool) -> bool {
    let (good, outcome) = match measure(scene, &scene.take()) {
        Outcome::Refused(number) => (may_be_refused, format!("refused by {number}")),
        Outcome::Accepted(c) => {
            let (score, error, read) = (score(c.score), pixels(c.error), percent(c.cells_read, c.cells));
            let doubt = if c.doubtful() { "doubtful" } else { "not doubtful" };
            (test(&c), format!("score {score}, phase {:.2}, {doubt}, error {error}, cells read right {read}", c.phase))
        }
    };
    println!("{}: {what}: {outcome}", if good { "good" } else { "BAD" });
    good
}

/// Laid right to a quarter of a cell, every cell read right, and neither score, phase nor rings say otherwise.
fn sound(c: &Laid) -> bool {
    let placed = c.error < c.half_cell / 2.0 && c.cells_read == c.cells;
    placed && c.score >= SCORE_LIMIT && c.phase <= PHASE_LIMIT && c.ring_pattern > 0.76 && c.ring_size < 0.05
}

/// Wrong, and said to be doubtful.
fn caught(c: &Laid) -> bool {
    !c.right() && c.doubtful()
}

/// Whether all is as it must be.
pub fn run() -> bool {
    let mut good = true;
    for i in 0..4 {
        let scene = ordinary(i, &mut Random::new(mix(i as u64)));
        good &= checked(&format!("ordinary {i}"), &scene, sound, false);
    }
    good &= checked("bench picture, upright", &scene::bench(1), sound, false);
    for quarters in 1..4 {
        good &= checked(&format!("turned by {} degrees", 90 * quarters), &bench_turned(0, quarters, false), caught, false);
    }
    good &= checked("mirrored", &bench_turned(0, 0, true), caught, false);
    for i in 0..4 {
        let scene = ring_missing(i, &mut Random::new(mix(100 + i as u64)));
        good &= checked(&format!("ring {i} missing, a blob in the payload"), &scene, caught, true);
    }
    good
}

#[cfg(test)]
mod tests {
    #[test]
    fn quick() {
        assert!(super::run());
    }
}
