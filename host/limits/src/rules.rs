//! Rules that flag an accepted card, by its score and phase or by its rings.

use crate::measure::Laid;

pub struct Rule {
    pub name: &'static str,
    pub flags: fn(&Laid) -> bool,
}

/// The first three stand in each condition's table; the third is the one that `flatten` has.
pub const RULES: [Rule; 9] = [
    Rule { name: "score below 40", flags: |c| c.score < 40.0 },
    Rule { name: "phase above 0.25", flags: |c| c.phase > 0.25 },
    Rule { name: "score below 60 and phase above 0.25 (doubtful)", flags: Laid::doubtful },
    Rule { name: "score below 40 and phase above 0.25", flags: |c| c.score < 40.0 && c.phase > 0.25 },
    Rule { name: "score below 100 and phase above 0.25", flags: |c| c.score < 100.0 && c.phase > 0.25 },
    Rule { name: "score below 60 and phase above 0.15", flags: |c| c.score < 60.0 && c.phase > 0.15 },
    Rule { name: "score below 20, or below 60 and phase above 0.25", flags: |c| c.score < 20.0 || c.doubtful() },
    Rule { name: "ring pattern at the four places, correlation below 0.76", flags: |c| c.ring_pattern < 0.76 },
    Rule { name: "a ring's size more than 5 % off the fit's", flags: |c| c.ring_size > 0.05 },
];
