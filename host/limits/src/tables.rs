//! The tables, in Markdown.

use crate::conditions::{Condition, Row};
use crate::measure::{Laid, Outcome};
use crate::rules::{Rule, RULES};
use std::collections::BTreeMap;

/// What came of a row's photographs.
pub struct Tally {
    pub label: String,
    pub ordinary: bool,
    pub outcomes: Vec<Outcome>,
}

impl Tally {
    pub fn new(row: &Row) -> Tally {
        Tally { label: row.label.clone(), ordinary: row.ordinary, outcomes: Vec::new() }
    }

    pub fn laid(&self) -> impl Iterator<Item = &Laid> {
        self.outcomes.iter().filter_map(|o| match o {
            Outcome::Accepted(laid) => Some(laid),
            Outcome::Refused(_) => None,
        })
    }

    pub fn those(&self, right: bool) -> Vec<&Laid> {
        self.laid().filter(|c| c.right() == right).collect()
    }

    /// Accepted, laid right and read right, every one.
    fn all_read(&self) -> bool {
        self.laid().filter(|c| c.right() && c.cells_read == c.cells).count() == self.outcomes.len()
    }

    /// Accepted and laid right, every one.
    fn all_right(&self) -> bool {
        self.laid().filter(|c| c.right()).count() == self.outcomes.len()
    }

    /// "7 (3), 9" for three refused by 7 and one by 9.
    fn refusals(&self) -> String {
        let mut counts = BTreeMap::new();
        for o in &self.outcomes {
            if let Outcome::Refused(number) = o {
                *counts.entry(number).or_insert(0) += 1;
            }
        }
        let one = |(number, &count): (&&u32, &usize)| if count == 1 { format!("{number}") } else { format!("{number} ({count})") };
        counts.iter().map(one).collect::<Vec<_>>().join(", ")
    }
}

/// A condition's title and its rows.
pub struct Measured {
    pub title: &'static str,
    pub column: &'static str,
    pub drawn: &'static str,
    pub ordered: bool,
    pub rows: Vec<Tally>,
}

impl Measured {
    pub fn new(c: &Condition) -> Measured {
        let rows = c.rows.iter().map(Tally::new).collect();
        Measured { title: c.title, column: c.column, drawn: c.drawn, ordered: c.ordered, rows }
    }

    pub fn print(&self) {
        println!("\n## {}\n\n{}\n", self.title, self.drawn);
        println!(
            "|{}|ordinary|accepted|by|read|right|error|score|phase|flagged|wrong|error|score|phase|flagged|",
            self.column
        );
        println!("|---|---|---|---|---|---|---|---|---|---|---|---|---|---|---|");
        for t in &self.rows {
            let accepted = t.laid().count();
            println!(
                "|{}|{}|{accepted} of {}|{}|{}|{}|{}|",
                t.label,
                if t.ordinary { "yes" } else { "" },
                t.outcomes.len(),
                t.refusals(),
                share_read(t.laid()),
                block(&t.those(true)),
                block(&t.those(false)),
            );
        }
    }
}

fn range(values: impl Iterator<Item = f64> + Clone, show: impl Fn(f64) -> String) -> String {
    let (low, high) = (values.clone().fold(f64::INFINITY, f64::min), values.fold(f64::NEG_INFINITY, f64::max));
    let (low, high) = (show(low), show(high));
    if low == high {
        low
    } else {
        format!("{low}–{high}")
    }
}

pub fn score(v: f64) -> String {
    match v {
        v if v == f64::NEG_INFINITY => "none".into(),
        v if v < 99.95 => format!("{v:.1}"),
        v => format!("{v:.0}"),
    }
}

pub fn pixels(v: f64) -> String {
    match v {
        v if v > 9999.0 => "beyond".into(),
        v if v < 9.995 => format!("{v:.2}"),
        v => format!("{v:.0}"),
    }
}

/// Rounded down, so that 100 is said of all only.
pub fn percent(part: usize, whole: usize) -> String {
    match (part, whole) {
        (_, 0) => String::new(),
        (part, whole) if part == whole => "all".into(),
        (part, whole) => format!("{:.2} %", (part * 10000 / whole) as f64 / 100.0),
    }
}

fn share_read<'a>(laid: impl Iterator<Item = &'a Laid>) -> String {
    let (read, cells) = laid.fold((0, 0), |(r, n), c| (r + c.cells_read, n + c.cells));
    percent(read, cells)
}

/// How many, greatest error, scores, phases, and how many the first three rules flag.
fn block(cards: &[&Laid]) -> String {
    if cards.is_empty() {
        return "0||||".into();
    }
    let error = cards.iter().map(|c| c.error).fold(0.0, f64::max);
    let flagged = |rule: &Rule| cards.iter().filter(|c| (rule.flags)(c)).count().to_string();
    format!(
        "{}|{}|{}|{}|{}",
        cards.len(),
        pixels(error),
        range(cards.iter().map(|c| c.score), score),
        range(cards.iter().map(|c| c.phase), |v| format!("{v:.2}")),
        RULES[..3].iter().map(flagged).collect::<Vec<_>>().join(" "),
    )
}

fn counted<'a>(rows: impl Iterator<Item = &'a Tally>, right: bool) -> Vec<Laid> {
    rows.flat_map(|t| t.those(right)).copied().collect()
}

fn flagged_of(rule: &Rule, cards: &[Laid]) -> String {
    format!("{} of {}", cards.iter().filter(|c| (rule.flags)(c)).count(), cards.len())
}

/// How many each rule flags. `seen` are the conditions in which a wrong card differs from a right one.
pub fn print_rules(seen: &[Measured], unseen: &[Measured]) {
    let rows = || seen.iter().flat_map(|m| &m.rows);
    let wrong = counted(rows(), false);
    let right = counted(rows(), true);
    let ordinary = counted(rows().filter(|t| t.ordinary), true);
    let even = counted(unseen.iter().flat_map(|m| &m.rows), false);
    println!("\n## The rules\n");
    println!("| rule | flags of the wrong | of the right | of the right in ordinary rows | of the wrong, inside divided evenly |");
    println!("|---|---|---|---|---|");
    for rule in &RULES {
        let of = |cards: &[Laid]| flagged_of(rule, cards);
        println!("| {} | {} | {} | {} | {} |", rule.name, of(&wrong), of(&right), of(&ordinary), of(&even));
    }
    println!("\n| cards | number | score | phase | error | with a cell misread |");
    println!("|---|---|---|---|---|---|");
    let line = |name: &str, cards: &[Laid]| {
        let misread = cards.iter().filter(|c| c.cells_read < c.cells).count();
        let scores = range(cards.iter().map(|c| c.score), score);
        let phases = range(cards.iter().map(|c| c.phase), |v| format!("{v:.2}"));
        let errors = range(cards.iter().map(|c| c.error), pixels);
        println!("| {name} | {} | {scores} | {phases} | {errors} | {misread} |", cards.len());
    };
    line("right, ordinary rows", &ordinary);
    line("right, all rows", &right);
    line("right and not doubtful, all rows", &right.iter().filter(|c| !c.doubtful()).copied().collect::<Vec<_>>());
    line("wrong", &wrong);
    line("wrong, inside divided evenly", &even);
    print_missed(seen);
}

/// The wrong cards that are not doubtful, and the right ones of ordinary rows that are.
fn print_missed(seen: &[Measured]) {
    println!("\n## Missed, and false alarms in ordinary rows\n");
    println!("| condition | row | card | error | score | phase | cells read right |");
    println!("|---|---|---|---|---|---|---|");
    for m in seen {
        for t in &m.rows {
            for c in t.laid().filter(|c| c.right() == c.doubtful() && (!c.right() || t.ordinary)) {
                let card = if c.right() { "right, doubtful" } else { "wrong, not doubtful" };
                let (error, score, read) = (pixels(c.error), score(c.score), percent(c.cells_read, c.cells));
                println!("| {} | {} | {card} | {error} | {score} | {:.2} | {read} |", m.title, t.label, c.phase);
            }
        }
    }
}

/// The rows, from the ordinary ones outward on both sides (from the first where none is), in which all photographs pass a test.
struct Reach<'a> {
    rows: &'a [Tally],
    low: Option<usize>,
    high: Option<usize>,
}

impl Reach<'_> {
    fn new(rows: &[Tally], passes: impl Fn(&Tally) -> bool) -> Reach<'_> {
        let first = rows.iter().position(|t| t.ordinary).unwrap_or(0);
        let last = rows.iter().rposition(|t| t.ordinary).unwrap_or(0);
        let low = (0..=last).rev().take_while(|&i| passes(&rows[i])).last();
        let high = (first..rows.len()).take_while(|&i| passes(&rows[i])).last();
        Reach { rows, low, high }
    }

    /// Its ends; one where the ordinary rows begin or end the table.
    fn within(&self) -> String {
        let (Some(low), Some(high)) = (self.low, self.high) else { return "none".into() };
        let (low, high) = (&self.rows[low], &self.rows[high]);
        let ordinary = |t: Option<&Tally>| t.is_some_and(|t| t.ordinary);
        match (ordinary(self.rows.first()), ordinary(self.rows.last())) {
            (_, true) => low.label.clone(),
            (false, false) if self.rows.iter().any(|t| t.ordinary) => format!("{} to {}", low.label, high.label),
            _ => high.label.clone(),
        }
    }

    /// The first rows outside it.
    fn beyond(&self) -> String {
        let (Some(low), Some(high)) = (self.low, self.high) else { return self.rows[0].label.clone() };
        let outside = [low.checked_sub(1), Some(high + 1)].into_iter().flatten();
        outside.filter_map(|i| self.rows.get(i)).map(|t| t.label.clone()).collect::<Vec<_>>().join(" and ")
    }
}

/// How strong each may be.
pub fn print_summary(measured: &[Measured]) {
    println!("\n## In short\n");
    println!("| condition | all cells right up to | refused or wrong from |");
    println!("|---|---|---|");
    for m in measured.iter().filter(|m| m.ordered) {
        let read = Reach::new(&m.rows, Tally::all_read).within();
        let wrong = Reach::new(&m.rows, Tally::all_right).beyond();
        println!("| {} ({}) | {read} | {wrong} |", m.title.to_lowercase(), m.column);
    }
}

#[cfg(test)]
mod tests {
    use super::*;

    /// Rows named 0, 1, ..: `o` and `.` pass, `x` and `X` do not; `o` and `X` are ordinary.
    fn rows(letters: &str) -> Vec<Tally> {
        let laid =
            Laid { score: 99.0, phase: 0.0, ring_pattern: 1.0, ring_size: 0.0, error: 0.0, half_cell: 5.0, cells: 4, cells_read: 4 };
        let row = |(i, c): (usize, char)| Tally {
            label: i.to_string(),
            ordinary: matches!(c, 'o' | 'X'),
            outcomes: vec![if matches!(c, 'o' | '.') { Outcome::Accepted(laid) } else { Outcome::Refused(7) }],
        };
        letters.chars().enumerate().map(row).collect()
    }

    #[test]
    fn reach() {
        for (letters, within, beyond) in [
            ("oo..x.", "3", "4"),
            ("x.oo..x.", "1 to 5", "0 and 6"),
            ("..oo..", "0 to 5", ""),
            (".xooxx", "2 to 3", "1 and 4"),
            ("..x", "1", "2"),
            ("x..oo", "1", "0"),
            ("X..", "none", "0"),
            ("ooo", "0", ""),
        ] {
            let rows = rows(letters);
            let reach = Reach::new(&rows, Tally::all_read);
            assert_eq!((reach.within().as_str(), reach.beyond().as_str()), (within, beyond), "{letters}");
        }
    }

    #[test]
    fn numbers() {
        assert_eq!((percent(9999, 10000), percent(4, 4), percent(0, 0)), ("99.99 %".into(), "all".into(), "".into()));
        assert_eq!(percent(99999, 100000), "99.99 %");
        assert_eq!((score(99.94), score(99.96), score(f64::NEG_INFINITY)), ("99.9".into(), "100".into(), "none".into()));
        assert_eq!((pixels(9.99), pixels(9.996), pixels(f64::INFINITY)), ("9.99".into(), "10".into(), "beyond".into()));
    }
}
