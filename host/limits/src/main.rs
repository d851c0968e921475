//! limits [COUNT]: the tables of docs/LIMITS.md on standard output, COUNT photographs a row (default 6).
//! limits quick: a few photographs in seconds; status 1 where ordinary ones are not laid right or turned ones not doubtful.

mod conditions;
mod measure;
mod quick;
mod rules;
mod tables;

use conditions::Condition;
use measure::{measure, Outcome};
use scene::{mix, Light, Random, Scene};
use tables::Measured;

fn photograph(scene: &Scene, light: Option<&Light>) -> Outcome {
    let bytes = match light {
        Some(light) => scene.developed(&light.clone().blurred(scene.blur).moved(scene.motion)),
        None => scene.take(),
    };
    measure(scene, &bytes)
}

/// Measures a condition; photograph i of each row has the same seed.
fn run(number: usize, c: &Condition, count: usize) -> Measured {
    let mut measured = Measured::new(c);
    for i in 0..count * c.times {
        let seed = mix((number as u64) << 32 | i as u64);
        let draw = |row: usize| (c.rows[row].draw)(i, &mut Random::new(seed));
        let light = c.same_light.then(|| draw(0).light());
        for (row, tally) in measured.rows.iter_mut().enumerate() {
            tally.outcomes.push(photograph(&draw(row), light.as_ref()));
        }
    }
    measured
}

fn full(count: usize) {
    let all = conditions::all();
    let mut measured = Vec::new();
    for (number, c) in all.iter().enumerate() {
        eprintln!("{} of {}: {}", number + 1, all.len(), c.title);
        let m = run(number, c, count);
        m.print();
        measured.push(m);
    }
    // The last condition is the one that nothing can see.
    let (unseen, seen) = measured.split_last().expect("there are conditions");
    tables::print_rules(seen, std::slice::from_ref(unseen));
    tables::print_summary(&measured);
}

fn main() {
    let args: Vec<String> = std::env::args().skip(1).collect();
    match args.iter().map(String::as_str).collect::<Vec<_>>()[..] {
        [] => full(6),
        ["quick"] => std::process::exit(if quick::run() { 0 } else { 1 }),
        [count] if count.parse().is_ok_and(|n: usize| n > 0) => full(count.parse().expect("a number")),
        _ => {
            eprintln!("usage: limits [COUNT] | limits quick");
            std::process::exit(2);
        }
    }
}
