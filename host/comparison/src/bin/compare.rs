//! compare SEED COUNT [PART]: COUNT captures, 500·COUNT point sets and 50·COUNT damaged calls on the library and on the original;
//! or one PART of these: captures, points or damage. With the points come the checkerboards at the limits and the luma of every
//! three bytes.
//! compare replay FILE: once more what a file of an earlier difference holds.
//! Exit status 0 without a difference, 1 with one, 2 bad usage.

use comparison::{boards, captures, damage, direct, kinds, luma, Case};
use scene::Random;
use std::collections::BTreeMap;
use std::fmt::Display;
use std::fs;
use std::path::PathBuf;
use std::process::exit;

/// Where the first difference is kept, beside the executable.
fn kept(name: &str) -> PathBuf {
    let folder = std::env::current_exe().ok().and_then(|p| p.parent().map(PathBuf::from)).unwrap_or_default();
    folder.join(name)
}

fn differ(what: String, name: &str, content: &[u8]) -> ! {
    let path = kept(name);
    println!("difference: {what}");
    match fs::write(&path, content) {
        Ok(()) => println!("reproduced by: host/compare replay {}", path.display()),
        Err(e) => println!("it could not be kept: {}: {e}", path.display()),
    }
    exit(1)
}

/// P6 with the frame in a comment, so that `flatten --frame` takes the same file.
fn picture(c: &Case) -> Vec<u8> {
    let mut out = format!("P6\n# frame {}\n{} {}\n255\n", c.frame, c.w, c.h).into_bytes();
    out.extend(&c.data);
    out
}

/// `n: how often`, for each n.
fn listed<'a, N: Display + 'a>(numbers: impl Iterator<Item = (&'a N, &'a usize)>) -> String {
    numbers.map(|(n, count)| format!("{n}: {count}")).collect::<Vec<_>>().join(", ")
}

fn one_capture(seed: u64, kind: kinds::Kind) -> captures::Agreed {
    let c = kind.1(&mut Random::new(seed));
    let differs = |e| differ(format!("{} capture of seed {seed}: {e}", kind.0), "difference.ppm", &picture(&c));
    captures::check(&c).unwrap_or_else(differs)
}

fn run_captures(seed: u64, count: usize) {
    let mut table: BTreeMap<&str, BTreeMap<u32, usize>> = BTreeMap::new();
    let mut trials: BTreeMap<u64, usize> = BTreeMap::new();
    for i in 0..count {
        let kind = match i {
            i if i % 1000 == 999 => kinds::LARGEST,
            i if i % 50 == 49 => kinds::BENCH,
            _ => kinds::KINDS[i % kinds::KINDS.len()],
        };
        let agreed = one_capture(scene::mix(seed.wrapping_add(i as u64)), kind);
        *table.entry(kind.0).or_default().entry(agreed.number).or_default() += 1;
        if let Some(n) = agreed.trials {
            *trials.entry(n).or_default() += 1;
        }
        if i % 200 == 199 {
            eprintln!("compare: {} of {count} captures", i + 1);
        }
    }
    println!("| captures | compared | accepted | refused, by number |\n|---|---|---|---|");
    let mut sum = [0, 0];
    for (kind, numbers) in &table {
        let all: usize = numbers.values().sum();
        let accepted = numbers.get(&0).copied().unwrap_or(0);
        sum = [sum[0] + all, sum[1] + accepted];
        println!("| {kind} | {all} | {accepted} | {} |", listed(numbers.iter().filter(|(n, _)| **n != 0)));
    }
    println!("| all | {} | {} | |\n", sum[0], sum[1]);
    println!("Accepted captures by trials tried: {}\n", listed(trials.iter()));
}

fn call_text(name: &str, words: &[u64]) -> String {
    let words: Vec<String> = words.iter().map(|w| format!("{w:016x}")).collect();
    format!("{name} {}\n", words.join(" "))
}

fn one_call(name: &str, words: &[u64]) {
    if let Err(e) = direct::check(name, words) {
        differ(format!("{name}: {e}"), "difference.txt", call_text(name, words).as_bytes());
    }
}

fn run_direct(seed: u64, count: usize) {
    println!("| function | calls compared |\n|---|---|");
    for (name, share, make) in direct::FUNCTIONS {
        let mut r = Random::new(scene::mix(seed ^ name.bytes().fold(0, |s, b| s * 31 + b as u64)));
        let calls = (count * share / 1000).max(1);
        for _ in 0..calls {
            one_call(name, &make(&mut r));
        }
        println!("| {name} | {calls} |");
    }
    for words in boards::LIMITS {
        one_call("checkerboard", &words);
    }
    println!("| checkerboard, at the limits | {} |", boards::LIMITS.len());
    one_call("luma", &[]);
    println!("| luma | {} |\n", luma::TRIPLES);
}

fn run_damage(seed: u64, count: usize) {
    let pool = damage::Pool::new(seed);
    let mut table: BTreeMap<damage::Function, BTreeMap<u32, usize>> = BTreeMap::new();
    for i in 0..count {
        let s = scene::mix(seed.wrapping_add(i as u64));
        let (function, result) = damage::check(&pool, s);
        match result {
            Ok(number) => *table.entry(function).or_default().entry(number).or_default() += 1,
            Err(e) => differ(format!("damaged call of {function:?}: {e}"), "difference.txt", call_text("damage", &[seed, s]).as_bytes()),
        }
        if i % 10000 == 9999 {
            eprintln!("compare: {} of {count} damaged calls", i + 1);
        }
    }
    println!("| damaged calls of | calls | by number |\n|---|---|---|");
    let mut sum = 0;
    for (function, numbers) in &table {
        let all: usize = numbers.values().sum();
        sum += all;
        println!("| {function:?} | {all} | {} |", listed(numbers.iter()));
    }
    println!("| all | {sum} | |\n");
}

fn replay(path: &str) -> Result<(), String> {
    let content = fs::read(path).map_err(|e| format!("{path}: {e}"))?;
    if content.starts_with(b"P6") {
        let p = flatten::p6::read(&mut &content[..]).map_err(|e| format!("{path}: {e}"))?;
        let head = String::from_utf8_lossy(&content[..content.len().min(100)]).into_owned();
        let frame = head.lines().find_map(|l| l.strip_prefix("# frame ")).ok_or(format!("{path}: no comment `# frame W,H,CELL,MARGIN`"))?;
        let c = Case { w: p.w, h: p.h, frame: frame.parse()?, data: p.data };
        return captures::check(&c).map(|agreed| println!("no difference: {} on both sides", agreed.number));
    }
    let text = String::from_utf8(content).map_err(|_| format!("{path} is no file of a difference"))?;
    let mut parts = text.split_whitespace();
    let name = parts.next().ok_or(format!("{path} is empty"))?;
    let words: Vec<u64> = parts.map(|w| u64::from_str_radix(w, 16).map_err(|e| format!("{path}: {w}: {e}"))).collect::<Result<_, _>>()?;
    if name == "damage" && words.len() == 2 {
        let (function, result) = damage::check(&damage::Pool::new(words[0]), words[1]);
        return result.map(|number| println!("no difference: {function:?} gives {number}"));
    }
    direct::check(name, &words).map(|()| println!("no difference in {name}"))
}

/// Name, what runs it, and how many for each capture.
type Part = (&'static str, fn(u64, usize), usize);

fn main() {
    let args: Vec<String> = std::env::args().skip(1).collect();
    let args: Vec<&str> = args.iter().map(String::as_str).collect();
    match args[..] {
        ["replay", path] => {
            if let Err(e) = replay(path) {
                println!("difference: {e}");
                exit(1)
            }
        }
        [seed, count, ref part @ ..] if part.len() <= 1 => {
            let (Ok(seed), Ok(count)) = (seed.parse::<u64>(), count.parse::<usize>()) else { usage() };
            let parts: [Part; 3] = [("captures", run_captures, 1), ("points", run_direct, 500), ("damage", run_damage, 50)];
            if part.iter().any(|p| parts.iter().all(|(name, ..)| name != p)) {
                usage()
            }
            for (_, run, share) in parts.iter().filter(|(name, ..)| part.is_empty() || part[0] == *name) {
                run(seed, share * count);
            }
            println!("no difference");
        }
        _ => usage(),
    }
}

fn usage() -> ! {
    eprintln!("usage: compare SEED COUNT [captures|points|damage] | compare replay FILE");
    exit(2)
}
