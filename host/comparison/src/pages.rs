//! The candidate page, which the original does not have, against a definition of its own: all decimals of a number, rounded as a
//! string.

use crate::few;
use flatten::ffi;
use scene::Random;

/// The numbers of a line in their order: the place in the record, columns, decimals.
const FIELDS: [(usize, usize, usize); 4] = [(0, 8, 2), (1, 8, 2), (3, 7, 2), (2, 5, 3)];
const RECORD: usize = 4;
const LINE: usize = 37;
const RANKS: usize = 9999;

/// The exact amount with so many decimals, nearest, halves upward. A float has at most 1,074 decimals, so 1,100 are all.
fn rounded(x: f64, places: usize) -> String {
    // A zero in front for what is carried.
    let exact = format!("0{:.1100}", x.abs()).into_bytes();
    let end = exact.iter().position(|&c| c == b'.').expect("it has a point") + 1 + places;
    let mut digits = exact[..end].to_vec();
    if exact[end] >= b'5' {
        for digit in digits.iter_mut().rev().filter(|c| **c != b'.') {
            if *digit < b'9' {
                *digit += 1;
                break;
            }
            *digit = b'0';
        }
    }
    let text = String::from_utf8(digits).expect("digits and a point");
    text.strip_prefix('0').unwrap_or(&text).to_string()
}

/// A number to the right of its columns, where it is one for the page and has room there.
fn field(x: f64, width: usize, places: usize) -> Option<String> {
    if !x.is_finite() || x < 0.0 {
        return None;
    }
    let text = rounded(x, places);
    (text.len() <= width).then(|| format!("{text:>width$}"))
}

/// What a page of so many bytes gets, or the lowest refusal.
pub fn text(list: &[f64], count: usize, length: usize) -> Result<String, u32> {
    let shorter = |length: usize, each: usize| (length as u128) < each as u128 * count as u128;
    if shorter(list.len(), RECORD) {
        return Err(3);
    }
    if shorter(length, LINE) {
        return Err(12);
    }
    if count > RANKS {
        return Err(13);
    }
    let line = |(i, record): (usize, &[f64])| {
        let fields: Option<Vec<String>> = FIELDS.iter().map(|&(at, width, places)| field(record[at], width, places)).collect();
        Some(format!("{:>4} {}\n", i + 1, fields?.join(" ")))
    };
    list.chunks_exact(RECORD).take(count).enumerate().map(line).collect::<Option<String>>().ok_or(13)
}

/// One call: its number, and every byte of the page.
pub fn check(list: &[f64], count: usize, length: usize) -> Result<(), String> {
    let mut wanted: Vec<u8> = (0..length).map(|i| (i % 251) as u8).collect();
    let mut page = wanted.clone();
    let number = ffi::candidate_page(list, count, &mut page);
    let text = text(list, count, length);
    let lowest = *text.as_ref().err().unwrap_or(&0);
    if number != lowest {
        return Err(format!("refusal {number}, the lowest is {lowest}"));
    }
    let text = text.unwrap_or_default();
    wanted[..text.len()].copy_from_slice(text.as_bytes());
    same(&page, &wanted)
}

/// A page has the bytes that it should begin with.
pub fn same(page: &[u8], wanted: &[u8]) -> Result<(), String> {
    match (0..wanted.len()).find(|&i| page[i] != wanted[i]) {
        None => Ok(()),
        Some(i) => {
            let line = |page: &[u8]| page[i - i % LINE..].iter().take(LINE).map(|&b| b as char).collect::<String>();
            Err(format!("byte {i} of the page, in line {:?}: it is {:?}", line(page), line(wanted)))
        }
    }
}

/// A float beside another, or itself.
fn beside(r: &mut Random, x: f64) -> f64 {
    f64::from_bits(x.to_bits() + 1 - r.below(3) as u64)
}

/// Parts of 1, and the first whole number that is too wide, at a place of a record.
fn limits(at: usize) -> (usize, usize) {
    let (_, width, places) = FIELDS.into_iter().find(|f| f.0 == at).expect("a place of a record");
    (10usize.pow(places as u32), 10usize.pow((width - places - 1) as u32))
}

/// A number that a page has room for.
fn fitting(r: &mut Random, at: usize) -> f64 {
    let (parts, top) = limits(at);
    let below = 10usize.pow(r.below(top.ilog10() as usize + 1) as u32).min(top - 1);
    match r.below(8) {
        // A mean of pixels, a share of probes.
        0 => r.below(1 << 20) as f64 / r.between(32, 4000) as f64 % (top - 1) as f64,
        1 => r.within(0.0, below as f64),
        // Every exact half is a number of sixteenths.
        2 => r.below(16 * below) as f64 / 16.0,
        3 => {
            let x = r.between(1, 16 * below) as f64 / 16.0;
            beside(r, x)
        }
        // The floats nearest to a half and to a number of parts.
        4 => (2 * r.below(parts * below) + 1) as f64 / (2 * parts) as f64,
        5 => r.below(parts * below) as f64 / parts as f64,
        // Nothing or one part.
        6 => beside(r, 0.5 / parts as f64),
        _ => {
            let subnormal = f64::from_bits(r.bits() >> r.between(12, 63));
            r.one_of(&[0.0, -0.0, 5e-324, f64::MIN_POSITIVE, subnormal])
        }
    }
}

/// A number that is just too wide, or just not.
fn widest(r: &mut Random, at: usize) -> f64 {
    let (parts, top) = limits(at);
    let (top, half) = (top as f64, 0.5 / parts as f64);
    let x = r.one_of(&[top - 2.0 * half, top - half, top]);
    beside(r, x)
}

const ODD: &[f64] =
    &[-5e-324, -f64::MIN_POSITIVE, -0.001, -1.0, 1e6, 9007199254740992.0, f64::MAX, f64::MIN, f64::INFINITY, f64::NEG_INFINITY, f64::NAN];

/// A number that no page has room for, most often.
fn odd(r: &mut Random) -> f64 {
    match r.below(5) {
        0 => -r.within(0.0, 0.02),
        1 => f64::from_bits(r.bits() | f64::INFINITY.to_bits()),
        2 => f64::from_bits(r.bits()),
        _ => r.one_of(ODD),
    }
}

/// The records of so many candidates. The chances are those of a number to be about the widest, and to be odd.
pub fn list(r: &mut Random, count: usize, chances: [f64; 2]) -> Vec<f64> {
    let number = |i: usize| match i % RECORD {
        at if r.chance(chances[0]) => widest(r, at),
        _ if r.chance(chances[1]) => odd(r),
        at => fitting(r, at),
    };
    (0..RECORD * count).map(number).collect()
}

/// A number of any candidate, or of the last, becomes one about the widest, or odd.
pub fn spoil(r: &mut Random, list: &mut [f64]) {
    if list.is_empty() {
        return;
    }
    let at = if r.chance(0.5) { r.below(list.len()) } else { list.len() - 1 - r.below(RECORD) };
    list[at] = if r.chance(0.4) { widest(r, at % RECORD) } else { odd(r) };
}

/// A call as words: the count, the page's length, the list.
pub fn call(r: &mut Random) -> Vec<u64> {
    let count = few(r);
    let chances = r.one_of(&[[0.0, 0.0], [0.0, 0.0], [0.3, 0.0], [0.1, 0.2]]);
    let past = r.one_of(&[0, 0, 1]);
    let list = [list(r, count, chances), list(r, past, [0.0, 1.0])].concat();
    let length = LINE * count + r.one_of(&[0, 0, 1, 36, 37, 100]);
    let mut words = vec![count as u64, length as u64];
    words.extend(list.iter().map(|x| x.to_bits()));
    words
}

/// Makes a call of such words.
pub fn check_words(words: &[u64]) -> Result<(), String> {
    let [count, length, list @ ..] = words else { return Err("a page has a count, a length and a list".into()) };
    let list: Vec<f64> = list.iter().map(|&b| f64::from_bits(b)).collect();
    check(&list, *count as usize, *length as usize)
}
