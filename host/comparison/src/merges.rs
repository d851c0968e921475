//! Two books of fits joined, which the original does not do, against a definition of its own: the records are cut out of both, a map has
//! under each key the set of the different records that stand there, and nothing goes along the two books side by side.

use crate::books::{self, accepted, header, same, word, HEADER, RECORD};
use crate::{few, Defined};
use flatten::ffi;
use scene::Random;
use std::collections::{BTreeMap, BTreeSet};

/// Panel and camera.
type Key = (u32, u32);

fn key(record: &[u8]) -> Key {
    (word(record), word(&record[4..]))
}

/// A call, by what it is handed and what it leaves.
#[derive(Clone, Default)]
pub struct Call {
    pub first: Vec<u8>,
    pub second: Vec<u8>,
    pub target: Vec<u8>,
}

impl Call {
    /// The different records under each key of either book, or the number of the first book that is refused.
    fn joined(&self) -> Result<BTreeMap<Key, BTreeSet<&[u8]>>, u32> {
        let mut all: BTreeMap<Key, BTreeSet<&[u8]>> = BTreeMap::new();
        for book in [&self.first, &self.second] {
            accepted(book)?;
            book[HEADER..].chunks_exact(RECORD).for_each(|record| {
                all.entry(key(record)).or_default().insert(record);
            });
        }
        Ok(all)
    }

    /// What is stored, or the number of the refusal.
    fn stored(&self) -> Result<Vec<u8>, u32> {
        let all = self.joined()?;
        let length = HEADER + RECORD * all.len();
        if self.target.len() < length {
            return Err(3);
        }
        if length > u32::MAX as usize || all.values().any(|records| records.len() > 1) {
            return Err(18);
        }
        let records: Vec<&[u8]> = all.into_values().flatten().collect();
        Ok([header(records.len()), records.concat()].concat())
    }

    /// Of a key in both books the second's record becomes another: by its grade, a bit of its last byte or of any of its numbers, the
    /// sign of a zero, or the bits of a NaN.
    pub fn differ(&mut self, r: &mut Random) {
        let (first, second) = (places(&self.first), places(&self.second));
        let shared: Vec<[usize; 2]> = first.iter().filter_map(|(key, &at)| Some([at, *second.get(key)?])).collect();
        if shared.is_empty() {
            return;
        }
        let [one, other] = r.one_of(&shared);
        let (number, bit) = (16 + 8 * r.below(13), 1 << r.below(8));
        match r.below(6) {
            0 => self.second[other + 8] = self.second[other + 8].wrapping_add(1) % 3,
            1 => self.second[other + RECORD - 1] ^= bit,
            2 | 3 => self.second[other + number + r.below(8)] ^= bit,
            kind => {
                let nan = f64::NAN.to_bits();
                let bits = if kind == 4 { [0, 1 << 63] } else { [nan, nan ^ 1 << r.below(51)] };
                self.first[one + number..][..8].copy_from_slice(&bits[0].to_le_bytes());
                self.second[other + number..][..8].copy_from_slice(&bits[1].to_le_bytes());
            }
        }
    }

    /// The shortest target that does: none where a book is refused.
    pub fn shorten(&mut self) {
        let needed = self.joined().map_or(0, |all| HEADER + RECORD * all.len());
        self.target.truncate(needed);
    }

    /// Fills what is lent.
    pub fn garbage(&mut self, r: &mut Random) {
        self.target.iter_mut().for_each(|v| *v = r.bits() as u8);
    }

    /// The call with the two books exchanged. Where both are accepted it has to give the number and leave the target that this one did.
    pub fn exchanged(&self, number: u32, left: &Call) -> Result<(), String> {
        if matches!(number, 14 | 15) {
            return Ok(());
        }
        let mut other = Call { first: self.second.clone(), second: self.first.clone(), target: self.target.clone() };
        match other.run() {
            n if n == number => same("target with the books exchanged", &other.target, &left.target),
            n => Err(format!("refusal {n} with the books exchanged, it should be {number}")),
        }
    }
}

impl Defined for Call {
    fn expected(&self) -> (u32, Call) {
        let mut left = self.clone();
        let stored = self.stored().map(|book| left.target[..book.len()].copy_from_slice(&book));
        (stored.err().unwrap_or(0), left)
    }

    fn run(&mut self) -> u32 {
        ffi::merge_books(&self.first, &self.second, &mut self.target)
    }

    fn same(&self, wanted: &Call) -> Result<(), String> {
        same("first book", &self.first, &wanted.first)?;
        same("second book", &self.second, &wanted.second)?;
        same("target", &self.target, &wanted.target)
    }
}

/// Where the record of each key begins, in any bytes.
fn places(book: &[u8]) -> BTreeMap<Key, usize> {
    let records = book.get(HEADER..).unwrap_or_default().chunks_exact(RECORD);
    records.enumerate().map(|(i, record)| (key(record), HEADER + RECORD * i)).collect()
}

/// So many records in two books: the lower in one and the higher in the other, by turns, a run of them between the others, all in both,
/// some of one in the other too, or each in either or both.
pub fn drawn(r: &mut Random, count: usize) -> [books::Call; 2] {
    let all = books::drawn(r, count);
    let (kind, from) = (r.below(6), r.below(count + 1));
    let to = r.between(from, count);
    let one = |i: usize| match kind {
        0 => [i < from, i >= from],
        1 => [i.is_multiple_of(2), !i.is_multiple_of(2)],
        2 => [!(from..to).contains(&i), (from..to).contains(&i)],
        3 => [true, true],
        4 => [true, r.chance(0.5)],
        _ => r.one_of(&[[true, false], [false, true], [true, true]]),
    };
    let stands: Vec<[bool; 2]> = (0..count).map(one).collect();
    let mut pair = [0, 1].map(|book| all.part(|i| stands[i][book]));
    if r.chance(0.5) {
        pair.reverse();
    }
    pair
}

/// A call as words: the length of the target, the number of words of the first book, and both books, eight bytes a word.
pub fn call(r: &mut Random) -> Vec<u64> {
    let count = few(r) + few(r);
    let [first, second] = drawn(r, count).map(|c| c.book);
    let mut c = Call { first, second, target: vec![] };
    if r.chance(0.3) {
        c.differ(r);
    }
    let right = HEADER + RECORD * count;
    let length = r.one_of(&[right, right, right, right + 1, right + RECORD, right - 1, right.saturating_sub(RECORD)]);
    let mut words = vec![length as u64, c.first.len() as u64 / 8];
    // A book is a multiple of eight bytes.
    let books = c.first.chunks_exact(8).chain(c.second.chunks_exact(8));
    words.extend(books.map(|b| u64::from(word(b)) | u64::from(word(&b[4..])) << 32));
    words
}

/// Makes a call of such words, and again with the two books exchanged.
pub fn check_words(words: &[u64]) -> Result<(), String> {
    let [length, first, words @ ..] = words else { return Err("two books have two lengths and their words".into()) };
    let Some((first, second)) = words.split_at_checked(*first as usize) else { return Err("the first book is not there".into()) };
    let bytes = |words: &[u64]| words.iter().flat_map(|w| w.to_le_bytes()).collect();
    let before = Call { first: bytes(first), second: bytes(second), target: vec![0xa5; *length as usize] };
    let mut c = before.clone();
    let number = c.check()?;
    before.exchanged(number, &c)
}
