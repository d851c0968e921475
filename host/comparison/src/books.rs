//! The book of fits, which the original does not have, against a definition of its own: records are laid out by `to_le_bytes`,
//! and bytes are a book where the records cut out of them are laid out as these very bytes.

use crate::{few, Defined};
use flatten::ffi;
use scene::Random;
use std::collections::BTreeSet;
use std::fmt::LowerHex;

/// Numbers of a record, bytes of the header and of a record.
const HEAD: usize = 3;
const FIT: usize = 13;
pub(crate) const HEADER: usize = 16;
pub(crate) const RECORD: usize = 120;

pub(crate) fn header(count: usize) -> Vec<u8> {
    [count, HEADER, RECORD, HEADER + RECORD * count].map(|n| (n as u32).to_le_bytes()).concat()
}

fn laid(heads: &[u32], numbers: &[u64]) -> Vec<u8> {
    let mut book = header(heads.len() / HEAD);
    for (head, fit) in heads.chunks_exact(HEAD).zip(numbers.chunks_exact(FIT)) {
        book.extend(head.iter().chain(&[0]).flat_map(|word| word.to_le_bytes()));
        book.extend(fit.iter().flat_map(|bits| bits.to_le_bytes()));
    }
    book
}

/// The first four bytes as a number.
pub(crate) fn word(b: &[u8]) -> u32 {
    u32::from_le_bytes([b[0], b[1], b[2], b[3]])
}

/// Heads and numbers by their places in a book of this length.
fn cut(book: &[u8]) -> (Vec<u32>, Vec<u64>) {
    let records = book.get(HEADER..).unwrap_or_default().chunks_exact(RECORD);
    let heads = records.clone().flat_map(|r| [0, 4, 8].map(|at| word(&r[at..])));
    let numbers = records.flat_map(|r| r[16..].chunks_exact(8).map(|b| u64::from(word(b)) | u64::from(word(&b[4..])) << 32));
    (heads.collect(), numbers.collect())
}

/// 14 for a grade, then 15 for keys: they rise where sorted, each once, they are the same.
fn tried(heads: &[u32]) -> Result<(), u32> {
    let records = heads.chunks_exact(HEAD);
    if records.clone().any(|head| head[2] > 2) {
        return Err(14);
    }
    let keys = || records.clone().map(|head| (head[0], head[1]));
    if keys().eq(keys().collect::<BTreeSet<_>>()) {
        Ok(())
    } else {
        Err(15)
    }
}

/// Heads and numbers of a book that is accepted, or its number: 14, then 15.
pub(crate) fn accepted(book: &[u8]) -> Result<(Vec<u32>, Vec<u64>), u32> {
    let (heads, numbers) = cut(book);
    if laid(&heads, &numbers) != book {
        return Err(14);
    }
    tried(&heads)?;
    Ok((heads, numbers))
}

/// A call of the reader or the writer, by what it is handed and what it leaves.
#[derive(Clone, Default)]
pub struct Call {
    /// How many records are written; None where the book is read.
    pub count: Option<usize>,
    pub heads: Vec<u32>,
    pub numbers: Vec<u64>,
    pub book: Vec<u8>,
}

impl Call {
    /// What the reader stores, or its number: 3 is the last that it tries.
    fn read(&self) -> Result<(Vec<u32>, Vec<u64>), u32> {
        let (heads, numbers) = accepted(&self.book)?;
        if self.heads.len() < heads.len() || self.numbers.len() < numbers.len() {
            return Err(3);
        }
        Ok((heads, numbers))
    }

    /// What the writer stores, or its number.
    fn written(&self, count: usize) -> Result<Vec<u8>, u32> {
        let needed = |each: usize| each as u128 * count as u128;
        let total = HEADER as u128 + needed(RECORD);
        let lent = [(self.heads.len(), needed(HEAD)), (self.numbers.len(), needed(FIT)), (self.book.len(), total)];
        if lent.iter().any(|&(length, needed)| (length as u128) < needed) {
            return Err(3);
        }
        if total > u32::MAX.into() {
            return Err(14);
        }
        let heads = &self.heads[..HEAD * count];
        tried(heads)?;
        Ok(laid(heads, &self.numbers[..FIT * count]))
    }

    /// The records of some places, and their book.
    pub(crate) fn part(&self, has: impl Fn(usize) -> bool) -> Call {
        let heads = self.heads.chunks_exact(HEAD).enumerate().filter(|(i, _)| has(*i));
        let numbers = self.numbers.chunks_exact(FIT).enumerate().filter(|(i, _)| has(*i));
        let heads: Vec<u32> = heads.flat_map(|(_, head)| head).copied().collect();
        let numbers: Vec<u64> = numbers.flat_map(|(_, fit)| fit).copied().collect();
        Call { count: None, book: laid(&heads, &numbers), heads, numbers }
    }

    /// Something of the records becomes wrong, or just not; where the book is read, something of it alone too.
    pub fn spoil(&mut self, r: &mut Random) {
        let spoiled = [(true, false), (true, false), (false, true), (true, true)];
        let (records, book) = if self.count.is_some() { (true, false) } else { r.one_of(&spoiled) };
        if records {
            (0..r.one_of(&[1, 1, 2])).for_each(|_| spoil_heads(r, &mut self.heads));
            self.book = laid(&self.heads, &self.numbers);
        }
        if book {
            spoil_book(r, &mut self.book);
        }
    }

    /// The smallest areas that do.
    pub fn shorten(&mut self) {
        let count = self.count.unwrap_or(self.book.len().saturating_sub(HEADER) / RECORD);
        self.heads.truncate(HEAD * count);
        self.numbers.truncate(FIT * count);
        if self.count.is_some() {
            self.book.truncate(HEADER + RECORD * count);
        }
    }

    /// Fills what is lent.
    pub fn garbage(&mut self, r: &mut Random) {
        if self.count.is_some() {
            self.book.iter_mut().for_each(|v| *v = r.bits() as u8);
        } else {
            self.heads.iter_mut().for_each(|v| *v = r.bits() as u32);
            self.numbers.iter_mut().for_each(|v| *v = r.bits());
        }
    }
}

impl Defined for Call {
    fn expected(&self) -> (u32, Call) {
        let mut left = self.clone();
        let stored = match self.count {
            Some(count) => self.written(count).map(|book| left.book[..book.len()].copy_from_slice(&book)),
            None => self.read().map(|(heads, numbers)| {
                left.heads[..heads.len()].copy_from_slice(&heads);
                left.numbers[..numbers.len()].copy_from_slice(&numbers);
            }),
        };
        (stored.err().unwrap_or(0), left)
    }

    fn run(&mut self) -> u32 {
        match self.count {
            Some(count) => ffi::write_book(&self.heads, &self.numbers, count, &mut self.book),
            None => ffi::read_book(&self.book, &mut self.heads, &mut self.numbers),
        }
    }

    fn same(&self, wanted: &Call) -> Result<(), String> {
        same("heads", &self.heads, &wanted.heads)?;
        same("numbers", &self.numbers, &wanted.numbers)?;
        same("book", &self.book, &wanted.book)
    }
}

pub(crate) fn same<T: LowerHex + PartialEq>(what: &str, ours: &[T], wanted: &[T]) -> Result<(), String> {
    match ours.iter().zip(wanted).position(|(a, b)| a != b) {
        None => Ok(()),
        Some(i) => Err(format!("{what}, entry {i} of {}: {:x}, it should be {:x}", wanted.len(), ours[i], wanted[i])),
    }
}

/// A half of a key: few, so that panels are shared; about a byte's limit; about the greatest; any.
fn half(r: &mut Random) -> u32 {
    match r.below(6) {
        0 => 255 + r.below(3) as u32,
        1 => u32::MAX - r.below(3) as u32,
        2 => r.bits() as u32,
        _ => r.below(4) as u32,
    }
}

/// The bits of a number: a usual one, a special one, any NaN, a signalling one, any.
fn pattern(r: &mut Random) -> u64 {
    let infinity = f64::INFINITY.to_bits();
    match r.below(5) {
        0 => r.within(-1000.0, 1000.0).to_bits(),
        1 => r.one_of(&[0, 1, 1 << 63, infinity, infinity | 1 << 63, infinity | 1, f64::NAN.to_bits(), u64::MAX]),
        2 => r.bits() | infinity,
        3 => (r.bits() | infinity | 1) & !(1 << 51),
        _ => r.bits(),
    }
}

/// So many records, keys rising, and their book.
pub fn drawn(r: &mut Random, count: usize) -> Call {
    let mut keys = BTreeSet::new();
    while keys.len() < count {
        keys.insert((half(r), half(r)));
    }
    let heads: Vec<u32> = keys.into_iter().flat_map(|(panel, camera)| [panel, camera, r.below(3) as u32]).collect();
    let numbers: Vec<u64> = (0..FIT * count).map(|_| pattern(r)).collect();
    Call { count: None, book: laid(&heads, &numbers), heads, numbers }
}

/// A bit of a grade or of a key changes, a grade is just too high, a key is the next record's, two records change places.
fn spoil_heads(r: &mut Random, heads: &mut [u32]) {
    let count = heads.len() / HEAD;
    if count == 0 {
        return;
    }
    let (one, bit) = (r.below(count), 1 << r.below(32));
    let next = HEAD * ((one + 1) % count);
    let one = HEAD * one;
    match r.below(6) {
        0 => heads[one + 2] ^= bit,
        1 => heads[one + r.below(2)] ^= bit,
        2 => heads[one + 2] = r.one_of(&[3, u32::MAX]),
        3 | 4 => heads.copy_within(next..next + 2, one),
        _ => (0..HEAD).for_each(|i| heads.swap(one + i, next + i)),
    }
}

/// A word of the header.
fn put(book: &mut [u8], word: usize, n: usize) {
    book[4 * word..][..4].copy_from_slice(&(n as u32).to_le_bytes());
}

/// A bit of the header or of a zero field changes, or the length, the total or the count, the others with it or not.
fn spoil_book(r: &mut Random, book: &mut Vec<u8>) {
    let count = book.len() / RECORD;
    let bit = 1 << r.below(8);
    match r.below(7) {
        0 => book[r.below(HEADER)] ^= bit,
        1 if count > 0 => book[HEADER + RECORD * r.below(count) + 12 + r.below(4)] ^= bit,
        2 => book.truncate(r.below(HEADER)),
        3 => {
            let length = r.one_of(&[book.len() - 1, book.len() + 1, book.len() + RECORD, book.len().max(HEADER + RECORD) - RECORD]);
            book.resize(length, 0);
            if length >= HEADER && r.chance(0.5) {
                put(book, 3, length);
            }
        }
        4 => {
            let other = r.one_of(&[count + 1, count.saturating_sub(1)]);
            put(book, 0, other);
            put(book, 3, HEADER + RECORD * other);
        }
        // The total of so many more is the same modulo 2^32.
        5 => put(book, 0, count + (r.between(1, 7) << 29)),
        _ => {
            book.truncate(HEADER);
            put(book, 0, 35_791_394);
            put(book, 3, 0);
        }
    }
}

/// A call as words: how much longer than needed the lent areas are, then the records, sixteen words each.
pub fn call(r: &mut Random) -> Vec<u64> {
    let count = few(r);
    let Call { mut heads, numbers, .. } = drawn(r, count);
    if r.chance(0.2) {
        spoil_heads(r, &mut heads);
    }
    let mut words = vec![r.one_of(&[0, 0, 1, 120])];
    for (head, fit) in heads.chunks_exact(HEAD).zip(numbers.chunks_exact(FIT)) {
        words.extend(head.iter().map(|&n| u64::from(n)));
        words.extend(fit);
    }
    words
}

/// Makes a call of such words. A book that was read is written again, to the same bytes.
pub fn check_words(words: &[u64], reads: bool) -> Result<(), String> {
    let [past, records @ ..] = words else { return Err("a book has a length and records".into()) };
    let (past, records) = (*past as usize, records.chunks_exact(HEAD + FIT));
    let heads: Vec<u32> = records.clone().flat_map(|r| &r[..HEAD]).map(|&n| n as u32).collect();
    let numbers: Vec<u64> = records.clone().flat_map(|r| &r[HEAD..]).copied().collect();
    let book = laid(&heads, &numbers);
    let writing = |heads, numbers| Call { count: Some(records.len()), heads, numbers, book: vec![0xa5; book.len() + past] };
    if !reads {
        return writing(heads, numbers).check().map(|_| ());
    }
    let (heads, numbers) = (vec![0xa5; heads.len() + past], vec![0xa5; numbers.len() + past]);
    let mut read = Call { count: None, heads, numbers, book: book.clone() };
    if read.check()? == 0 {
        let mut again = writing(read.heads, read.numbers);
        again.check()?;
        same("book written again", &again.book[..book.len()], &book)?;
    }
    Ok(())
}
