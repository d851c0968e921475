//! Books of fits: a panel that is bolted down, seen by a camera that is too, needs its fit only once. The layout stands at
//! tablet_read_book in host/include/tablet.h.

use crate::{ffi, Fit, Grade, Refusal};

/// The bits of the only NaN that a fit has in the library.
const NAN: u64 = 0x7ff8_0000_0000_0000;

/// A fit that is kept under its key, panel and then camera.
#[derive(Clone, Copy, Debug, PartialEq, Eq)]
pub struct Record {
    pub panel: u32,
    pub camera: u32,
    /// 0 scored, 1 outside, 2 too few.
    pub grade: u32,
    /// Nine matrix entries by rows, k, cx, cy, norm, by their bits: an f64 does not keep those of every NaN.
    pub numbers: [u64; ffi::FIT_LEN],
}

impl Record {
    /// Of a fit that was found. All NaNs become one, as in the library, whose fits have no other.
    pub fn of(panel: u32, camera: u32, grade: Grade, fit: &Fit) -> Record {
        let grade = match grade {
            Grade::Score(_) => ffi::SCORED,
            Grade::Outside(_) => ffi::OUTSIDE,
            Grade::TooFew => ffi::TOO_FEW,
        };
        let bits = |x: f64| if x.is_nan() { NAN } else { x.to_bits() };
        Record { panel, camera, grade: grade as u32, numbers: std::array::from_fn(|i| bits(fit.numbers()[i])) }
    }

    /// The fit, whatever its grade. `Workspace::warp_record` lays a card under it only where it was scored.
    pub fn fit(&self) -> Fit {
        Fit::new(self.numbers.map(f64::from_bits))
    }
}

/// Records whose keys rise strictly.
#[derive(Clone, Debug, Default, PartialEq, Eq)]
pub struct Book {
    pub records: Vec<Record>,
}

impl Book {
    /// Of all the bytes that there are. Refused by 14 or 15.
    pub fn read(bytes: &[u8]) -> Result<Book, Refusal> {
        let count = bytes.len().saturating_sub(ffi::BOOK_HEADER_LEN) / ffi::BOOK_RECORD_LEN;
        let mut heads = vec![[0; ffi::BOOK_HEAD_LEN]; count];
        let mut numbers = vec![[0; ffi::FIT_LEN]; count];
        Refusal::check(ffi::read_book(bytes, heads.as_flattened_mut(), numbers.as_flattened_mut()))?;
        let records = heads.into_iter().zip(numbers).map(|([panel, camera, grade], numbers)| Record { panel, camera, grade, numbers });
        Ok(Book { records: records.collect() })
    }

    /// The bytes that read back to these records. Refused by 14 where a grade is above 2 or there are more than 35,791,393
    /// records, by 15 where the keys do not rise.
    pub fn to_bytes(&self) -> Result<Vec<u8>, Refusal> {
        let heads: Vec<u32> = self.records.iter().flat_map(|r| [r.panel, r.camera, r.grade]).collect();
        let numbers: Vec<u64> = self.records.iter().flat_map(|r| r.numbers).collect();
        let count = self.records.len();
        let mut bytes = vec![0; ffi::BOOK_HEADER_LEN + ffi::BOOK_RECORD_LEN * count];
        Refusal::check(ffi::write_book(&heads, &numbers, count, &mut bytes))?;
        Ok(bytes)
    }

    /// The records of both books, each key once. Refused by 14 and 15 of this book and then of the other, as `to_bytes`; then by 18
    /// where a key has other bytes in the other book, or there are more than 35,791,393 keys. Nothing chooses between two fits of one
    /// key, so the old one is replaced before the books meet.
    pub fn merge(&self, other: &Book) -> Result<Book, Refusal> {
        let (first, second) = (self.to_bytes()?, other.to_bytes()?);
        let mut joined = vec![0; first.len() + second.len() - ffi::BOOK_HEADER_LEN];
        Refusal::check(ffi::merge_books(&first, &second, &mut joined))?;
        // Where keys are shared it is shorter than its memory; the header's fourth word is its length.
        let length = u32::from_le_bytes([joined[12], joined[13], joined[14], joined[15]]);
        joined.truncate(length as usize);
        Book::read(&joined)
    }
}
