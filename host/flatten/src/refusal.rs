//! Refusal numbers, and what can be done about each.

use std::fmt;

/// Who has to act on a refusal.
#[derive(Clone, Copy, Debug, PartialEq, Eq)]
pub enum Responsible {
    /// The writer of the frame description.
    Frame,
    /// The host that lends memory.
    Host,
    /// The photographer.
    Photographer,
    /// Whoever hands in points, a matrix or candidates.
    Points,
    /// Whoever hands in a book.
    Book,
    /// Whoever hands in rectangles and a patch list.
    Rectangles,
}

/// The library's refusal of a call, by its number.
#[derive(Clone, Copy, Debug, PartialEq, Eq)]
pub struct Refusal(u32);

impl Refusal {
    /// What a function of the library returned: 0 is acceptance.
    pub(crate) fn check(number: u32) -> Result<(), Refusal> {
        if number == 0 {
            Ok(())
        } else {
            Err(Refusal(number))
        }
    }

    pub fn number(self) -> u32 {
        self.0
    }

    /// By 7 to 10, and by 16 of a rectification, the picture was looked at, and patches and candidates are there to be read. Other
    /// numbers say nothing of a look.
    pub fn looked(self) -> bool {
        matches!(self.0, 7..=10 | 16)
    }

    pub fn responsible(self) -> Responsible {
        match self.0 {
            1 | 5 => Responsible::Frame,
            2..=4 | 12 => Responsible::Host,
            6..=9 | 16 => Responsible::Photographer,
            14 | 15 | 18 => Responsible::Book,
            17 => Responsible::Rectangles,
            _ => Responsible::Points,
        }
    }

    /// Why it was refused.
    pub fn why(self) -> &'static str {
        match self.0 {
            1 => "a frame number is outside its limit (sides 1 to 4096, cell 1 to 512, margin 0 to 4096)",
            2 => "a side of the capture is outside 1 to 4096, or its bytes are not 3 for each pixel",
            3 => "a work area is too short",
            4 => "the memory for the card is not 3 bytes for each of its pixels",
            5 => "the frame has no room for its four markers",
            6 => "a side of the capture is below 32 pixels",
            7 => "fewer than four rings were found",
            8 => "one ring stands for two corners of the card",
            9 => "the four rings do not lie as the corners of a card, or span too little of the picture",
            10 => "no homography takes the card's markers to the four points",
            11 => "the matrix has no inverse: its determinant is too near 0",
            12 => "the memory for the candidate page is shorter than 37 bytes a candidate",
            13 => "there are more than 9999 candidates, or a number of theirs is negative, not finite or too wide for its columns",
            14 => "the book's header, its length, a grade or a zero field is wrong, or it would be longer than 4294967295 bytes",
            15 => "the book's keys, panel and then camera, do not rise",
            16 => "the cells gave no score for the lens: fewer than 16 are sampled, or one lies outside the picture",
            17 => "there are more than 64 rectangles, or a rectangle or a patch box has an end before its start or above 4095",
            18 => {
                "a key, panel and then camera, stands in both books with different bytes, or the joined book would be longer than \
                  4294967295 bytes"
            }
            _ => "the library gives a number that this wrapper does not know",
        }
    }

    /// What to do about it.
    pub fn remedy(self) -> &'static str {
        match self.0 {
            1 => "correct the frame description",
            2 => "hand in a capture within the limits, with all its bytes",
            3 => "lend the lengths that the library names for this capture and frame",
            4 => "lend exactly the card's size",
            5 => {
                "correct the frame description: the margin must hold a marker of 24 pixels or more with its quiet zone, \
                  and each side four margins"
            }
            6 => "photograph again, larger",
            7 => {
                "photograph again, with all four rings whole, sharp and evenly lit, each at least 10 pixels wide and at \
                  most a quarter of the picture's shorter side, and the card upright: turned by less than 10 degrees"
            }
            8 => "photograph again, with all four rings in the picture and the card upright: turned by less than 10 degrees",
            9 => "photograph again, nearer and straighter, with all four rings in the picture",
            10 => "hand in four points of which no three lie on one line",
            11 => "hand in another matrix",
            12 => "lend 37 bytes for each candidate",
            13 => {
                "hand in at most 9999 candidates, no number below 0, centres below 99999.995, sizes below 9999.995 and scores \
                  below 9.9995"
            }
            14 => "hand in a book that is whole and unchanged, or at most 35791393 records with grades 0, 1 or 2",
            15 => "sort the records by panel and then camera, and keep one of each key",
            16 => {
                "photograph again with the whole card in the picture; a card with fewer than 16 sampled cells cannot be laid flat \
                  from a photograph alone"
            }
            17 => {
                "hand in at most 64 rectangles at once, none with an end before its start or above 4095, and a patch list as it was found"
            }
            18 => {
                "replace the old record of that panel and camera by the newer one in both books, or keep it in one of them only, \
                  and join again; keep more than 35791393 records in two books"
            }
            _ => "bring library and wrapper to the same version",
        }
    }
}

impl fmt::Display for Refusal {
    fn fmt(&self, f: &mut fmt::Formatter) -> fmt::Result {
        write!(f, "refused {}: {}; {}", self.0, self.why(), self.remedy())
    }
}

impl std::error::Error for Refusal {}

#[cfg(test)]
mod tests {
    use super::*;

    #[test]
    fn only_7_to_10_and_16_tell_of_a_look() {
        let looked: Vec<u32> = (1..=20).filter(|&number| Refusal(number).looked()).collect();
        assert_eq!(looked, [7, 8, 9, 10, 16]);
    }

    #[test]
    fn each_number_has_words_and_somebody() {
        let all: Vec<Refusal> = (1..=18).map(Refusal).collect();
        use Responsible::*;
        let menders: [(_, &[u32]); 6] = [
            (Frame, &[1, 5]),
            (Host, &[2, 3, 4, 12]),
            (Photographer, &[6, 7, 8, 9, 16]),
            (Points, &[10, 11, 13]),
            (Book, &[14, 15, 18]),
            (Rectangles, &[17]),
        ];
        for (who, numbers) in menders {
            let theirs: Vec<u32> = all.iter().filter(|r| r.responsible() == who).map(|r| r.number()).collect();
            assert_eq!(theirs, numbers, "{who:?}");
        }
        for words in [Refusal::why, Refusal::remedy] {
            let unknown = words(Refusal(19));
            for (i, &r) in all.iter().enumerate() {
                assert!(words(r) != unknown && all[..i].iter().all(|&other| words(other) != words(r)), "{r}");
            }
        }
    }
}
