//! The book of fits: the library's and the wrapper's.

mod common;
use common::*;
use flatten::book::{Book, Record};
use flatten::{ffi, Fit, Frame, Grade, Refusal, Responsible, Workspace};

/// Quiet, signalling and negative NaNs, zeros, infinities, subnormals and two other numbers.
const PATTERNS: [u64; 13] = [
    0x7ff8_0000_0000_0000,
    0x7ff0_0000_0000_0001,
    0xfff7_ffff_ffff_ffff,
    0xffff_ffff_ffff_ffff,
    0x7ff8_0000_dead_beef,
    0,
    1 << 63,
    0x7ff0_0000_0000_0000,
    0xfff0_0000_0000_0000,
    1,
    0x800f_ffff_ffff_ffff,
    0x3ff0_0000_0000_0000,
    0x0123_4567_89ab_cdef,
];

fn record(panel: u32, camera: u32, grade: u32) -> Record {
    let mut numbers = PATTERNS;
    numbers.rotate_left(grade as usize % 13);
    Record { panel, camera, grade, numbers }
}

/// A panel's second camera, and a panel whose camera is lower.
fn three() -> Vec<Record> {
    vec![record(1, 0x0102_0304, 0), record(1, u32::MAX, 1), record(256, 0, 2)]
}

fn heads(records: &[Record]) -> Vec<u32> {
    records.iter().flat_map(|r| [r.panel, r.camera, r.grade]).collect()
}

fn numbers(records: &[Record]) -> Vec<u64> {
    records.iter().flat_map(|r| r.numbers).collect()
}

/// The bytes by the layout, whatever the records are.
fn laid(records: &[Record]) -> Vec<u8> {
    let count = records.len() as u32;
    let header = [count, 16, 120, 16 + 120 * count].map(u32::to_le_bytes).concat();
    let each =
        |r: &Record| [[r.panel, r.camera, r.grade, 0].map(u32::to_le_bytes).concat(), r.numbers.map(u64::to_le_bytes).concat()].concat();
    [header, records.iter().flat_map(each).collect()].concat()
}

#[test]
fn bytes_in_their_places() {
    let book = Book { records: vec![Record { panel: 0x0403_0201, camera: 0x0807_0605, grade: 2, numbers: [0; 13] }] };
    let mut wanted = vec![1, 0, 0, 0, 16, 0, 0, 0, 120, 0, 0, 0, 136, 0, 0, 0, 1, 2, 3, 4, 5, 6, 7, 8, 2, 0, 0, 0, 0, 0, 0, 0];
    wanted.resize(136, 0);
    assert_eq!(book.to_bytes(), Ok(wanted));
    let empty = [0, 0, 0, 0, 16, 0, 0, 0, 120, 0, 0, 0, 16, 0, 0, 0];
    assert_eq!((Book::default().to_bytes(), Book::read(&empty)), (Ok(empty.to_vec()), Ok(Book::default())));
}

#[test]
fn a_book_that_was_read_is_written_to_its_bytes() {
    for records in [vec![], three()[..1].to_vec(), three()] {
        let bytes = laid(&records);
        let book = Book::read(&bytes).unwrap();
        assert_eq!((book.to_bytes(), book.records), (Ok(bytes), records));
    }
}

#[test]
fn longer_areas_keep_their_rest() {
    let records = three();
    let (mut h, mut n, mut b) = ([7; 10], [7; 40], vec![7; 377]);
    assert_eq!(ffi::read_book(&laid(&records), &mut h, &mut n), 0);
    assert_eq!((&h[..9], &h[9..], &n[..39], &n[39..]), (&heads(&records)[..], &[7][..], &numbers(&records)[..], &[7][..]));
    assert_eq!(ffi::write_book(&heads(&records), &numbers(&records), 3, &mut b), 0);
    assert_eq!(b, [laid(&records), vec![7]].concat());
    // What is past the count is not looked at.
    assert_eq!(ffi::write_book(&h, &n, 2, &mut b), 0);
    assert_eq!((&b[..256], &b[256..376]), (&laid(&records[..2])[..], &laid(&records)[256..]));
}

/// The bytes of a book with other words at some places.
fn with(bytes: &[u8], words: &[(usize, u32)]) -> Vec<u8> {
    let mut bytes = bytes.to_vec();
    for &(at, word) in words {
        bytes[at..at + 4].copy_from_slice(&word.to_le_bytes());
    }
    bytes
}

/// Books refused by 14.
fn damaged() -> Vec<Vec<u8>> {
    let (none, one, good) = (laid(&[]), laid(&three()[..1]), laid(&three()));
    let longer = |by: usize| [&one[..], &vec![0; by]].concat();
    let mut all = vec![vec![], none[..15].to_vec(), one[..135].to_vec(), longer(1), longer(120)];
    // The total with its book, and with its count.
    all.extend([with(&longer(1), &[(12, 137)]), with(&one, &[(0, 0), (12, 16)]), with(&one, &[(0, 2), (12, 256)])]);
    for (at, word) in [(0, 3), (4, 16), (8, 120), (12, 376)] {
        all.extend([with(&good, &[(at, word - 1)]), with(&good, &[(at, word + 1)])]);
    }
    // 16 + 120 times the count is 2^32, and modulo 2^32 that of three records.
    all.extend([with(&none, &[(0, 35_791_394), (12, 0)]), with(&good, &[(0, 3 + (1 << 29))])]);
    all.extend([3, 256, u32::MAX].map(|grade| with(&good, &[(264, grade)])));
    all.extend([0, 8, 16, 24].map(|bit| with(&good, &[(268, 1 << bit)])));
    // 14 is tried on every record before 15 on any.
    all.push(with(&laid(&keyed([(2, 0), (1, 0), (0, 0)])), &[(264, 3)]));
    all
}

fn keyed(keys: [(u32, u32); 3]) -> Vec<Record> {
    keys.map(|(panel, camera)| record(panel, camera, 0)).to_vec()
}

/// Keys refused by 15: equal, a camera that falls, a panel that falls while the camera rises, and while it does not.
const FALLING: [[(u32, u32); 3]; 4] =
    [[(1, 1), (1, 2), (1, 2)], [(1, 2), (1, 1), (2, 0)], [(1, 1), (2, 5), (1, 9)], [(256, 0), (1, 0), (300, 0)]];

/// All with their numbers.
fn refused() -> impl Iterator<Item = (Vec<u8>, u32)> {
    damaged().into_iter().map(|book| (book, 14)).chain(FALLING.into_iter().map(|keys| (laid(&keyed(keys)), 15)))
}

#[test]
fn a_refusal_of_the_reader_leaves_the_areas() {
    let read = |bytes: &[u8], lengths: (usize, usize), number: u32| {
        let (mut h, mut n) = (vec![7; lengths.0], vec![7; lengths.1]);
        assert_eq!(ffi::read_book(bytes, &mut h, &mut n), number, "{lengths:?}, {:?}", &bytes[..bytes.len().min(16)]);
        assert!(h.iter().all(|&v| v == 7) && n.iter().all(|&v| v == 7), "{lengths:?}, {number}");
    };
    // 3 comes after 14 and 15: areas that are too short change nothing of them.
    for (bytes, number) in refused() {
        for lengths in [(9, 39), (8, 39), (9, 38), (0, 0)] {
            read(&bytes, lengths, number);
        }
    }
    for lengths in [(8, 39), (9, 38), (0, 0)] {
        read(&laid(&three()), lengths, 3);
    }
}

#[test]
fn a_refusal_of_the_writer_leaves_the_book() {
    let (sorted, equal, falling) = (three(), keyed(FALLING[0]), keyed(FALLING[1]));
    let [graded, both] = [&sorted, &falling].map(|records| [&records[..2], &[record(256, 0, 3)]].concat());
    for (records, count, lengths, number) in [
        (&sorted, 3, (8, 39, 376), 3),
        (&sorted, 3, (9, 38, 376), 3),
        (&sorted, 3, (9, 39, 375), 3),
        (&sorted, 0, (0, 0, 15), 3),
        (&graded, 3, (9, 39, 375), 3),
        (&equal, 3, (9, 39, 0), 3),
        (&graded, 3, (9, 39, 376), 14),
        (&both, 3, (9, 39, 376), 14),
        (&equal, 3, (9, 39, 376), 15),
        (&falling, 3, (9, 39, 400), 15),
        // A count whose lengths pass 2^32, and some whose lengths pass 2^64.
        (&sorted, 35_791_394, (9, 39, 376), 3),
        (&sorted, 1 << 61, (9, 39, 376), 3),
        (&sorted, 1 << 63, (9, 39, 376), 3),
        (&sorted, usize::MAX / 3 + 1, (9, 39, 376), 3),
        (&sorted, usize::MAX, (9, 39, 376), 3),
    ] {
        let mut book = vec![7; lengths.2];
        let (heads, numbers) = (&heads(records)[..lengths.0], &numbers(records)[..lengths.1]);
        assert_eq!(ffi::write_book(heads, numbers, count, &mut book), number, "{count}, {lengths:?}");
        assert!(book.iter().all(|&b| b == 7), "{count}, {lengths:?}");
    }
}

#[test]
fn refusals_of_the_wrapper() {
    for (bytes, number) in refused() {
        assert_eq!(Book::read(&bytes).map_err(Refusal::number), Err(number));
    }
    let write = |records| Book { records }.to_bytes().unwrap_err();
    let (graded, equal) = (write(vec![record(1, 1, 3)]), write(vec![record(1, 1, 0), record(1, 1, 0)]));
    assert_eq!(
        (graded.number(), graded.responsible(), equal.number(), equal.responsible()),
        (14, Responsible::Book, 15, Responsible::Book)
    );
    assert!(equal.to_string().starts_with("refused 15: the book's keys, panel and then camera, do not rise; "), "{equal}");
}

/// Rising as numbers: not by the bytes of a panel, not with a sign, and not by camera.
fn six() -> Vec<Record> {
    [three(), keyed([(257, 7), (1 << 31, 1), (u32::MAX, 0)])].concat()
}

/// Each record goes to the first book, the second or both, in every way that there is.
#[test]
fn joined_each_key_once_rising() {
    let wanted = Book { records: six() };
    for deal in 0..3usize.pow(6) {
        let to = |i: usize| deal / 3usize.pow(i as u32) % 3;
        let all_but = |who: usize| Book { records: (0..6).filter(|&i| to(i) != who).map(|i| wanted.records[i]).collect() };
        let (first, second) = (all_but(1), all_but(0));
        assert_eq!((first.merge(&second), second.merge(&first)), (Ok(wanted.clone()), Ok(wanted.clone())), "{deal}");
    }
}

#[test]
fn joined_with_itself_and_with_the_empty_book() {
    let empty = Book::default();
    for records in [vec![], three()[..1].to_vec(), three()] {
        let book = Book { records };
        assert_eq!([book.merge(&book), book.merge(&empty), empty.merge(&book)], [(); 3].map(|()| Ok(book.clone())));
    }
}

/// The grade, or any bit of the numbers: the sign of a zero, which stays equal as a number, and a NaN's bits too.
#[test]
fn a_shared_key_with_other_bytes() {
    let bits = (0..13).flat_map(|i| (0..64).map(move |bit| (i, bit)));
    let one = record(256, 0, 2);
    let changed = bits.map(|(i, bit)| {
        let mut other = one;
        other.numbers[i] ^= 1 << bit;
        other
    });
    let graded = [Record { grade: 0, ..one }, Record { grade: 1, ..one }];
    for other in changed.chain(graded) {
        let [a, b] = [one, other].map(|last| Book { records: [&three()[..2], &[last]].concat() });
        let alone = Book { records: vec![other] };
        for refusal in [a.merge(&b), b.merge(&a), a.merge(&alone), alone.merge(&a)].map(Result::unwrap_err) {
            assert_eq!((refusal.number(), refusal.responsible()), (18, Responsible::Book), "{other:?}");
        }
    }
}

#[test]
fn books_to_be_joined_that_are_refused_themselves() {
    let [good, other, graded, falling] =
        [three(), vec![record(256, 0, 1)], vec![record(256, 0, 3)], keyed(FALLING[0])].map(|records| Book { records });
    for (first, second, number) in [
        (&falling, &good, 15),
        (&good, &falling, 15),
        (&graded, &good, 14),
        (&good, &graded, 14),
        (&falling, &graded, 15),
        (&graded, &falling, 14),
        (&good, &other, 18),
    ] {
        assert_eq!(first.merge(second).map_err(Refusal::number), Err(number));
    }
    let said = good.merge(&other).unwrap_err().to_string();
    assert!(said.starts_with("refused 18: a key, panel and then camera, stands in both books with different bytes, or "), "{said}");
}

/// Two books joined in a target of so many bytes: the number, and the target where it is accepted. Else it has to be as it was.
fn joined(first: &[u8], second: &[u8], length: usize) -> Result<Vec<u8>, u32> {
    let mut target = vec![7; length];
    match ffi::merge_books(first, second, &mut target) {
        0 => Ok(target),
        number => {
            assert!(target.iter().all(|&b| b == 7), "{number}, {length}");
            Err(number)
        }
    }
}

/// 14 and 15 of the first book, then of the second, before a target that is short and a key that differs.
#[test]
fn a_refused_book_goes_before_the_target() {
    let good = laid(&[record(1, 1, 1)]);
    let all: Vec<_> = refused().collect();
    for (book, number) in &all {
        for length in [0, 16, 135, 376, 1000] {
            assert_eq!((joined(book, &good, length), joined(&good, book, length)), (Err(*number), Err(*number)), "{length}");
        }
        for (other, _) in &all {
            assert_eq!(joined(book, other, 1000), Err(*number));
        }
    }
}

#[test]
fn targets_of_the_library() {
    let (all, empty) = (three(), laid(&[]));
    let (first, second) = (laid(&all[..2]), laid(&all[1..]));
    let differing = laid(&[Record { grade: 0, ..all[1] }, all[2]]);
    for short in [0, 15, 16, 375] {
        assert_eq!((joined(&first, &second, short), joined(&first, &differing, short)), (Err(3), Err(3)), "{short}");
    }
    // The shared key counts once: 376 bytes do. 496 are the lengths of both books less a header, 512 those of both.
    for length in [376, 377, 496, 512] {
        let wanted = [laid(&all), vec![7; length - 376]].concat();
        assert_eq!((joined(&first, &second, length), joined(&second, &first, length)), (Ok(wanted.clone()), Ok(wanted)), "{length}");
        assert_eq!((joined(&first, &differing, length), joined(&differing, &first, length)), (Err(18), Err(18)), "{length}");
    }
    // One slice lent twice, and books without a record.
    assert_eq!((joined(&first, &first, 255), joined(&first, &first, 256)), (Err(3), Ok(first.clone())));
    assert_eq!((joined(&empty, &empty, 15), joined(&empty, &empty, 16)), (Err(3), Ok(empty.clone())));
    assert_eq!((joined(&empty, &first, 255), joined(&first, &empty, 256)), (Err(3), Ok(first.clone())));
}

/// A fit that was found, kept, and taken from the book for another capture.
#[test]
fn a_card_by_a_kept_fit() {
    let frame: Frame = FRAME.parse().unwrap();
    let (mut found, mut kept) = (Workspace::new(192, 192, frame).unwrap(), Workspace::new(192, 192, frame).unwrap());
    let rectified = found.rectify(&card(frame)).unwrap();
    let book = Book { records: vec![Record::of(4, 2, Grade::Score(rectified.score), &rectified.fit)] };
    let read = Book::read(&book.to_bytes().unwrap()).unwrap().records[0];
    assert_eq!((read.panel, read.camera, read.grade), (4, 2, 0));
    assert_eq!(read.fit().numbers(), rectified.fit.numbers());
    assert_eq!(kept.warp_record(&card(frame), &read), Ok(rectified.beyond));
    assert_eq!(kept.canonical(), found.canonical());

    // Under any other grade it lays nothing, and what is wrong with the capture goes first.
    for grade in [1, 2, 3, u32::MAX] {
        let unscored = Record { grade, ..read };
        let refusal = kept.warp_record(&vec![7; 3 * 192 * 192], &unscored).unwrap_err();
        assert_eq!((refusal.number(), refusal.responsible()), (16, Responsible::Photographer));
        assert_eq!(kept.warp_record(&[], &unscored).unwrap_err().number(), 2);
        assert_eq!(kept.canonical(), found.canonical());
    }
}

#[test]
fn a_record_of_a_fit() {
    let fit = Fit::new(PATTERNS.map(f64::from_bits));
    for (grade, number) in [(Grade::Score(1.5), 0), (Grade::Outside(7), 1), (Grade::TooFew, 2)] {
        let Record { panel, camera, grade, numbers } = Record::of(5, 6, grade, &fit);
        assert_eq!((panel, camera, grade), (5, 6, number));
        assert_eq!((&numbers[..5], &numbers[5..]), (&[0x7ff8_0000_0000_0000; 5][..], &PATTERNS[5..]));
    }
    assert!(record(0, 0, 0).fit().numbers()[..5].iter().all(|x| x.is_nan()));
    assert_eq!(record(0, 0, 0).fit().numbers()[11], 1.0);
}
