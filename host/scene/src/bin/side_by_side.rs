//! side_by_side OUT.png FILE..: pictures (P6, greatest sample 255, no comments) at half their size beside one another, as PNG.
//! Colours are rounded to steps of 8, so that the file stays small.

use std::io::{Error, Result};

struct Picture {
    w: usize,
    h: usize,
    data: Vec<u8>,
}

fn read(path: &str) -> Result<Picture> {
    let bytes = std::fs::read(path)?;
    let bad = || Error::other(format!("{path} is no plain P6 picture"));
    let mut at = 0;
    let mut word = || {
        let end = at + bytes[at..].iter().position(u8::is_ascii_whitespace).ok_or_else(bad)?;
        let text = String::from_utf8_lossy(&bytes[at..end]).into_owned();
        at = end + 1;
        Ok::<_, Error>(text)
    };
    let head = [word()?, word()?, word()?, word()?];
    let side = |text: &str| text.parse::<usize>().map_err(|_| bad());
    let (w, h) = (side(&head[1])?, side(&head[2])?);
    if head[0] != "P6" || head[3] != "255" || bytes.len() - at != 3 * w * h {
        return Err(bad());
    }
    Ok(Picture { w, h, data: bytes[at..].to_vec() })
}

/// Each two by two pixels become one.
fn halved(p: &Picture) -> Picture {
    let (w, h) = (p.w / 2, p.h / 2);
    let mut data = Vec::with_capacity(3 * w * h);
    for y in 0..h {
        for i in 0..3 * w {
            let at = |dx: usize, dy: usize| p.data[3 * ((2 * y + dy) * p.w + 2 * (i / 3) + dx) + i % 3] as u32;
            let mean = (at(0, 0) + at(1, 0) + at(0, 1) + at(1, 1)) / 4;
            data.push((((mean + 4) / 8) * 8).min(255) as u8);
        }
    }
    Picture { w, h, data }
}

/// Bits, lowest first, as deflate packs them.
struct Bits {
    out: Vec<u8>,
    held: u64,
    count: u32,
}

impl Bits {
    fn put(&mut self, value: u32, count: u32) {
        self.held |= (value as u64) << self.count;
        self.count += count;
        while self.count >= 8 {
            self.out.push(self.held as u8);
            self.held >>= 8;
            self.count -= 8;
        }
    }

    /// Huffman codes go highest bit first.
    fn code(&mut self, code: u32, count: u32) {
        self.put(code.reverse_bits() >> (32 - count), count);
    }

    /// A literal or length symbol of the fixed code.
    fn symbol(&mut self, s: u32) {
        match s {
            0..=143 => self.code(0x30 + s, 8),
            144..=255 => self.code(0x190 + s - 144, 9),
            256..=279 => self.code(s - 256, 7),
            _ => self.code(0xc0 + s - 280, 8),
        }
    }
}

/// The symbol, number of extra bits and their value for a length of 3 to 258 or a distance of 1 to 32768, from the tables of RFC 1951.
fn coded(value: usize, first: u32, bases: &[usize], extra: impl Fn(usize) -> u32) -> (u32, u32, u32) {
    let i = bases.iter().rposition(|&b| b <= value).unwrap();
    (first + i as u32, extra(i), (value - bases[i]) as u32)
}

const LENGTHS: [usize; 29] =
    [3, 4, 5, 6, 7, 8, 9, 10, 11, 13, 15, 17, 19, 23, 27, 31, 35, 43, 51, 59, 67, 83, 99, 115, 131, 163, 195, 227, 258];
const DISTANCES: [usize; 30] = [
    1, 2, 3, 4, 5, 7, 9, 13, 17, 25, 33, 49, 65, 97, 129, 193, 257, 385, 513, 769, 1025, 1537, 2049, 3073, 4097, 6145, 8193, 12289, 16385,
    24577,
];

/// One deflate block with the fixed codes; of the last places with the same three bytes the longest match is taken.
fn deflate(data: &[u8]) -> Vec<u8> {
    let mut bits = Bits { out: Vec::new(), held: 0, count: 0 };
    bits.put(1, 1);
    bits.put(1, 2);
    let mut head = vec![usize::MAX; 1 << 16];
    let mut before = vec![usize::MAX; data.len()];
    let hash = |i: usize| (data[i] as usize * 31 * 31 * 7 + data[i + 1] as usize * 31 * 13 + data[i + 2] as usize) & 0xffff;
    let mut i = 0;
    while i < data.len() {
        let (mut length, mut distance) = (0, 0);
        if i + 2 < data.len() {
            let mut j = head[hash(i)];
            for _ in 0..32 {
                if j == usize::MAX || i - j > 32768 {
                    break;
                }
                let n = data[i..].iter().zip(&data[j..]).take(258).take_while(|(a, b)| a == b).count();
                if n > length {
                    (length, distance) = (n, i - j);
                }
                j = before[j];
            }
        }
        let step = if length >= 3 {
            let (s, n, v) = coded(length, 257, &LENGTHS, |i| if i < 8 || i == 28 { 0 } else { i as u32 / 4 - 1 });
            bits.symbol(s);
            bits.put(v, n);
            let (s, n, v) = coded(distance, 0, &DISTANCES, |i| if i < 4 { 0 } else { i as u32 / 2 - 1 });
            bits.code(s, 5);
            bits.put(v, n);
            length
        } else {
            bits.symbol(data[i] as u32);
            1
        };
        for j in i..(i + step).min(data.len().saturating_sub(2)) {
            before[j] = std::mem::replace(&mut head[hash(j)], j);
        }
        i += step;
    }
    bits.symbol(256);
    bits.put(0, 7);
    bits.out
}

fn crc32(data: &[u8]) -> u32 {
    !data.iter().fold(!0, |c: u32, &b| (0..8).fold(c ^ b as u32, |c, _| if c & 1 == 1 { c >> 1 ^ 0xedb8_8320 } else { c >> 1 }))
}

fn adler32(data: &[u8]) -> u32 {
    let (a, b) = data.iter().fold((1u32, 0u32), |(a, b), &v| {
        let a = (a + v as u32) % 65521;
        (a, (b + a) % 65521)
    });
    b << 16 | a
}

fn chunk(out: &mut Vec<u8>, name: &[u8; 4], data: &[u8]) {
    out.extend((data.len() as u32).to_be_bytes());
    let body = [name, data].concat();
    out.extend(&body);
    out.extend(crc32(&body).to_be_bytes());
}

fn png(p: &Picture) -> Vec<u8> {
    // Each row begins with its filter, 0: none.
    let rows: Vec<u8> = p.data.chunks(3 * p.w).flat_map(|row| std::iter::once(0).chain(row.iter().copied())).collect();
    let mut out = b"\x89PNG\r\n\x1a\n".to_vec();
    let sides = [(p.w as u32).to_be_bytes(), (p.h as u32).to_be_bytes()].concat();
    chunk(&mut out, b"IHDR", &[&sides[..], &[8, 2, 0, 0, 0]].concat());
    let packed = [&[0x78, 1][..], &deflate(&rows), &adler32(&rows).to_be_bytes()].concat();
    chunk(&mut out, b"IDAT", &packed);
    chunk(&mut out, b"IEND", b"");
    out
}

fn main() -> Result<()> {
    let args: Vec<String> = std::env::args().skip(1).collect();
    let [out, files @ ..] = &args[..] else {
        eprintln!("usage: side_by_side OUT.png FILE..");
        std::process::exit(2);
    };
    let pictures: Vec<Picture> = files.iter().map(|f| read(f).map(|p| halved(&p))).collect::<Result<_>>()?;
    let gap = 8;
    let w = pictures.iter().map(|p| p.w + gap).sum::<usize>().saturating_sub(gap);
    let h = pictures.iter().map(|p| p.h).max().unwrap_or(0);
    let mut all = Picture { w, h, data: vec![255; 3 * w * h] };
    let mut left = 0;
    for p in &pictures {
        for y in 0..p.h {
            let to = 3 * (y * w + left);
            all.data[to..to + 3 * p.w].copy_from_slice(&p.data[3 * y * p.w..3 * (y + 1) * p.w]);
        }
        left += p.w + gap;
    }
    std::fs::write(out, png(&all))
}
