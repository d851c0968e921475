//! Netpbm's P6: raw RGB with a greatest sample of 255.

use std::fmt;
use std::io::{self, Read};

/// A picture: `data` has three bytes a pixel, by rows.
#[derive(Clone, Debug, PartialEq, Eq)]
pub struct Picture {
    pub w: usize,
    pub h: usize,
    pub data: Vec<u8>,
}

/// Longest side that is read.
pub const LONGEST: usize = 4096;

/// Longest header that is read, comments counted.
pub const LONGEST_HEADER: usize = 1 << 16;

#[derive(Debug)]
pub enum Error {
    Io(io::Error),
    /// A picture of another format, or none.
    Other(Format),
    Bad(String),
}

/// What an input is that is not P6 with a greatest sample of 255.
#[derive(Clone, Copy, Debug, PartialEq, Eq)]
pub enum Format {
    Jpeg,
    Png,
    /// P1 to P5 or P7, by the digit.
    Netpbm(u8),
    /// P6 with this greatest sample.
    Deep(usize),
    Unknown,
}

impl fmt::Display for Format {
    fn fmt(&self, f: &mut fmt::Formatter) -> fmt::Result {
        match self {
            Format::Jpeg => f.write_str("this is a JPEG, and only P6 is read"),
            Format::Png => f.write_str("this is a PNG, and only P6 is read"),
            Format::Netpbm(digit) => write!(f, "this is a Netpbm P{}, and only P6 is read", *digit as char),
            Format::Deep(greatest) => write!(f, "the greatest sample is {greatest}, and only 255 is read"),
            Format::Unknown => f.write_str("this is no Netpbm P6 picture: it does not begin with P6"),
        }
    }
}

impl fmt::Display for Error {
    fn fmt(&self, f: &mut fmt::Formatter) -> fmt::Result {
        match self {
            Error::Io(e) => write!(f, "{e}"),
            Error::Other(format) => write!(f, "{format}"),
            Error::Bad(why) => f.write_str(why),
        }
    }
}

impl From<io::Error> for Error {
    fn from(e: io::Error) -> Error {
        Error::Io(e)
    }
}

fn bad<T>(why: impl Into<String>) -> Result<T, Error> {
    Err(Error::Bad(why.into()))
}

fn byte(input: &mut impl Read) -> Result<Option<u8>, Error> {
    let mut b = [0];
    loop {
        match input.read(&mut b) {
            Ok(0) => return Ok(None),
            Ok(_) => return Ok(Some(b[0])),
            Err(e) if e.kind() == io::ErrorKind::Interrupted => {}
            Err(e) => return Err(e.into()),
        }
    }
}

/// What is before the pixels.
struct Header<'a, R> {
    input: &'a mut R,
    read: usize,
}

impl<R: Read> Header<'_, R> {
    /// The next character. As in Netpbm, a comment reads as the line end that closes it, wherever it begins.
    fn char(&mut self) -> Result<u8, Error> {
        let mut in_comment = false;
        loop {
            if self.read == LONGEST_HEADER {
                let what = if in_comment { "a comment in the header has no end" } else { "the header has no end" };
                return bad(format!("{what} within {} KiB", LONGEST_HEADER >> 10));
            }
            self.read += 1;
            match byte(self.input)? {
                None => return bad("the picture ends within its header"),
                Some(b'\n') => return Ok(b'\n'),
                Some(b'\r') => return Ok(b'\r'),
                Some(b'#') => in_comment = true,
                Some(_) if in_comment => {}
                Some(c) => return Ok(c),
            }
        }
    }

    /// A number and the one blank after it. Numbers too large for the type stay at its end: they are refused by their size.
    fn number(&mut self, what: &str) -> Result<(usize, u8), Error> {
        let mut c = self.char()?;
        while is_blank(c) {
            c = self.char()?;
        }
        let mut n = 0usize;
        let mut digits = 0;
        while c.is_ascii_digit() {
            n = n.saturating_mul(10).saturating_add((c - b'0') as usize);
            digits += 1;
            c = self.char()?;
        }
        if digits == 0 || !is_blank(c) {
            return bad(format!("the header's {what} is not a number: there is {}", shown(c)));
        }
        Ok((n, c))
    }
}

fn is_blank(c: u8) -> bool {
    matches!(c, b' ' | b'\t' | b'\n' | b'\r')
}

fn shown(c: u8) -> String {
    if c.is_ascii_graphic() {
        format!("'{}'", c as char)
    } else {
        format!("the byte {c}")
    }
}

/// Reads one picture that is all there is.
pub fn read(input: &mut impl Read) -> Result<Picture, Error> {
    match (byte(input)?, byte(input)?) {
        (None, _) => return bad("there is no picture: the input is empty"),
        (Some(b'P'), Some(b'6')) => {}
        (Some(b'P'), Some(digit @ (b'1'..=b'5' | b'7'))) => return Err(Error::Other(Format::Netpbm(digit))),
        (Some(0xff), Some(0xd8)) => return Err(Error::Other(Format::Jpeg)),
        (Some(0x89), Some(b'P')) => return Err(Error::Other(Format::Png)),
        _ => return Err(Error::Other(Format::Unknown)),
    }
    let (w, h, last) = header(&mut Header { input, read: 2 })?;
    let wanted = 3 * w * h;
    let mut data = Vec::new();
    input.by_ref().take(wanted as u64).read_to_end(&mut data)?;
    // Nobody ends a header by a lone carriage return, and with one byte too many every colour would be another.
    if last == b'\r' && data.first() == Some(&b'\n') {
        return bad("the header's lines end in CR LF, and after the greatest sample one blank is allowed: the picture went through an \
             editor, or a transfer as text, and its pixels may be damaged too; copy it again as binary");
    }
    if data.len() < wanted {
        return bad(format!("the picture is cut off: {w} by {h} pixels need {wanted} bytes, there are {}", data.len()));
    }
    if byte(input)?.is_some() {
        return bad(format!("there is more after the picture's {wanted} bytes: only one picture, and nothing else, is read"));
    }
    Ok(Picture { w, h, data })
}

/// The sides, and the blank that ends the header.
fn header(header: &mut Header<impl Read>) -> Result<(usize, usize, u8), Error> {
    let c = header.char()?;
    if !is_blank(c) {
        return bad(format!("after P6 a blank or a line end is wanted, there is {}", shown(c)));
    }
    let (w, _) = header.number("width")?;
    let (h, _) = header.number("height")?;
    let (greatest, last) = header.number("greatest sample")?;
    if w == 0 || h == 0 {
        return bad(format!("the picture is empty: its header says {w} by {h}"));
    }
    if w > LONGEST || h > LONGEST {
        return bad(format!("the picture is too large: its header says {w} by {h}, and a side may have at most {LONGEST} pixels"));
    }
    if greatest != 255 {
        return Err(Error::Other(Format::Deep(greatest)));
    }
    Ok((w, h, last))
}

/// A picture as a file's bytes.
pub fn bytes(w: usize, h: usize, data: &[u8]) -> Vec<u8> {
    assert_eq!(data.len(), 3 * w * h, "a picture of {w} by {h}");
    [format!("P6\n{w} {h}\n255\n").as_bytes(), data].concat()
}

#[cfg(test)]
mod tests {
    use super::*;

    fn read_bytes(bytes: &[u8]) -> Result<Picture, String> {
        read(&mut &bytes[..]).map_err(|e| e.to_string())
    }

    fn with_body(header: &str) -> Vec<u8> {
        let mut bytes = header.as_bytes().to_vec();
        bytes.extend([1, 2, 3, 4, 5, 6]);
        bytes
    }

    #[test]
    fn written_pictures_read_back() {
        let bytes = bytes(2, 1, &[1, 2, 3, 4, 5, 6]);
        assert_eq!(bytes, with_body("P6\n2 1\n255\n"));
        assert_eq!(read_bytes(&bytes).unwrap(), Picture { w: 2, h: 1, data: vec![1, 2, 3, 4, 5, 6] });
    }

    #[test]
    fn headers_as_netpbm_allows() {
        for header in [
            "P6 2 1 255\n",
            "P6\t2\r\n1\r\n255 ",
            "P6\n# a comment\n2 1\n255\n",
            "P6\n2 # width\n#\n 1\n# P6 9 9\n255\n",
            "P6#at once\n2 1 255\n",
            "P6\n2#joined\n1 0255\n",
            "P6\n2 1\n255# the comment's line end is the blank\n",
            "P6\n# ends in a carriage return\r2 1 255\n",
        ] {
            assert_eq!(read_bytes(&with_body(header)).map(|p| p.data), Ok(vec![1, 2, 3, 4, 5, 6]), "{header:?}");
        }
    }

    #[test]
    fn a_body_may_begin_like_a_comment() {
        let bytes = b"P6 1 1 255 #\n#";
        assert_eq!(read_bytes(bytes).unwrap().data, b"#\n#");
    }

    #[test]
    fn damage_is_named() {
        for (bytes, why) in [
            (&b""[..], "empty"),
            (b"P", "does not begin with P6"),
            (b"P5\n2 1\n255\n123456", "P5"),
            (b"P8", "does not begin with P6"),
            (b"\xff\xd8\xff\xe0", "a JPEG"),
            (b"\x89PNG\r\n", "a PNG"),
            (b"P6\r\n2 1\r\n255\r\n123456", "lines end in CR LF"),
            (b"P6\r\n2 1\r\n255\r\n12345", "lines end in CR LF"),
            (b"P6", "ends within its header"),
            (b"P62 1 255\n123456", "after P6"),
            (b"P6\n2", "ends within its header"),
            (b"P6\n# no end", "ends within its header"),
            (b"P6\n-2 1\n255\n123456", "width is not a number: there is '-'"),
            (b"P6\n2x 1\n255\n123456", "width is not a number: there is 'x'"),
            (b"P6\n2 \x00\n255\n123456", "height is not a number: there is the byte 0"),
            (b"P6\n2 1\n0x255\n123456", "greatest sample is not a number: there is 'x'"),
            (b"P6\n0 1\n255\n", "is empty"),
            (b"P6\n4097 1\n255\n", "too large: its header says 4097 by 1"),
            (b"P6\n2 99999999999999999999999999\n255\n", "too large"),
            (b"P6\n2 1\n65535\n123456123456", "greatest sample is 65535"),
            (b"P6\n2 1\n0\n123456", "greatest sample is 0"),
            (b"P6\n2 1\n255\n12345", "cut off: 2 by 1 pixels need 6 bytes, there are 5"),
            (b"P6\n2 1\n255\n", "there are 0"),
            (b"P6\n2 1\n255\n123456\n", "more after the picture's 6 bytes"),
        ] {
            let e = read_bytes(bytes).unwrap_err();
            assert!(e.contains(why), "{bytes:?}: {e}");
        }
    }

    /// Comments of 64 KiB less the rest of the header are read, and no byte more; an input without end is given up.
    #[test]
    fn a_header_has_an_end() {
        let rest = "P6\n#\n2 1 255\n".len();
        let long = |n: usize| with_body(&format!("P6\n#{}\n2 1 255\n", "c".repeat(n)));
        assert_eq!(read_bytes(&long(LONGEST_HEADER - rest)).map(|p| p.w), Ok(2));
        assert_eq!(read_bytes(&long(LONGEST_HEADER - rest + 1)), Err("the header has no end within 64 KiB".into()));
        for (endless, why) in [(b'c', "a comment in the header has no end within 64 KiB"), (b'\n', "the header has no end within 64 KiB")] {
            let e = read(&mut (&b"P6\n#"[..]).chain(io::repeat(endless))).unwrap_err().to_string();
            assert_eq!(e, why);
        }
    }

    #[test]
    fn a_broken_input_is_an_input_error() {
        struct Broken;
        impl Read for Broken {
            fn read(&mut self, _: &mut [u8]) -> io::Result<usize> {
                Err(io::Error::other("broken"))
            }
        }
        assert!(matches!(read(&mut Broken), Err(Error::Io(_))));
    }
}
