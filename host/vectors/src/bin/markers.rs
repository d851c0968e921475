// Vectors of crates/test_markers: the records that it reads, and the lines that it is to print, by
// the original. Refusals 1 and 2 are the port's limits, which the original lacks; 5 is where the
// original says None or false. In this folder:
//     cargo run --release --offline --bin markers
// writes stdin and stdout of ../../crates/test_markers.
use lpcore::frame::FrameSpec;
use lpcore::geometry::{
    frame_spec, margin_for, marker_centers, marker_size, quiet_zone, stamp_fiducials, MARKER_MAX_PX, MARKER_MIN_PX, MARKER_UNITS,
};
use lpcore::image::RgbImage;
use lpcore::palette::{BLACK, WHITE};
use std::fmt::Write as _;

const MOST: usize = 4096;

struct Out {
    records: Vec<u8>,
    lines: String,
}

fn side(n: usize) -> bool {
    (1..=MOST).contains(&n)
}

fn held(f: &FrameSpec) -> bool {
    side(f.width) && side(f.height) && (1..=512).contains(&f.cell) && f.margin <= MOST
}

impl Out {
    // kind, picture's w, h and length, frame, row to print
    fn record(&mut self, words: [usize; 9]) {
        for w in words {
            self.records.extend_from_slice(&(w as u64).to_le_bytes());
        }
    }

    fn constants(&mut self) {
        self.record([5, 0, 0, 0, 0, 0, 0, 0, 0]);
        write!(self.lines, "{} {} {} {}", FrameSpec::CALIB_ROWS, FrameSpec::HEADER_ROWS, MARKER_MIN_PX, MARKER_MAX_PX).unwrap();
        for c in BLACK.into_iter().chain(WHITE) {
            write!(self.lines, " {c}").unwrap();
        }
        writeln!(self.lines, "\n{:016x}", MARKER_UNITS.to_bits()).unwrap();
    }

    fn sizes(&mut self, cell: usize) {
        self.record([0, 0, 0, 0, 0, 0, cell, 0, 0]);
        if (1..=512).contains(&cell) {
            writeln!(self.lines, "{} {} {}", marker_size(cell), quiet_zone(cell), margin_for(cell)).unwrap();
        } else {
            writeln!(self.lines, "refused 1 refused 1 refused 1").unwrap();
        }
    }

    fn made(&mut self, width: usize, height: usize, cell: usize) {
        self.record([1, 0, 0, 0, width, height, cell, 0, 0]);
        let ok = side(width) && side(height) && (1..=512).contains(&cell);
        for wide in [false, true] {
            let sep = if wide { "\n" } else { " " };
            if ok {
                let f = if wide { frame_spec(width, height, cell) } else { FrameSpec::new(width, height, cell) };
                write!(self.lines, "{} {} {} {}{sep}", f.width, f.height, f.cell, f.margin).unwrap();
            } else {
                write!(self.lines, "refused 1{sep}").unwrap();
            }
        }
    }

    fn grid(&mut self, f: FrameSpec) {
        self.record([2, 0, 0, 0, f.width, f.height, f.cell, f.margin, 0]);
        if held(&f) {
            writeln!(self.lines, "{} {}", f.cols(), f.rows()).unwrap();
        } else {
            writeln!(self.lines, "refused 1 refused 1").unwrap();
        }
    }

    fn centers(&mut self, f: FrameSpec) {
        self.record([3, 0, 0, 0, f.width, f.height, f.cell, f.margin, 0]);
        if !held(&f) {
            return writeln!(self.lines, "refused 1").unwrap();
        }
        match marker_centers(&f) {
            None => writeln!(self.lines, "refused 5").unwrap(),
            Some(q) => {
                for p in q {
                    writeln!(self.lines, "{:016x}", p[0].to_bits()).unwrap();
                    writeln!(self.lines, "{:016x}", p[1].to_bits()).unwrap();
                }
            }
        }
    }

    // A picture whose byte i is (i % 251) * 31 + 7 modulo 251, stamped; then a checksum over its
    // bytes and row y of it: # dark, . light, + neither.
    fn stamp(&mut self, w: usize, h: usize, len: usize, f: FrameSpec, y: usize) {
        self.record([4, w, h, len, f.width, f.height, f.cell, f.margin, y]);
        let mut img = RgbImage { w, h, data: (0..len).map(|i| ((i % 251 * 31 + 7) % 251) as u8).collect() };
        let said = if !held(&f) {
            "refused 1"
        } else if !(side(w) && side(h) && len == 3 * w * h) {
            "refused 2"
        } else if stamp_fiducials(&mut img, &f) {
            "accepted"
        } else {
            "refused 5"
        };
        let sum = img.data.iter().fold(0u64, |s, b| (s * 257 + *b as u64 + 1) % 4294967291);
        writeln!(self.lines, "{said} {sum}").unwrap();
        if y < MOST && said == "accepted" {
            for x in 0..w {
                let p = img.px(x, y);
                self.lines.push(match p {
                    [0, 0, 0] => '#',
                    [255, 255, 255] => '.',
                    _ => '+',
                });
            }
            self.lines.push('\n');
        }
    }
}

fn frame(width: usize, height: usize, cell: usize, margin: usize) -> FrameSpec {
    FrameSpec { width, height, cell, margin }
}

// Frames at each limit and one past it.
fn limits() -> Vec<FrameSpec> {
    let mut v = vec![];
    for width in [0, 1, MOST, MOST + 1] {
        v.push(frame(width, 500, 9, 96));
    }
    for height in [0, 1, MOST, MOST + 1] {
        v.push(frame(500, height, 9, 96));
    }
    for cell in [0, 1, 512, 513, usize::MAX] {
        v.push(frame(848, 636, cell, 128));
    }
    for margin in [0, MOST, MOST + 1, usize::MAX] {
        v.push(frame(848, 636, 10, margin));
    }
    v.push(frame(MOST, MOST, 512, 1024));
    v.push(frame(MOST, MOST, 1, 1025));
    v.push(frame(usize::MAX, usize::MAX, usize::MAX, usize::MAX));
    v
}

fn main() {
    let mut out = Out { records: vec![], lines: String::new() };
    out.constants();
    for cell in (0..=513).chain([usize::MAX]) {
        out.sizes(cell);
    }
    for (width, height, cell) in [
        (848, 636, 10),
        (0, 1, 1),
        (1, 0, 1),
        (1, 1, 0),
        (1, 1, 1),
        (MOST, MOST, 512),
        (MOST + 1, 1, 1),
        (1, MOST + 1, 1),
        (1, 1, 513),
        (1, 1, usize::MAX),
    ] {
        out.made(width, height, cell);
    }
    let bench = frame(848, 636, 10, 106);
    let card = frame(192, 192, 1, 48);
    // M4 to M6, a side one below four margins, markers of side 24 and 23, and no room for the quiet zone.
    let laid = [
        bench,
        card,
        frame(192, 192, 1, 47),
        frame(191, 192, 1, 48),
        frame(192, 191, 1, 48),
        frame(848, 636, 13, 56),
        frame(848, 636, 13, 55),
        frame(848, 636, 13, 31),
        frame(424, 424, 10, 106),
        frame(423, 424, 10, 106),
        frame(196, 197, 1, 49),
        // 1 goes before 5
        frame(191, 192, 0, 4097),
    ];
    for f in laid.into_iter().chain(limits()) {
        out.grid(f);
        out.centers(f);
    }
    for f in [frame(100, 100, 10, 50), frame(100, 100, 10, 51), frame(101, 121, 10, 50), frame(100, 99, 7, 3)] {
        out.grid(f);
    }
    let none = MOST;
    let full = |w: usize, h: usize| 3 * w * h;
    for y in [0, 12, 16, 20, 24, 36, 47, 48, 180] {
        out.stamp(192, 192, full(192, 192), card, y);
    }
    // Units that are no whole numbers of pixels, pictures larger and smaller than the frame.
    for margin in 49..=53 {
        let f = frame(4 * margin, 4 * margin + 3, 1, margin);
        out.stamp(200, 220, full(200, 220), f, 20);
        out.stamp(4 * margin, 180, full(4 * margin, 180), f, 175);
    }
    out.stamp(200, 220, full(200, 220), bench, 13);
    out.stamp(1, 1, 3, bench, 0);
    out.stamp(7, 3, 63, frame(MOST, MOST, 512, 1024), 2);
    out.stamp(MOST, 3, full(MOST, 3), card, none);
    out.stamp(3, MOST, full(3, MOST), card, none);
    // Refusals: 1 before 2 before 5, and each limit of the picture.
    for f in [card, frame(191, 192, 1, 48), frame(191, 192, 0, 48)] {
        for (w, h, len) in [
            (20, 20, 1200),
            (20, 20, 1199),
            (20, 20, 1201),
            (0, 20, 0),
            (20, 0, 0),
            (MOST + 1, 1, 12291),
            (1, MOST + 1, 12291),
            (20, 20, 0),
        ] {
            out.stamp(w, h, len, f, none);
        }
    }
    for f in limits() {
        out.stamp(30, 40, 3600, f, none);
    }
    vectors::write("test_markers", &out.records, &out.lines);
}
