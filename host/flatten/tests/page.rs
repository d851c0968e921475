//! The candidate page: the library's, the wrapper's and the command's.

mod common;
use common::*;
use flatten::p6::Picture;
use flatten::{ffi, Candidate, Responsible, Workspace};

/// Two candidates, centre x, centre y, score, size each, and a third that is none.
const LIST: [f64; 12] = [12.345, 100.0, 0.9406, 24.5, 0.125, 1.115, 0.8125, -0.0, f64::NAN, -1.0, f64::INFINITY, 1e300];
const PAGE: &str = "   1    12.35   100.00   24.50 0.941\n   2     0.13     1.11    0.00 0.813\n";

#[test]
fn lines_of_the_library() {
    let mut page = [b'x'; 80];
    assert_eq!(ffi::candidate_page(&LIST, 2, &mut page), 0);
    assert_eq!((text(&page[..74]), &page[74..]), (PAGE, &[b'x'; 6][..]));
    let mut exact = [b'x'; 74];
    assert_eq!((ffi::candidate_page(&LIST[..8], 2, &mut exact), text(&exact)), (0, PAGE));
    assert_eq!(ffi::candidate_page(&[], 0, &mut []), 0);
    // What is too wide is told once it is rounded: both are just below the half.
    let mut widest = [b'x'; 37];
    assert_eq!(ffi::candidate_page(&[99999.995, 99999.99, 9.9995, 9999.99], 1, &mut widest), 0);
    assert_eq!(text(&widest), "   1 99999.99 99999.99 9999.99 9.999\n");
}

#[test]
fn a_refusal_of_the_library_leaves_the_page() {
    // 9999.995 is just above the half.
    let wide = [12.345, 100.0, 0.9406, 24.5, 1.0, 1.0, 1.0, 9999.995];
    let many = vec![1.0; 40_000];
    for (list, count, length, number) in [
        (&LIST[..11], 3, 110, 3),
        (&LIST, 3, 110, 12),
        (&LIST, 3, 111, 13),
        (&wide, 2, 74, 13),
        (&many[1..], 10_000, 369_999, 3),
        (&many, 10_000, 369_999, 12),
        (&many, 10_000, 370_000, 13),
        // Four times as many are 0 modulo 2^64.
        (&LIST, 1 << 62, 111, 3),
    ] {
        let mut page = vec![b'x'; length];
        assert_eq!(ffi::candidate_page(list, count, &mut page), number, "{count}, {length}");
        assert!(page.iter().all(|&b| b == b'x'), "{count}, {length}");
    }
}

/// The exact amount of x, nearest, halves upward, in `width` columns: by all its decimals, of which a float has at most 1,074.
fn field(x: f64, width: usize, places: usize) -> String {
    let exact = format!("{x:.1100}");
    let (whole, decimals) = exact.split_once('.').unwrap();
    let (kept, rest) = decimals.split_at(places);
    let units = format!("{whole}{kept}").parse::<u64>().unwrap() + u64::from(rest.as_bytes()[0] >= b'5');
    let one = 10u64.pow(places as u32);
    format!("{:>width$}", format!("{}.{:0places$}", units / one, units % one))
}

/// The page of what the last look found.
fn wanted(ws: &Workspace) -> String {
    let line = |(i, c): (usize, Candidate)| {
        format!("{:4} {} {} {} {}\n", i + 1, field(c.x, 8, 2), field(c.y, 8, 2), field(c.size, 7, 2), field(c.score, 5, 3))
    };
    ws.candidates().enumerate().map(line).collect()
}

fn page(ws: &Workspace) -> String {
    String::from_utf8(ws.page().unwrap()).unwrap()
}

/// A white picture of fields of 18 by 18 pixels, with a ring in those that have one.
fn rings(across: usize, down: usize, there: impl Fn(usize, usize) -> bool) -> Picture {
    let (w, h) = (18 * across, 18 * down);
    let from_middle = |n: usize| if n % 18 < 9 { 8 - n % 18 } else { n % 18 - 9 };
    let dark = |x: usize, y: usize| there(x / 18, y / 18) && matches!(from_middle(x).max(from_middle(y)) / 2, 0 | 2);
    Picture { w, h, data: (0..w * h).flat_map(|i| [if dark(i % w, i / w) { 0 } else { 255 }; 3]).collect() }
}

fn workspace(p: &Picture) -> Workspace {
    Workspace::new(p.w, p.h, FRAME.parse().unwrap()).unwrap()
}

#[test]
fn a_line_for_each_candidate() {
    for (p, frame, least) in [(bench(), "848,636,10,106", 4), (rings(13, 8, |_, _| true), FRAME, 104)] {
        let mut ws = Workspace::new(p.w, p.h, frame.parse().unwrap()).unwrap();
        ws.rectify(&p.data).unwrap();
        let (page, count) = (page(&ws), ws.candidates().len());
        assert!(count >= least && page.len() == 37 * count, "{count}");
        assert_eq!(page, wanted(&ws));
        for (i, line) in page.lines().enumerate() {
            assert_eq!((line.len(), line[..4].trim_start().parse()), (36, Ok(i + 1)));
        }
    }
}

#[test]
fn the_page_is_that_of_the_last_look() {
    let p = rings(8, 6, |x, y| x % 7 == 0 && y % 5 == 0);
    let mut ws = workspace(&p);
    assert_eq!(page(&ws), "");
    let fit = ws.rectify(&p.data).unwrap().fit;
    let four = page(&ws);
    assert_eq!((four.lines().count(), &four), (4, &wanted(&ws)));
    // Nothing is looked for.
    ws.warp_with(&p.data, &fit).unwrap();
    assert_eq!(page(&ws), four);
    // A refusal without a look, a look at nothing, a mask.
    assert_eq!(ws.rectify(&[0; 10]).unwrap_err().number(), 2);
    assert_eq!(page(&ws), "");
    ws.rectify(&p.data).unwrap();
    assert_eq!(ws.rectify(&vec![255; p.data.len()]).unwrap_err().number(), 7);
    assert_eq!(page(&ws), "");
    ws.rectify(&p.data).unwrap();
    ws.label_blobs(&vec![1; p.w * p.h]).unwrap();
    assert_eq!(page(&ws), "");
    // A refusal after a look.
    assert_eq!(ws.rectify(&rings(8, 6, |x, y| y == 2 && x > 4).data).unwrap_err().number(), 7);
    assert_eq!((page(&ws).lines().count(), page(&ws)), (3, wanted(&ws)));
}

/// On acceptance and on a refusal by 7 to 10 (no picture is known that is refused by 10), and else not.
#[test]
fn the_file_is_written_where_the_overlay_is() {
    let folder = Folder::new("page");
    for (p, number, lines) in [
        (rings(8, 6, |x, y| x % 7 == 0 && y % 5 == 0), 0, 4),
        (rings(8, 6, |_, _| false), 7, 0),
        (rings(8, 6, |x, y| y == 2 && x > 4), 7, 3),
        (rings(8, 6, |x, y| x == y), 8, 6),
        (rings(30, 30, |x, y| x / 2 == 7 && y / 2 == 7), 9, 4),
    ] {
        folder.put("in.ppm", p6(p.w, p.h, &p.data));
        for page in ["new.txt", "old.txt"] {
            folder.put("old.txt", "as it was");
            let out = folder.sh(&format!("$F --frame {FRAME} -o card.ppm --overlay v.ppm --page {page} in.ppm"));
            assert_eq!(out.status.code(), Some(i32::from(number != 0)), "{number}: {}", text(&out.stderr));
            assert!(number == 0 || text(&out.stderr).starts_with(&format!("refused {number}: ")), "{number}: {}", text(&out.stderr));
            let mut ws = workspace(&p);
            assert_eq!(ws.rectify(&p.data).err().map_or(0, |r| r.number()), number);
            assert_eq!((folder.text(page), ws.candidates().len()), (wanted(&ws), lines), "{number}");
        }
        std::fs::remove_file(folder.file("new.txt")).unwrap();
        std::fs::remove_file(folder.file("v.ppm")).unwrap();
    }
    folder.put("card.ppm", "as it was");
    for (frame, w, status) in [("0,192,1,48", 64, 1), ("192,192,1,47", 64, 1), (FRAME, 31, 1), (FRAME, 4097, 2)] {
        folder.put("in.ppm", p6(w, 64, &vec![0; 3 * 64 * w]));
        folder.put("old.txt", "as it was");
        for page in ["new.txt", "old.txt"] {
            let out = folder.sh(&format!("$F --frame {frame} -o card.ppm --overlay v.ppm --page {page} in.ppm"));
            assert_eq!(out.status.code(), Some(status), "{}", text(&out.stderr));
            assert_eq!(folder.names(), ["card.ppm", "in.ppm", "old.txt"]);
            assert_eq!(folder.text("old.txt"), "as it was");
        }
    }
}

/// A page has ranks for 9,999. The page is an error then, and the rest as without it.
#[test]
fn more_candidates_than_ranks() {
    let folder = Folder::new("ranks");
    let line = "$F --frame 192,192,1,48 -o card.ppm --report r.json --overlay v.ppm --page p.txt in.ppm";
    let p = rings(100, 100, |_, _| true);
    let mut ws = workspace(&p);
    ws.rectify(&p.data).unwrap();
    assert_eq!(ws.candidates().len(), 10_000);
    let refusal = ws.page().unwrap_err();
    assert_eq!((refusal.number(), refusal.responsible(), refusal.looked()), (13, Responsible::Points, false));
    folder.put("in.ppm", p6(p.w, p.h, &p.data));
    folder.put("p.txt", "as it was");
    let out = folder.sh(line);
    assert_eq!(out.status.code(), Some(2));
    assert!(text(&out.stderr).starts_with(&format!("flatten: p.txt: {refusal}\nflatten: score ")), "{}", text(&out.stderr));
    assert_eq!(folder.text("p.txt"), "as it was");
    assert_eq!(folder.get("card.ppm"), p6(192, 192, ws.canonical()));
    assert_eq!(folder.names(), ["card.ppm", "in.ppm", "p.txt", "r.json", "v.ppm"]);

    let p = rings(100, 100, |x, y| (x, y) != (50, 50));
    ws.rectify(&p.data).unwrap();
    folder.put("in.ppm", p6(p.w, p.h, &p.data));
    assert_eq!(folder.sh(line).status.code(), Some(0));
    assert!(folder.text("p.txt") == wanted(&ws) && folder.text("p.txt").lines().count() == 9_999);
}
