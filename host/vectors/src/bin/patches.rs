//! Inputs and outputs of the programs `patches` and `test_patches`. In host/vectors, after host/oracle/prepare:
//!   CARGO_TARGET_DIR=../target cargo run --release --offline --bin patches
//! writes crates/patches/{stdin,stdout} and crates/test_patches/{args,data/,stdout}. Patch lists are those of the original's
//! `label_blobs`, with the outlines of `vectors::patches`; what is refused, and the layout of the text, are those of
//! docs/REQUIREMENTS.md, 7 and 24.

use std::fs;
use vectors::masks::{comb_down, comb_up, mask, mixed, rows, spiral, Mask};
use vectors::patches::{line, records};

const REFUSED: &str = "refused 2\n";

fn text(m: &Mask) -> Vec<u8> {
    let mut t = Vec::new();
    for y in 0..m.h {
        for x in 0..m.w {
            t.push(if m.dark[y * m.w + x] { b'#' } else { b'.' });
        }
        t.push(b'\n');
    }
    t
}

/// What the program prints for an accepted mask.
fn listing(m: &Mask) -> String {
    let records = records(&m.dark, m.w, m.h);
    let head = format!("{} {} {}\n", m.w, m.h, records.len());
    records.iter().fold(head, |text, r| text + &line(r))
}

/// An input of `test_patches`, by the name of its file, and what is printed for it.
struct Case {
    name: &'static str,
    text: Vec<u8>,
    printed: String,
}

fn accepted() -> Vec<(&'static str, Mask)> {
    vec![
        ("m7", rows(&["#.#", ".#.", "##."])),
        ("m8", rows(&["#.#", "#.#", "###"])),
        ("one_dark", rows(&["#"])),
        ("one_light", rows(&["."])),
        ("one_row", rows(&["##.."])),
        ("one_column", rows(&["#", ".", "#"])),
        // joins of U shapes, upside down and on their sides; nested; a row's end and the next row's start
        ("u_upside_down", rows(&["###", "#.#", "#.#"])),
        ("u_open_right", rows(&["###", "#..", "###"])),
        ("u_open_left", rows(&["###", "..#", "###"])),
        ("u_nested", rows(&["#.#.#", "#.#.#", "#.#.#", "#...#", "#####"])),
        ("row_end", rows(&["..#", "#.."])),
        ("row_end_two", rows(&["...##", "##..."])),
        // holes, whose sides count too: a light one, one with a dark pixel inside, two in one patch
        ("ring", rows(&["###", "#.#", "###"])),
        ("ring_around_dark", rows(&["#####", "#...#", "#.#.#", "#...#", "#####"])),
        ("ring_of_two_holes", rows(&[".......", ".#####.", ".#.#.#.", ".#####."])),
        // the largest
        ("full", mask(64, 64, |_, _| true)),
        ("light", mask(64, 64, |_, _| false)),
        ("checkerboard", mask(64, 64, |x, y| (x + y) % 2 == 0)),
        ("spiral", spiral(64)),
        ("comb_up", comb_up(64, 64)),
        ("comb_down", comb_down(64, 3)),
        ("row_64", mask(64, 1, |x, _| x % 3 != 0)),
        ("column_64", mask(1, 64, |_, y| y % 3 != 0)),
        ("full_row_64", mask(64, 1, |_, _| true)),
        ("full_column_64", mask(1, 64, |_, _| true)),
        ("mixed_17_11", mixed(17, 11, 4, 1)),
        ("mixed_31_20", mixed(31, 20, 5, 2)),
    ]
}

fn refused() -> Vec<(&'static str, Vec<u8>)> {
    let full = text(&mask(64, 64, |_, _| true));
    let mut short = full.clone();
    short.truncate(4158);
    vec![
        ("nothing", vec![]),
        ("line_feed", b"\n".to_vec()),
        ("line_feeds", b"\n\n".to_vec()),
        ("empty_last_line", b"#\n\n".to_vec()),
        ("empty_first_line", b"\n#\n".to_vec()),
        ("empty_line_between", b"#\n\n#\n".to_vec()),
        ("short_line", b"#.#\n.#\n##.\n".to_vec()),
        ("long_line", b"#.#\n.#.#\n##.\n".to_vec()),
        ("short_last_line", b"#.#\n.#.\n##".to_vec()),
        ("carriage_returns", b"#.#\r\n.#.\r\n##.\r\n".to_vec()),
        ("last_carriage_return", b"#.#\n.#.\n##.\r".to_vec()),
        ("zero_in_line", b"#.#\n.\0.\n##.\n".to_vec()),
        ("zero_for_line_feed", b"#.#\n.#.\n##.\0".to_vec()),
        ("zero_at_end", b"#.#\n.#.\n##.\n\0".to_vec()),
        ("other_letter", b"#.x\n".to_vec()),
        ("blank_first", b" #.\n".to_vec()),
        ("blank_between", b"# .\n".to_vec()),
        ("wide_65", text(&mask(65, 1, |_, _| true))),
        ("wide_65_unended", vec![b'#'; 65]),
        ("wide_65_high_64", text(&mask(65, 64, |_, _| true))),
        ("wide_10000", vec![b'#'; 10000]),
        ("high_65", text(&mask(1, 65, |_, _| true))),
        ("high_65_unended", [b"#\n".repeat(64), b"#".to_vec()].concat()),
        ("full_but_one", short),
        // past the largest mask: cut after its 4,160 bytes each of these would be accepted
        ("full_and_letter", [full.clone(), b"#".to_vec()].concat()),
        ("full_and_line_feed", [full.clone(), b"\n".to_vec()].concat()),
        ("full_and_two_letters", [full.clone(), b"#.".to_vec()].concat()),
        ("full_and_line", text(&mask(64, 65, |_, _| true))),
    ]
}

fn cases() -> Vec<Case> {
    let masks = accepted();
    let mut cases: Vec<Case> = masks.iter().map(|(name, m)| Case { name, text: text(m), printed: listing(m) }).collect();
    // the last line feed may lack
    let unended = [
        ("m7", "m7_unended"),
        ("one_dark", "one_dark_unended"),
        ("u_upside_down", "u_unended"),
        ("comb_down", "comb_unended"),
        ("full", "full_unended"),
    ];
    for (of, name) in unended {
        let (_, m) = masks.iter().find(|(n, _)| *n == of).unwrap();
        let mut t = text(m);
        t.pop();
        cases.push(Case { name, text: t, printed: listing(m) });
    }
    for (name, text) in refused() {
        cases.push(Case { name, text, printed: REFUSED.to_string() });
    }
    cases
}

fn main() {
    // the program itself: the largest mask without its last line feed, dark on a diagonal
    let diagonal = mask(64, 64, |x, y| x == y);
    let mut t = text(&diagonal);
    t.pop();
    vectors::write("patches", &t, &listing(&diagonal));

    let cases = cases();
    let there = vectors::place("test_patches");
    let _ = fs::remove_dir_all(format!("{there}/data"));
    fs::create_dir(format!("{there}/data")).unwrap();
    let (mut args, mut printed) = (String::new(), String::new());
    for c in &cases {
        fs::write(format!("{there}/data/{}", c.name), &c.text).unwrap();
        args += &format!("{}\n", c.name);
        printed += &c.printed;
    }
    fs::write(format!("{there}/args"), args).unwrap();
    fs::write(format!("{there}/stdout"), &printed).unwrap();
    println!("{} inputs; {} bytes of output", cases.len(), printed.len());
}
