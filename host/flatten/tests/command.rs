//! The command as a user runs it.

mod common;
use common::*;
use std::fs;

/// What is said of the card of `small`.
fn said() -> String {
    let mut ws = flatten::Workspace::new(192, 192, FRAME.parse().unwrap()).unwrap();
    let r = ws.rectify(&card(FRAME.parse().unwrap())).unwrap();
    format!("flatten: score {:.1}, phase 0.000\n", r.score)
}

#[test]
fn a_card_comes_out_flat() {
    let out = flatten(&["--frame", FRAME], &small());
    assert_eq!((out.status.code(), text(&out.stderr)), (Some(0), said().as_str()));
    let flat = flatten::p6::read(&mut &out.stdout[..]).unwrap();
    assert_eq!((flat.w, flat.h), (192, 192));
    // The card is the capture: it was photographed straight, pixel for pixel, but for what the lens search moves.
    let seen = card(FRAME.parse().unwrap());
    let far = flat.data.iter().zip(&seen).filter(|(a, b)| a.abs_diff(**b) > 60).count();
    assert!(far * 10 < seen.len(), "{far} of {} bytes are far off", seen.len());
}

#[test]
fn files_and_the_report() {
    let folder = Folder::new("files");
    folder.put("in.ppm", small());
    let out = folder.sh("$F --frame 192,192,1,48 -o card.ppm --report report.json --overlay overlay.ppm in.ppm");
    assert_eq!((out.status.code(), text(&out.stdout), text(&out.stderr)), (Some(0), "", said().as_str()));
    assert_eq!(folder.names(), ["card.ppm", "in.ppm", "overlay.ppm", "report.json"]);
    assert_eq!(folder.get("card.ppm"), flatten(&["--frame", FRAME], &small()).stdout);
    let json = folder.text("report.json");
    let head = concat!(
        "{\"version\": \"",
        env!("CARGO_PKG_VERSION"),
        "\", \"file\": \"in.ppm\", \"sides\": [192, 192], \"frame\": [192, 192, 1, 48], \"refusal\": 0, \"score\": "
    );
    assert!(json.starts_with(head), "{json}");
    assert!(json.contains(", \"phase\": 0.0, \"doubtful\": false, \"patches\": "), "{json}");
    assert!(json.ends_with("\"trials\": 78, \"homographies\": 78, \"beyond\": 0}\n"), "{json}");
    assert_eq!(json.matches("\"place\": ").count(), 4);
    let drawn = flatten::p6::read(&mut &folder.get("overlay.ppm")[..]).unwrap();
    assert_eq!((drawn.w, drawn.h), (192, 192));
    assert_ne!(drawn.data, card(FRAME.parse().unwrap()));
}

#[test]
fn a_refusal_writes_no_card() {
    let folder = Folder::new("refusal");
    folder.put("card.ppm", "as it was");
    folder.put("in.ppm", p6(64, 64, &[255; 3 * 64 * 64]));
    let out = folder.sh("$F --frame 192,192,1,48 -o card.ppm --report report.json --overlay overlay.ppm < in.ppm");
    assert_eq!((out.status.code(), text(&out.stdout)), (Some(1), ""));
    assert!(text(&out.stderr).starts_with("refused 7: fewer than four rings were found; photograph again"), "{}", text(&out.stderr));
    assert_eq!(text(&out.stderr).lines().count(), 1);
    assert_eq!(folder.text("card.ppm"), "as it was");
    assert_eq!(folder.names(), ["card.ppm", "in.ppm", "overlay.ppm", "report.json"]);
    assert_eq!(
        folder.text("report.json").split_once("\"file\": ").unwrap().1,
        "null, \"sides\": [64, 64], \"frame\": [192, 192, 1, 48], \"refusal\": 7, \"score\": null, \"phase\": null, \
         \"doubtful\": null, \"patches\": 0, \"waited\": 0, \"candidates\": [], \"corners\": null, \"matrix\": null, \"k\": null, \
         \"cx\": null, \"cy\": null, \"norm\": null, \"grade\": null, \"trials\": null, \"homographies\": null, \
         \"beyond\": null}\n"
    );
}

#[test]
fn a_refusal_before_the_look_has_no_overlay() {
    let folder = Folder::new("early");
    let [report, overlay] = ["report.json", "overlay.ppm"].map(|n| folder.file(n));
    for (frame, w, number) in [("0,192,1,48", 64, 1), ("192,192,1,47", 64, 5), (FRAME, 31, 6)] {
        let args = ["--frame", frame, "--report", path(&report), "--overlay", path(&overlay)];
        let out = flatten(&args, &p6(w, 64, &vec![0; 3 * 64 * w]));
        assert_eq!(out.status.code(), Some(1));
        assert!(text(&out.stderr).starts_with(&format!("refused {number}: ")), "{}", text(&out.stderr));
        let json = fs::read_to_string(&report).unwrap();
        assert!(json.contains(&format!("\"refusal\": {number}, \"score\": null, ")) && json.contains("\"patches\": null, "), "{json}");
        assert_eq!(folder.names(), ["report.json"]);
    }
}

/// The card's file stays; report, page and overlay are written.
#[test]
fn too_few_cells_are_refused() {
    let (folder, frame) = (Folder::new("few"), "224,224,28,56");
    folder.put("card.ppm", "as it was");
    folder.put("in.ppm", p6(224, 224, &card(frame.parse().unwrap())));
    let out = folder.sh("$F --frame 224,224,28,56 -o card.ppm --report r --overlay o --page p in.ppm");
    assert_eq!((out.status.code(), text(&out.stdout)), (Some(1), ""));
    let lines: Vec<_> = text(&out.stderr).lines().collect();
    assert!(lines[0].starts_with("refused 16: the cells gave no score for the lens: fewer than 16 are sampled, "), "{lines:?}");
    assert_eq!(lines[1..], ["flatten: too few cells: 4 are sampled, 16 are needed"]);
    assert_eq!(folder.text("card.ppm"), "as it was");
    let json = folder.text("r");
    assert!(json.contains("\"refusal\": 16, \"score\": null, \"phase\": null, \"doubtful\": null, \"patches\": "), "{json}");
    assert!(json.contains("\"corners\": null, \"matrix\": null, \"k\": null, "), "{json}");
    assert!(json.ends_with("\"grade\": {\"too_few\": true}, \"trials\": 61, \"homographies\": 61, \"beyond\": null}\n"), "{json}");
    assert_eq!(folder.text("p").lines().count(), 4);
    assert_ne!(folder.get("o"), folder.get("in.ppm"));
}

/// By row, then column; the number counts all cells, of which the second card has eleven in a row.
#[test]
fn the_first_cell_outside_is_named_and_reported() {
    let folder = Folder::new("outside");
    for (frame, w, h, share, cell, place) in
        [("366,394,31,56", 183, 197, 1.04, 3, "row 0, column 3"), ("462,310,31,56", 231, 155, 1.07, 33, "row 3, column 0")]
    {
        let out = flatten(
            &["--frame", frame, "--report", path(&folder.file("r"))],
            &p6(w, h, &past_the_picture(frame.parse().unwrap(), w, h, share)),
        );
        assert_eq!((out.status.code(), text(&out.stdout)), (Some(1), ""));
        let mut lines = text(&out.stderr).lines();
        assert!(lines.next().unwrap().starts_with("refused 16: "), "{}", text(&out.stderr));
        let named = format!("flatten: cell {cell} is the first outside the picture ({place}, from 0)");
        assert_eq!((lines.next(), lines.next()), (Some(named.as_str()), None));
        assert!(folder.text("r").contains(&format!("{{\"outside\": {cell}}}")), "{}", folder.text("r"));
    }
}

#[test]
fn bad_pictures_and_bad_usage_are_status_2() {
    for (args, input, why) in [
        (&[][..], &b"P6\n2 2\n255\n123"[..], "flatten: standard input: the picture is cut off"),
        (&[], b"", "the input is empty"),
        (&[], b"P6\n5000 2\n255\n", "too large"),
        (&[], b"P6\r\n1 1\r\n255\r\n123", "the header's lines end in CR LF"),
        (&["--nonsense"], b"", "there is no option --nonsense"),
        (&["--frame", "1,2"], b"", "four numbers are wanted"),
        (&["no/such/file"], b"", "flatten: no/such/file: "),
    ] {
        let out = flatten(args, input);
        assert_eq!((out.status.code(), text(&out.stdout)), (Some(2), ""));
        assert!(text(&out.stderr).contains(why), "{args:?}: {}", text(&out.stderr));
        assert_eq!(text(&out.stderr).lines().count(), 1);
    }
}

/// Half a gigabyte of comment is not read.
#[test]
fn a_comment_without_end_is_given_up() {
    let folder = Folder::new("comment");
    let out = folder.sh("{ printf 'P6\\n#'; head -c 500000000 /dev/zero; } | $F -o card.ppm");
    assert_eq!(out.status.code(), Some(2));
    assert_eq!(text(&out.stderr), "flatten: standard input: a comment in the header has no end within 64 KiB\n");
}

#[test]
fn other_formats_are_told_how_to_be_converted() {
    let folder = Folder::new("formats");
    for (name, begin, command) in [
        ("photo.jpg", &b"\xff\xd8\xff\xe0"[..], "`convert photo.jpg -auto-orient ppm:- > photo.ppm`"),
        ("photo.jpg", b"\xff\xd8\xff\xe0", "`djpeg -pnm photo.jpg > photo.ppm`"),
        ("my photo.jpg", b"\xff\xd8\xff\xe1", "`djpeg -pnm 'my photo.jpg' > 'my photo.ppm'`"),
        ("photo.png", b"\x89PNG\r\n", "`convert photo.png -auto-orient -depth 8 ppm:- > photo.ppm`"),
        ("photo.png", b"\x89PNG\r\n", "`pngtopnm photo.png > photo.ppm`"),
        ("grey.pgm", b"P5\n1 1\n255\n1", "`convert grey.pgm -depth 8 ppm:- > grey.ppm`"),
        ("deep.ppm", b"P6\n1 1\n65535\n123456", "`convert deep.ppm -depth 8 ppm:- > deep.p6.ppm`"),
        // Not over what is there, itself above all.
        ("jpeg.ppm", b"\xff\xd8\xff\xe0", "`convert jpeg.ppm -auto-orient ppm:- > jpeg.p6.ppm`"),
        ("jpeg.jpg", b"\xff\xd8\xff\xe0", "`convert jpeg.jpg -auto-orient ppm:- > jpeg.p6.ppm`"),
        ("photo.bmp", b"BM", "`convert photo.bmp -auto-orient -depth 8 ppm:- > photo.ppm`"),
    ] {
        folder.put(name, begin);
        let out = folder.sh(&format!("$F -o card.ppm '{name}'"));
        assert_eq!(out.status.code(), Some(2));
        assert!(text(&out.stderr).contains(command), "{}", text(&out.stderr));
        assert!(!text(&out.stderr).contains("pnmtoppm"));
    }
    let out = flatten(&[], b"\xff\xd8\xff\xe0");
    assert!(text(&out.stderr).contains("`convert - -auto-orient ppm:- > photo.ppm`"), "{}", text(&out.stderr));
}

#[test]
fn help_and_version() {
    let out = flatten(&["--help"], b"");
    assert!(out.status.success() && text(&out.stdout).starts_with("usage: flatten [OPTIONS] [FILE]\n"));
    let out = flatten(&["--version"], b"");
    assert_eq!(text(&out.stdout), concat!("flatten ", env!("CARGO_PKG_VERSION"), "\n"));
}

/// The limits of the rule stand once, in `phase`; who prints them prints these.
#[test]
fn printed_limits_are_the_rules() {
    let (score, phase) = (flatten::phase::SCORE_LIMIT, flatten::phase::PHASE_LIMIT);
    let help = flatten(&["--help"], b"").stdout;
    assert!(
        text(&help).contains(&format!("score is below {score} and its phase")) && text(&help).contains(&format!("above {phase} of a cell"))
    );
    let readme = fs::read_to_string(concat!(env!("CARGO_MANIFEST_DIR"), "/../../README.md")).unwrap();
    assert!(readme.contains(&format!("a score below {score} and a phase above {phase} is **doubtful**")));
}
