//! What the command writes, and that it loses nothing.

mod common;
use common::*;
use std::ffi::OsStr;
use std::fs::{self, Permissions};
use std::os::fd::OwnedFd;
use std::os::unix::ffi::OsStrExt;
use std::os::unix::fs::{chown, symlink, MetadataExt, PermissionsExt};
use std::os::unix::net::UnixStream;
use std::process::{Command, Output, Stdio};

/// A folder with the photograph `a.ppm`.
fn with_photograph(name: &str) -> Folder {
    let folder = Folder::new(name);
    folder.put("a.ppm", small());
    folder
}

fn said(out: &Output, status: i32, why: &str) {
    let stderr = String::from_utf8_lossy(&out.stderr);
    assert_eq!(out.status.code(), Some(status), "{stderr}");
    assert!(stderr.contains(why), "{stderr}");
}

/// Something to write to whose other end is closed.
fn unread() -> Stdio {
    OwnedFd::from(UnixStream::pair().unwrap().0).into()
}

/// By each name of the photograph's file, for each output: an error before the photograph is read, which is none here.
#[test]
fn no_output_is_the_photograph() {
    let folder = Folder::new("same");
    folder.put("a.ppm", "no picture");
    symlink("a.ppm", folder.file("link.ppm")).unwrap();
    symlink("link.ppm", folder.file("link of link.ppm")).unwrap();
    fs::hard_link(folder.file("a.ppm"), folder.file("hard.ppm")).unwrap();
    fs::create_dir(folder.file("sub")).unwrap();
    for name in ["a.ppm", "./a.ppm", "sub/../a.ppm", "link.ppm", "link of link.ppm", "hard.ppm"] {
        for (option, what) in [("-o", "the card"), ("--report", "the report"), ("--overlay", "the overlay"), ("--page", "the page")] {
            for input in ["a.ppm", "link.ppm", "< a.ppm"] {
                let out = folder.sh(&format!("$F -o other.ppm {option} '{name}' {input}").replace("-o other.ppm -o", "-o"));
                said(&out, 2, &format!("flatten: {name} would be {what} and is the photograph: they need a file each\n"));
                assert_eq!((folder.text("a.ppm"), out.stdout.len()), ("no picture".into(), 0));
            }
        }
    }
    said(&folder.sh("$F a.ppm 1<> a.ppm"), 2, "standard output would be the card and is the photograph");
    said(&folder.sh("$F -o c.ppm a.ppm 2>> a.ppm; echo $? >&2"), 0, "2\n");
    assert!(folder.text("a.ppm").starts_with("no pictureflatten: standard error goes to the same file as the photograph"));
}

#[test]
fn no_output_is_another_output() {
    let folder = Folder::new("another");
    folder.put("in.ppm", "no picture");
    folder.put("old", "as it was");
    fs::hard_link(folder.file("old"), folder.file("hard")).unwrap();
    symlink("new", folder.file("link to new")).unwrap();
    fs::create_dir(folder.file("sub")).unwrap();
    for (args, why) in [
        ("-o old --report ./old in.ppm", "./old would be the report and is the card"),
        ("-o old --overlay hard in.ppm", "hard would be the overlay and is the card"),
        ("--report hard --overlay old -o c in.ppm", "old would be the overlay and is the report"),
        ("--page hard -o old in.ppm", "hard would be the page and is the card"),
        ("--page hard --report old -o c in.ppm", "hard would be the page and is the report"),
        ("--page hard --overlay old -o c in.ppm", "hard would be the page and is the overlay"),
        // Not there yet, none of them.
        ("-o new --report new in.ppm", "new would be the report and is the card"),
        ("-o new --report sub/../new in.ppm", "sub/../new would be the report and is the card"),
        ("-o new --overlay 'link to new' in.ppm", "link to new would be the overlay and is the card"),
        ("--overlay new --page 'link to new' in.ppm", "link to new would be the page and is the overlay"),
        ("--report old in.ppm >> old", "old would be the report and is the card"),
        ("--page old in.ppm >> old", "old would be the page and is the card"),
        ("in.ppm >> old 2>&1; echo 2 >&2", ""),
    ] {
        let out = folder.sh(&format!("$F {args}"));
        assert!(out.status.code() == Some(2) || args.contains("echo"));
        assert!(text(&out.stderr).contains(why), "{args}: {}", text(&out.stderr));
    }
    assert_eq!(folder.text("old"), "as it wasflatten: standard error goes to the same file as the card: they need a file each\n");
    assert_eq!(folder.names(), ["hard", "in.ppm", "link to new", "old", "sub"]);
    // A device keeps nothing: it may be named twice.
    folder.put("a.ppm", small());
    said(&folder.sh("$F --frame 192,192,1,48 -o /dev/null --report /dev/null a.ppm"), 0, "score");
}

#[test]
fn a_card_that_can_be_written_is_written() {
    let folder = with_photograph("full");
    let whole = flatten(&["--frame", FRAME], &small()).stdout;
    // Standard error is full: the card is there, and the status says that something could not be written.
    let out = folder.sh("$F --frame 192,192,1,48 -o c1.ppm a.ppm 2> /dev/full");
    assert_eq!((out.status.code(), folder.get("c1.ppm")), (Some(2), whole.clone()));
    let out = folder.sh("$F --frame 192,192,1,48 a.ppm 2> /dev/full");
    assert_eq!((out.status.code(), out.stdout), (Some(2), whole.clone()));
    // So it is where nobody reads it any more, and where it is closed.
    let out = Command::new(FLATTEN).args(["--frame", FRAME, "-o", "c2.ppm", "a.ppm"]).current_dir(folder.path()).stderr(unread()).status();
    assert_eq!((out.unwrap().code(), folder.get("c2.ppm")), (Some(2), whole.clone()));
    let out = folder.sh("$F --frame 192,192,1,48 -o c3.ppm a.ppm 2>&-");
    assert_eq!((out.status.code(), folder.get("c3.ppm")), (Some(0), whole.clone()));
    // A report that cannot be written does not keep the card back.
    let out = folder.sh("$F --frame 192,192,1,48 -o c4.ppm --report /dev/full --overlay /dev/full a.ppm");
    said(&out, 2, "flatten: /dev/full: No space left on device");
    assert_eq!(folder.get("c4.ppm"), whole);
    let out = folder.sh("$F --frame 192,192,1,48 -o c5.ppm --page /dev/full a.ppm");
    said(&out, 2, "flatten: /dev/full: No space left on device");
    assert_eq!(folder.get("c5.ppm"), whole);
    // A refusal and bad usage keep their status.
    folder.put("white.ppm", p6(64, 64, &[255; 3 * 64 * 64]));
    assert_eq!(folder.sh("$F white.ppm 2> /dev/full").status.code(), Some(1));
    assert_eq!(folder.sh("$F --nonsense 2> /dev/full").status.code(), Some(2));
}

#[test]
fn a_lost_standard_output_is_status_2() {
    let folder = with_photograph("closed");
    for args in ["--frame 192,192,1,48 a.ppm", "--help", "--version"] {
        said(&folder.sh(&format!("$F {args} > /dev/full")), 2, "flatten: standard output: No space left on device");
        said(&folder.sh(&format!("$F {args} >&-")), 2, "flatten: standard output is closed\n");
    }
    // Closed or not, it is not needed where the card has a file; /dev/null is not closed.
    said(&folder.sh("$F --frame 192,192,1,48 -o c.ppm a.ppm >&-"), 0, "score");
    said(&folder.sh("$F --frame 192,192,1,48 a.ppm > /dev/null"), 0, "score");
    said(&folder.sh("$F --frame 192,192,1,48 a.ppm 1<> /dev/null"), 0, "score");
    assert_eq!(folder.get("c.ppm").len(), 15 + 3 * 192 * 192);
    let out = Command::new(FLATTEN).args(["--frame", FRAME, path(&folder.file("a.ppm"))]).stdout(unread()).output().unwrap();
    said(&out, 2, "flatten: standard output: Broken pipe");
}

#[test]
fn what_cannot_be_written_is_status_2() {
    let folder = with_photograph("nowhere");
    for (path, why) in [("no/such/folder/card.ppm", "No such file or directory"), (".", "Is a directory"), ("a.ppm/c", "Not a directory")] {
        said(&folder.sh(&format!("$F --frame 192,192,1,48 -o {path} a.ppm")), 2, &format!("flatten: {path}: {why}"));
    }
    assert_eq!((folder.names(), folder.get("a.ppm")), (vec!["a.ppm".to_string()], small()));
}

#[test]
fn a_device_is_written_straight() {
    let out = flatten(&["--frame", FRAME, "-o", "/dev/null"], &small());
    assert_eq!(out.status.code(), Some(0));
    assert!(!fs::metadata("/dev/null").unwrap().is_file());
    let folder = with_photograph("pipe");
    let out = folder.sh("$F --frame 192,192,1,48 -o /dev/stdout a.ppm");
    assert_eq!((out.status.code(), out.stdout), (Some(0), flatten(&["--frame", FRAME], &small()).stdout));
    let out = folder.sh("mkfifo p; cat p > read & $F --frame 192,192,1,48 -o p a.ppm; wait");
    assert_eq!((out.status.code(), folder.get("read")), (Some(0), flatten(&["--frame", FRAME], &small()).stdout));
}

/// All four outputs, over files that are there.
fn overwrite(folder: &Folder) -> Output {
    folder.sh("$F --frame 192,192,1,48 -o c --report r --overlay v --page p a.ppm")
}

#[test]
fn overwriting_keeps_mode_and_owner() {
    let folder = with_photograph("mode");
    for (name, mode) in [("c", 0o640), ("r", 0o666), ("v", 0o4755), ("p", 0o600)] {
        folder.put(name, "old");
        fs::set_permissions(folder.file(name), Permissions::from_mode(mode)).unwrap();
    }
    // Only the superuser can give a file away.
    let given = chown(folder.file("c"), Some(12345), Some(54321)).is_ok();
    fs::set_permissions(folder.file("c"), Permissions::from_mode(0o640)).unwrap();
    said(&overwrite(&folder), 0, "score");
    assert_ne!(folder.get("c"), b"old");
    assert_ne!(folder.get("v"), b"old");
    assert_ne!(folder.get("p"), b"old");
    let mode = |name: &str| fs::metadata(folder.file(name)).unwrap().mode() & 0o7777;
    assert_eq!(["c", "r", "v", "p"].map(mode), [0o640, 0o666, 0o4755, 0o600]);
    let owner = fs::metadata(folder.file("c")).unwrap();
    assert!(!given || (owner.uid(), owner.gid()) == (12345, 54321));
    // A new file has the mode that any new file has.
    folder.put("new", "");
    said(&folder.sh("$F --frame 192,192,1,48 -o fresh a.ppm"), 0, "score");
    assert_eq!(mode("fresh"), mode("new"));
    assert_eq!(folder.names(), ["a.ppm", "c", "fresh", "new", "p", "r", "v"]);
}

#[test]
fn a_read_only_file_is_an_error() {
    for name in ["c", "r", "v", "p"] {
        let folder = with_photograph(&format!("readonly-{name}"));
        folder.put(name, "as it was");
        fs::set_permissions(folder.file(name), Permissions::from_mode(0o444)).unwrap();
        said(&overwrite(&folder), 2, &format!("flatten: {name}: the file is read-only\n"));
        assert_eq!(folder.text(name), "as it was");
        // What can be written is.
        assert_eq!(folder.names(), ["a.ppm", "c", "p", "r", "v"]);
    }
}

#[test]
fn hard_links_all_see_it() {
    let folder = with_photograph("hard");
    // Longer than the card, so that the rest has to go.
    folder.put("c", vec![7; 200_000]);
    fs::hard_link(folder.file("c"), folder.file("second")).unwrap();
    let inode = fs::metadata(folder.file("c")).unwrap().ino();
    said(&overwrite(&folder), 0, "score");
    assert_eq!(folder.get("second"), flatten(&["--frame", FRAME], &small()).stdout);
    assert_eq!(fs::metadata(folder.file("c")).unwrap().ino(), inode);
    assert_eq!(folder.names(), ["a.ppm", "c", "p", "r", "second", "v"]);
}

#[test]
fn links_are_followed() {
    let folder = with_photograph("links");
    fs::create_dir(folder.file("sub")).unwrap();
    folder.put("sub/old", "old");
    symlink("sub/old", folder.file("c")).unwrap();
    symlink("sub/first", folder.file("r")).unwrap();
    symlink("second", folder.file("sub/first")).unwrap();
    symlink("round", folder.file("v")).unwrap();
    symlink("v", folder.file("round")).unwrap();
    // A loop is an error before anything is read or written.
    said(&overwrite(&folder), 2, "flatten: v: Too many levels of symbolic links");
    assert_eq!(folder.text("sub/old"), "old");
    said(&folder.sh("$F --frame 192,192,1,48 -o c --report r a.ppm"), 0, "score");
    let links = ["c", "r", "sub/first"].map(|link| fs::read_link(folder.file(link)).unwrap());
    assert_eq!(links.each_ref().map(|l| path(l)), ["sub/old", "sub/first", "second"]);
    assert_eq!(folder.get("sub/old"), flatten(&["--frame", FRAME], &small()).stdout);
    // The target of a link to nothing is made.
    assert!(folder.text("sub/second").starts_with("{\"version\": "));
}

#[test]
fn a_name_need_not_be_utf8() {
    let folder = with_photograph("bytes");
    let name = |bytes: &[u8]| folder.path().join(OsStr::from_bytes(bytes));
    fs::rename(folder.file("a.ppm"), name(b"a\xff.ppm")).unwrap();
    let out = folder.sh("$F --frame 192,192,1,48 -o $(printf 'c\\376') --report=$(printf 'r\\375') $(printf 'a\\377.ppm')");
    said(&out, 0, "score");
    assert!(name(b"c\xfe").is_file());
    assert!(fs::read_to_string(name(b"r\xfd")).unwrap().contains("\"file\": \"a\u{fffd}.ppm\""));
}
