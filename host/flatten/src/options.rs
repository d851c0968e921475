//! The command's arguments.

use crate::Frame;
use std::ffi::{OsStr, OsString};
use std::os::unix::ffi::{OsStrExt, OsStringExt};
use std::path::{Path, PathBuf};

/// None for input and card is standard input and standard output.
#[derive(Debug, PartialEq)]
pub struct Options {
    pub input: Option<PathBuf>,
    pub card: Option<PathBuf>,
    pub frame: Frame,
    pub report: Option<PathBuf>,
    pub overlay: Option<PathBuf>,
    pub page: Option<PathBuf>,
    /// A doubtful card is not written.
    pub strict: bool,
}

#[derive(Debug, PartialEq)]
pub enum Action {
    Help,
    Version,
    Flatten(Options),
}

pub fn parse(args: impl IntoIterator<Item = OsString>) -> Result<Action, String> {
    let mut args = args.into_iter();
    let (mut input, mut card, mut frame) = (None, None, None);
    let (mut report, mut overlay, mut page) = (None, None, None);
    let mut strict = false;
    let mut only_files = false;
    while let Some(arg) = args.next() {
        if only_files || arg == "-" || !arg.as_bytes().starts_with(b"-") {
            put(&mut input, arg, "a second FILE")?;
            continue;
        }
        let (option, joined) = split(&arg);
        let mut value = || joined.clone().or_else(|| args.next()).ok_or(format!("{option} wants a value"));
        match option.as_str() {
            "-o" => put(&mut card, value()?, "-o a second time")?,
            "--report" => put_file(&mut report, value()?, &option)?,
            "--overlay" => put_file(&mut overlay, value()?, &option)?,
            "--page" => put_file(&mut page, value()?, &option)?,
            "--frame" => {
                let text = value()?.to_string_lossy().into_owned();
                let parsed = text.parse().map_err(|e| format!("--frame {text}: {e}"))?;
                put(&mut frame, parsed, "--frame a second time")?
            }
            _ if joined.is_some() => return Err(format!("there is no option {option} with a value")),
            "--help" | "-h" => return Ok(Action::Help),
            "--version" => return Ok(Action::Version),
            "--strict" => strict = true,
            "--" => only_files = true,
            _ => return Err(format!("there is no option {option}")),
        }
    }
    if card.as_ref().is_some_and(|name: &OsString| name.is_empty()) {
        return Err("-o wants the name of a file".into());
    }
    let named = |name: Option<OsString>| name.filter(|name| name != "-").map(PathBuf::from);
    Ok(Action::Flatten(Options {
        input: named(input),
        card: named(card),
        frame: frame.unwrap_or(Frame::BENCH),
        report,
        overlay,
        page,
        strict,
    }))
}

/// `--name=value` stands for `--name value`. The value is a file's name and so need not be UTF-8.
fn split(arg: &OsStr) -> (String, Option<OsString>) {
    let bytes = arg.as_bytes();
    let (option, joined) = match bytes.iter().position(|&b| b == b'=') {
        Some(at) if bytes.starts_with(b"--") => (&bytes[..at], Some(OsString::from_vec(bytes[at + 1..].to_vec()))),
        _ => (bytes, None),
    };
    (String::from_utf8_lossy(option).into_owned(), joined)
}

fn put<T>(place: &mut Option<T>, value: T, what: &str) -> Result<(), String> {
    match place.replace(value) {
        None => Ok(()),
        Some(_) => Err(format!("{what} is too many")),
    }
}

fn put_file(place: &mut Option<PathBuf>, value: OsString, option: &str) -> Result<(), String> {
    if value.is_empty() || value == "-" {
        return Err(format!("{option} wants the name of a file: standard output carries the card"));
    }
    put(place, value.into(), &format!("{option} a second time"))
}

/// A file's name as a shell takes it.
pub fn quoted(path: &Path) -> String {
    let text = path.display().to_string();
    let plain = |c: char| c.is_ascii_alphanumeric() || "/._-+,:=@%".contains(c);
    if !text.is_empty() && !text.starts_with('-') && text.chars().all(plain) {
        return text;
    }
    let dash = if text.starts_with('-') { "./" } else { "" };
    format!("'{dash}{}'", text.replace('\'', r"'\''"))
}

#[cfg(test)]
mod tests {
    use super::*;

    fn parsed(args: &[&str]) -> Result<Action, String> {
        parse(args.iter().map(OsString::from))
    }

    #[test]
    fn all_options() {
        let action = parsed(&["--frame", "192,192,1,48", "-o", "c", "--report=r", "--strict", "--overlay", "v", "--page", "p", "in"]);
        let Ok(Action::Flatten(o)) = action else { panic!("{action:?}") };
        assert_eq!(o.frame, Frame { width: 192, height: 192, cell: 1, margin: 48 });
        let names = [&o.input, &o.card, &o.report, &o.overlay, &o.page].map(|p| p.as_ref().unwrap().to_str().unwrap());
        assert_eq!(names, ["in", "c", "r", "v", "p"]);
        assert!(o.strict);
    }

    #[test]
    fn defaults() {
        let none = Options { input: None, card: None, frame: Frame::BENCH, report: None, overlay: None, page: None, strict: false };
        assert_eq!(parsed(&[]), Ok(Action::Flatten(none)));
        assert_eq!(parsed(&["-", "-o", "-"]), parsed(&[]));
        assert_eq!(parsed(&["--help", "--nonsense"]), Ok(Action::Help));
        assert_eq!(parsed(&["--version"]), Ok(Action::Version));
    }

    #[test]
    fn a_file_may_begin_with_a_dash() {
        let Ok(Action::Flatten(o)) = parsed(&["--", "-o"]) else { panic!() };
        assert_eq!(o.input, Some(PathBuf::from("-o")));
    }

    #[test]
    fn a_name_need_not_be_utf8() {
        let bytes = |text: &[u8]| OsString::from_vec(text.to_vec());
        let action =
            parse([bytes(b"--report=r\xff=1"), bytes(b"--overlay"), bytes(b"v\xfe"), bytes(b"-o"), bytes(b"c\xfd"), bytes(b"\xfc")]);
        let Ok(Action::Flatten(o)) = action else { panic!("{action:?}") };
        let names = [&o.report, &o.overlay, &o.card, &o.input].map(|p| p.as_ref().unwrap().as_os_str().as_bytes());
        assert_eq!(names, [b"r\xff=1".as_slice(), b"v\xfe", b"c\xfd", b"\xfc"]);
    }

    #[test]
    fn bad_usage_is_named() {
        for (args, why) in [
            (&["--frame", "1,2,3"][..], "four numbers are wanted, there are 3"),
            (&["--frame", "1,2,3,4,5"], "there are 5"),
            (&["--frame", "1,2,3,x"], "'x' is not a whole number"),
            (&["--frame", "1,2,3,-4"], "'-4' is not a whole number"),
            (&["--frame", ""], "'' is not a whole number"),
            (&["--frame"], "--frame wants a value"),
            (&["-o"], "-o wants a value"),
            (&["-o", ""], "-o wants the name of a file"),
            (&["--colour"], "there is no option --colour"),
            (&["--strict=yes"], "there is no option --strict with a value"),
            (&["-x"], "there is no option -x"),
            (&["a", "b"], "a second FILE is too many"),
            (&["-o", "a", "-o", "b"], "-o a second time is too many"),
            (&["--report", "-"], "--report wants the name of a file"),
            (&["--overlay="], "--overlay wants the name of a file"),
            (&["--page", "-"], "--page wants the name of a file"),
            (&["--page"], "--page wants a value"),
            (&["--page", "a", "--page=b"], "--page a second time is too many"),
        ] {
            let e = parsed(args).unwrap_err();
            assert!(e.contains(why), "{args:?}: {e}");
        }
    }

    #[test]
    fn names_for_a_shell() {
        for (name, text) in [("photo.jpg", "photo.jpg"), ("my photo.jpg", "'my photo.jpg'"), ("it's", r"'it'\''s'"), ("-x", "'./-x'")] {
            assert_eq!(quoted(Path::new(name)), text);
        }
    }
}
