//! The command `flatten`.

use crate::files::{self, Place};
use crate::options::{self, quoted, Action, Options};
use crate::phase::{PHASE_LIMIT, SCORE_LIMIT};
use crate::{overlay, p6, report, Frame, Grade, Rectified, Refusal, Workspace};
use std::ffi::OsString;
use std::fs::File;
use std::io::{self, BufReader, IsTerminal, Write};
use std::path::Path;

const HELP: &str = "\
usage: flatten [OPTIONS] [FILE]

Lays the photograph of a card flat. FILE is a Netpbm P6 picture of at most 4096 by 4096 pixels, greatest sample 255;
without FILE, or where it is -, standard input is read. The card goes to standard output as P6, its score and phase to
standard error.

  -o FILE                        write the card to FILE; where there is none FILE stays as it was
  --frame W,H,CELL,MARGIN        the card's description, default 848,636,10,106
  --report FILE                  write what was found as JSON, also where the capture is refused
  --overlay FILE                 write the capture with candidates, corners and grid drawn in (P6); after a refusal by 7 to 10 with the
                                 candidates alone, and after 16 with a cross at the first cell outside the picture
  --page FILE                    write the candidates as text, a line of 36 columns each: rank, centre x, centre y, size, score; also
                                 after a refusal by 7 to 10 or 16
  --strict                       do not write a doubtful card
  --help, --version

A card is doubtful where its score is below 60 and its phase, how far its edges lie off the cell borders, above 0.25 of a cell:
it was laid by the rules, but perhaps by a wrong ring, or the wrong way up. A card that is not doubtful may still be upside down.

A card that leaves the photograph is written too. Its pixels from beyond the picture's edge have the edge's colours, which look
real: a warning on standard error says how many they are, and so does the report, as `beyond`.

Exit status: 0 accepted; 1 refused, with a line `refused N: why; what to do` on standard error, and after 16 one more that says how
many cells are sampled or which is outside; 2 bad usage, a bad picture, a file that cannot be read or written, or more than 9999
candidates for a page; 3 doubtful, with --strict.
";

pub const ACCEPTED: u8 = 0;
pub const REFUSED: u8 = 1;
pub const FAILED: u8 = 2;
pub const DOUBTFUL: u8 = 3;

/// The refusal of a fit without a score.
const UNSCORED: u32 = 16;

/// What is said on standard error. A line that cannot be written there loses nothing else: it is remembered for the exit status.
struct Messages {
    lost: bool,
}

impl Messages {
    fn say(&mut self, text: &str) {
        self.lost |= io::stderr().write_all(format!("{text}\n").as_bytes()).is_err();
    }
}

/// No output may be the input's file or another output's: it would be lost. By what the names stand for, not by the names.
fn apart(o: &Options) -> Result<(), String> {
    let mut known = Vec::new();
    let input = match &o.input {
        // What cannot be found is said when it is read.
        Some(path) => Place::of_path(path).ok().flatten(),
        None => Place::of_open(&io::stdin()),
    };
    known.extend(input.map(|place| ("the photograph", place)));
    let outputs = [("the card", &o.card), ("the report", &o.report), ("the overlay", &o.overlay), ("the page", &o.page)];
    for (what, path) in outputs {
        let place = match path {
            Some(path) => Place::of_path(path).map_err(|e| format!("{}: {e}", path.display()))?,
            None if what == "the card" => Place::of_open(&io::stdout()),
            None => None,
        };
        let Some(place) = place else { continue };
        if let Some((other, _)) = known.iter().find(|(_, known)| *known == place) {
            let name = path.as_ref().map_or("standard output".into(), |path| path.display().to_string());
            return Err(format!("{name} would be {what} and is {other}: they need a file each"));
        }
        known.push((what, place));
    }
    if let Some((other, _)) = Place::of_open(&io::stderr()).and_then(|place| known.into_iter().find(|(_, known)| *known == place)) {
        return Err(format!("standard error goes to the same file as {other}: they need a file each"));
    }
    Ok(())
}

fn read(input: Option<&Path>) -> Result<p6::Picture, String> {
    let picture = match input {
        Some(path) => File::open(path).map_err(p6::Error::Io).and_then(|f| p6::read(&mut BufReader::new(f))),
        None => p6::read(&mut io::stdin().lock()),
    };
    let name = input.map_or("standard input".into(), |path| path.display().to_string());
    picture.map_err(|e| match e {
        p6::Error::Other(format) => format!("{name}: {format}; {}", conversion(format, input)),
        e => format!("{name}: {e}"),
    })
}

/// The command that makes P6 of another format, as it is typed. What it writes is not there yet.
fn conversion(format: p6::Format, input: Option<&Path>) -> String {
    use p6::Format::*;
    let (dash, name) = input.map_or(("-".into(), "".into()), |path| (quoted(path), format!(" {}", quoted(path))));
    let made = ["ppm", "p6.ppm"].map(|extension| input.unwrap_or(Path::new("photo")).with_extension(extension));
    let ppm = quoted(made.iter().find(|path| !path.exists()).unwrap_or(&made[1]));
    match format {
        Jpeg => format!(
            "`convert {dash} -auto-orient ppm:- > {ppm}` makes P6 of it and applies the camera's EXIF turn, \
             which `djpeg -pnm{name} > {ppm}` does not"
        ),
        Png => format!(
            "`convert {dash} -auto-orient -depth 8 ppm:- > {ppm}` makes P6 of it, and so does `pngtopnm{name} > {ppm}` \
             where it is in colour and of 8 bits"
        ),
        Netpbm(_) | Deep(_) => format!("`convert {dash} -depth 8 ppm:- > {ppm}` makes P6 of it, greatest sample 255"),
        Unknown => format!("`convert {dash} -auto-orient -depth 8 ppm:- > {ppm}` makes P6 of what ImageMagick can read"),
    }
}

/// Which cells leave a fit without a score.
fn unscored(workspace: &Workspace) -> Option<String> {
    match workspace.grade()? {
        Grade::Score(_) => None,
        Grade::TooFew => Some(format!("too few cells: {} are sampled, 16 are needed", workspace.sampled_cells())),
        Grade::Outside(cell) => {
            let cols = workspace.frame().grid().map_or(1, |(cols, _)| cols.max(1));
            let (row, column) = (cell / cols, cell % cols);
            Some(format!("cell {cell} is the first outside the picture (row {row}, column {column}, from 0)"))
        }
    }
}

/// What is wrong with a card that has so many pixels from beyond the picture's edge.
fn beyond(count: usize, frame: Frame) -> Option<String> {
    let (were, colours) = match count {
        0 => return None,
        1 => ("was", "its colour looks real, and is not the card's"),
        _ => ("were", "their colours look real, and are not the card's"),
    };
    let all = frame.width * frame.height;
    Some(format!("{count} of the card's {all} pixels {were} read from beyond the picture's edge; {colours}"))
}

/// Score and phase always, and what to look for where the card leaves the photograph or is doubtful.
fn describe(messages: &mut Messages, card: &Rectified, o: &Options) {
    messages.say(&format!("flatten: score {:.1}, phase {:.3}", card.score, card.phase));
    if let Some(pixels) = beyond(card.beyond, o.frame) {
        messages.say(&format!("flatten: warning: {pixels}"));
    }
    if card.doubtful() {
        let overlay = o.overlay.as_ref().map_or("the overlay (--overlay FILE)".into(), |path| path.display().to_string());
        messages
            .say(&format!("flatten: warning: this card is doubtful: its score is below {SCORE_LIMIT} and its phase above {PHASE_LIMIT}"));
        messages.say(&format!(
            "flatten: before a wheel is cut look at {overlay}, for a ring that is covered, cut or blurred; a card that is turned, mirrored \
             or upside down; a camera's EXIF turn that was not applied; a lens beyond ±0.20"
        ));
    }
}

/// The results of one run. A result that cannot be written is said, and the others are still written.
struct Results<'a> {
    messages: &'a mut Messages,
    failed: bool,
}

impl Results<'_> {
    fn put(&mut self, name: &str, written: io::Result<()>) {
        if let Err(e) = written {
            self.messages.say(&format!("flatten: {name}: {e}"));
            self.failed = true;
        }
    }

    fn file(&mut self, path: &Path, bytes: &[u8]) {
        self.put(&path.display().to_string(), files::write(path, bytes));
    }

    /// A page that is refused is one that cannot be written: its file stays as it was.
    fn page(&mut self, path: &Path, page: Result<Vec<u8>, Refusal>) {
        let written = page.map_err(io::Error::other).and_then(|text| files::write(path, &text));
        self.put(&path.display().to_string(), written);
    }

    fn stdout(&mut self, bytes: &[u8]) {
        let mut out = io::stdout().lock();
        self.put("standard output", out.write_all(bytes).and_then(|()| out.flush()));
    }

    fn status(&self, status: u8) -> u8 {
        if self.failed {
            FAILED
        } else {
            status
        }
    }

    fn refused(&mut self, refusal: Refusal) -> u8 {
        self.messages.say(&refusal.to_string());
        self.status(REFUSED)
    }
}

fn flatten(o: &Options, messages: &mut Messages) -> Result<u8, String> {
    if o.card.is_none() && io::stdout().is_terminal() {
        return Err("the card would go to the terminal: name a file by -o, or send standard output to one".into());
    }
    apart(o)?;
    let capture = read(o.input.as_deref())?;
    let about = report::About { file: o.input.as_deref(), sides: (capture.w, capture.h), frame: o.frame };
    let mut results = Results { messages, failed: false };
    let mut workspace = match Workspace::new(capture.w, capture.h, o.frame) {
        Ok(workspace) => workspace,
        Err(refusal) => {
            if let Some(path) = &o.report {
                results.file(path, report::report(&about, None, &Err(refusal)).as_bytes());
            }
            return Ok(results.refused(refusal));
        }
    };
    let answer = workspace.rectify(&capture.data);
    if let Some(path) = &o.report {
        results.file(path, report::report(&about, Some(&workspace), &answer).as_bytes());
    }
    if let Some(path) = o.overlay.as_ref().filter(|_| workspace.looked()) {
        let fit = match &answer {
            Ok(card) => Some(card.fitted()),
            // The fit that was not taken: the one that has cells outside, or too few.
            Err(refusal) if refusal.number() == UNSCORED => workspace.fit_geometry(&capture.data).ok(),
            Err(_) => None,
        };
        let mut drawn = capture.data;
        overlay::draw(&mut drawn, &workspace, fit.as_ref());
        results.file(path, &p6::bytes(capture.w, capture.h, &drawn));
    }
    if let Some(path) = o.page.as_ref().filter(|_| workspace.looked()) {
        results.page(path, workspace.page());
    }
    Ok(match answer {
        Ok(card) => put_card(o, &mut results, &workspace, &card),
        Err(refusal) => {
            let status = results.refused(refusal);
            if let Some(cells) = unscored(&workspace) {
                results.messages.say(&format!("flatten: {cells}"));
            }
            status
        }
    })
}

fn put_card(o: &Options, results: &mut Results, workspace: &Workspace, card: &Rectified) -> u8 {
    describe(results.messages, card, o);
    if o.strict && card.doubtful() {
        results.messages.say("flatten: the doubtful card is not written (--strict)");
        return results.status(DOUBTFUL);
    }
    let bytes = p6::bytes(o.frame.width, o.frame.height, workspace.canonical());
    match &o.card {
        Some(path) => results.file(path, &bytes),
        None => results.stdout(&bytes),
    }
    results.status(ACCEPTED)
}

fn print(text: &str, messages: &mut Messages) -> u8 {
    let mut results = Results { messages, failed: false };
    results.stdout(text.as_bytes());
    results.status(ACCEPTED)
}

/// Runs the command on its arguments, the name left out, and gives the exit status. `stdout_open` tells whether there is a
/// standard output at all.
pub fn run(args: impl IntoIterator<Item = OsString>, stdout_open: bool) -> u8 {
    let mut messages = Messages { lost: false };
    let action = options::parse(args).map_err(|e| format!("{e}; flatten --help says more")).and_then(|action| {
        let prints = !matches!(&action, Action::Flatten(o) if o.card.is_some());
        if prints && !stdout_open {
            return Err("standard output is closed".into());
        }
        Ok(action)
    });
    let status = action.and_then(|action| match action {
        Action::Help => Ok(print(HELP, &mut messages)),
        Action::Version => Ok(print(concat!("flatten ", env!("CARGO_PKG_VERSION"), "\n"), &mut messages)),
        Action::Flatten(o) => flatten(&o, &mut messages),
    });
    match status {
        Ok(ACCEPTED) if messages.lost => FAILED,
        Ok(status) => status,
        Err(e) => {
            messages.say(&format!("flatten: {e}"));
            FAILED
        }
    }
}

#[cfg(test)]
mod tests {
    use super::*;

    #[test]
    fn one_pixel_or_more() {
        let said = |count| beyond(count, Frame::BENCH).unwrap_or_default();
        assert_eq!(said(0), "");
        assert_eq!(
            said(1),
            "1 of the card's 539328 pixels was read from beyond the picture's edge; its colour looks real, and is not the card's"
        );
        assert_eq!(
            said(539328),
            "539328 of the card's 539328 pixels were read from beyond the picture's edge; their colours look real, and are not the card's"
        );
    }
}
