//! The report: one JSON object, the same shape always. What a refusal leaves undefined is null.

use crate::{Frame, Grade, Rectified, Refusal, Workspace};
use std::fmt::Write;
use std::path::Path;

/// What the report is about.
pub struct About<'a> {
    /// None for standard input.
    pub file: Option<&'a Path>,
    /// Width and height of the capture.
    pub sides: (usize, usize),
    pub frame: Frame,
}

/// Shortest form that reads back to the same bits; NaN is null, infinities are strings.
pub fn float(x: f64) -> String {
    if x.is_nan() {
        "null".into()
    } else if x.is_infinite() {
        if x > 0.0 { "\"inf\"" } else { "\"-inf\"" }.into()
    } else {
        format!("{x:?}")
    }
}

fn floats(l: &[f64]) -> String {
    format!("[{}]", l.iter().map(|&x| float(x)).collect::<Vec<_>>().join(", "))
}

/// What is not UTF-8 becomes U+FFFD.
fn string(text: &str) -> String {
    let mut out = String::from("\"");
    for c in text.chars() {
        match c {
            '"' | '\\' => out.extend(['\\', c]),
            '\0'..='\x1f' => out += &format!("\\u{:04x}", c as u32),
            c => out.push(c),
        }
    }
    out + "\""
}

fn grade(g: Grade) -> String {
    match g {
        Grade::Score(s) => format!("{{\"score\": {}}}", float(s)),
        Grade::Outside(cell) => format!("{{\"outside\": {cell}}}"),
        Grade::TooFew => "{\"too_few\": true}".into(),
    }
}

const NULL: &str = "null";

/// The report of the workspace's last call and of its answer.
pub fn report(about: &About, workspace: Option<&Workspace>, answer: &Result<Rectified, Refusal>) -> String {
    let number = answer.err().map_or(0, Refusal::number);
    let looked = workspace.filter(|w| w.looked());
    let of_look = |f: &dyn Fn(&Workspace) -> String| looked.map_or(NULL.into(), f);
    let of_search = |f: &dyn Fn(&Workspace) -> String| looked.filter(|_| matches!(number, 0 | 10 | 16)).map_or(NULL.into(), f);
    let of_fit = |f: &dyn Fn(&Rectified) -> String| answer.as_ref().map_or(NULL.into(), f);
    let candidates = |w: &Workspace| {
        let each = w.candidates().map(|c| {
            let (x, y, score, size) = (float(c.x), float(c.y), float(c.score), float(c.size));
            format!("{{\"x\": {x}, \"y\": {y}, \"score\": {score}, \"size\": {size}, \"place\": {}}}", c.place)
        });
        format!("[{}]", each.collect::<Vec<_>>().join(", "))
    };
    let Frame { width, height, cell, margin } = about.frame;
    let fields = [
        ("version", string(env!("CARGO_PKG_VERSION"))),
        ("file", about.file.map_or(NULL.into(), |path| string(&path.to_string_lossy()))),
        ("sides", format!("[{}, {}]", about.sides.0, about.sides.1)),
        ("frame", format!("[{width}, {height}, {cell}, {margin}]")),
        ("refusal", number.to_string()),
        ("score", of_fit(&|r| float(r.score))),
        ("phase", of_fit(&|r| float(r.phase))),
        ("doubtful", of_fit(&|r| r.doubtful().to_string())),
        ("patches", of_look(&|w| w.patches().len().to_string())),
        ("waited", of_look(&|w| w.waited().to_string())),
        ("candidates", of_look(&candidates)),
        ("corners", of_fit(&|r| format!("[{}]", r.corners.map(|c| c.to_string()).join(", ")))),
        ("matrix", of_fit(&|r| floats(r.fit.matrix()))),
        ("k", of_fit(&|r| float(r.fit.k()))),
        ("cx", of_fit(&|r| float(r.fit.cx()))),
        ("cy", of_fit(&|r| float(r.fit.cy()))),
        ("norm", of_fit(&|r| float(r.fit.norm()))),
        ("grade", of_look(&|w| w.grade().map_or(NULL.into(), grade))),
        ("trials", of_search(&|w| w.trials().0.to_string())),
        ("homographies", of_search(&|w| w.trials().1.to_string())),
        ("beyond", of_fit(&|r| r.beyond.to_string())),
    ];
    let mut out = String::new();
    for (i, (name, value)) in fields.iter().enumerate() {
        let _ = write!(out, "{}\"{name}\": {value}", if i == 0 { "{" } else { ", " });
    }
    out + "}\n"
}

#[cfg(test)]
mod tests {
    use super::*;

    #[test]
    fn floats_read_back() {
        for (x, text) in [
            (0.1, "0.1"),
            (1.0, "1.0"),
            (-0.0, "-0.0"),
            (1e300, "1e300"),
            (5e-324, "5e-324"),
            (f64::NAN, "null"),
            (f64::INFINITY, "\"inf\""),
            (f64::NEG_INFINITY, "\"-inf\""),
        ] {
            assert_eq!(float(x), text);
        }
        for bits in [1u64, 0x3fb9_9999_9999_999a, 0x7fef_ffff_ffff_ffff, 0x0010_0000_0000_0000, 0x4340_0000_0000_0001] {
            let x = f64::from_bits(bits);
            assert_eq!(float(x).parse::<f64>().unwrap().to_bits(), bits);
        }
    }

    #[test]
    fn without_a_look_all_but_the_refusal_is_null() {
        let refusal = Refusal::check(1).unwrap_err();
        let about = About { file: Some(Path::new("a \"b\"\\\n.ppm")), sides: (1280, 720), frame: Frame::BENCH };
        let version = env!("CARGO_PKG_VERSION");
        assert_eq!(
            report(&about, None, &Err(refusal)),
            format!(
                "{{\"version\": \"{version}\", \"file\": \"a \\\"b\\\"\\\\\\u000a.ppm\", \"sides\": [1280, 720], \
                 \"frame\": [848, 636, 10, 106], \"refusal\": 1, \"score\": null, \"phase\": null, \"doubtful\": null, \
                 \"patches\": null, \"waited\": null, \"candidates\": null, \"corners\": null, \
                 \"matrix\": null, \"k\": null, \"cx\": null, \"cy\": null, \"norm\": null, \"grade\": null, \
                 \"trials\": null, \"homographies\": null, \"beyond\": null}}\n"
            )
        );
    }
}
