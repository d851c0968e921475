//! What the tests of the command share.
#![allow(dead_code)]

use std::fs;
use std::io::Write;
use std::path::{Path, PathBuf};
use std::process::{Command, Output, Stdio};

pub const FLATTEN: &str = env!("CARGO_BIN_EXE_flatten");
pub const FRAME: &str = "192,192,1,48";

/// A folder of its own for each test, removed at its end.
pub struct Folder(PathBuf);

impl Folder {
    pub fn new(name: &str) -> Folder {
        let path = std::env::temp_dir().join(format!("flatten-{name}-{}", std::process::id()));
        fs::create_dir_all(&path).unwrap();
        Folder(path)
    }

    pub fn path(&self) -> &Path {
        &self.0
    }

    pub fn file(&self, name: &str) -> PathBuf {
        self.0.join(name)
    }

    pub fn put(&self, name: &str, bytes: impl AsRef<[u8]>) {
        fs::write(self.file(name), bytes).unwrap();
    }

    pub fn get(&self, name: &str) -> Vec<u8> {
        fs::read(self.file(name)).unwrap()
    }

    pub fn text(&self, name: &str) -> String {
        String::from_utf8(self.get(name)).unwrap()
    }

    pub fn names(&self) -> Vec<String> {
        let mut names: Vec<_> = fs::read_dir(&self.0).unwrap().map(|e| e.unwrap().file_name().into_string().unwrap()).collect();
        names.sort();
        names
    }

    /// A line of the shell in this folder, where $F is the command.
    pub fn sh(&self, line: &str) -> Output {
        Command::new("sh").args(["-c", line]).env("F", FLATTEN).current_dir(&self.0).stdin(Stdio::null()).output().unwrap()
    }
}

impl Drop for Folder {
    fn drop(&mut self) {
        let _ = fs::remove_dir_all(&self.0);
    }
}

pub fn flatten(args: &[&str], input: &[u8]) -> Output {
    let mut child = Command::new(FLATTEN).args(args).stdin(Stdio::piped()).stdout(Stdio::piped()).stderr(Stdio::piped()).spawn().unwrap();
    // A command that refuses early leaves its input unread.
    let _ = child.stdin.take().unwrap().write_all(input);
    child.wait_with_output().unwrap()
}

pub fn p6(w: usize, h: usize, data: &[u8]) -> Vec<u8> {
    flatten::p6::bytes(w, h, data)
}

/// A straight photograph of a card: markers stamped into a chequered picture.
pub fn card(frame: flatten::Frame) -> Vec<u8> {
    let (w, h) = (frame.width, frame.height);
    let shade = |i: usize| [90, 160][(i % w / 8 + i / w / 8) % 2];
    let mut data: Vec<u8> = (0..w * h).flat_map(|i| [shade(i); 3]).collect();
    assert_eq!(flatten::ffi::stamp_fiducials(&mut data, w, h, frame), 0);
    data
}

/// A photograph of a card that reaches past the picture on each side where `share` is above 1, seen straight.
pub fn past_the_picture(f: flatten::Frame, w: usize, h: usize, share: f64) -> Vec<u8> {
    let frame = scene::Frame { width: f.width, height: f.height, cell: f.cell, margin: f.margin };
    scene::Scene::straight(w, h, scene::Card::new(frame, scene::Cells::Mixed(scene::FOUR, 1)), share).take()
}

pub fn small() -> Vec<u8> {
    p6(192, 192, &card(FRAME.parse().unwrap()))
}

pub fn text(bytes: &[u8]) -> &str {
    std::str::from_utf8(bytes).unwrap()
}

pub fn path(p: &Path) -> &str {
    p.to_str().unwrap()
}

pub fn bench() -> flatten::p6::Picture {
    let file = concat!(env!("CARGO_MANIFEST_DIR"), "/../../examples/bench.ppm");
    flatten::p6::read(&mut &fs::read(file).unwrap()[..]).unwrap()
}
