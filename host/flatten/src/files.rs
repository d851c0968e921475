//! Output files: which of them are one file, and how each is written.

use std::ffi::OsString;
use std::fs::{self, File, Metadata, Permissions};
use std::io::{self, Write};
use std::os::fd::AsFd;
use std::os::unix::fs::{fchown, FileTypeExt, MetadataExt, PermissionsExt};
use std::path::{Path, PathBuf};

/// What a name or an open file stands for, by device and inode: two names of one file, and its links, have one place.
#[derive(Clone, Debug, PartialEq, Eq)]
pub enum Place {
    There(u64, u64),
    /// Not made yet: its folder, and its name there.
    New(u64, u64, OsString),
}

impl Place {
    /// None for a character device or a socket: what goes there replaces nothing.
    fn of_metadata(m: &Metadata) -> Option<Place> {
        let kind = m.file_type();
        (!kind.is_char_device() && !kind.is_socket()).then(|| Place::There(m.dev(), m.ino()))
    }

    pub fn of_open(file: &impl AsFd) -> Option<Place> {
        let file = File::from(file.as_fd().try_clone_to_owned().ok()?);
        Place::of_metadata(&file.metadata().ok()?)
    }

    pub fn of_path(path: &Path) -> io::Result<Option<Place>> {
        let path = resolved(path)?;
        match fs::metadata(&path) {
            Ok(m) => Ok(Place::of_metadata(&m)),
            Err(_) => {
                let folder = fs::metadata(folder(&path))?;
                let name = path.file_name().ok_or(io::ErrorKind::InvalidInput)?;
                Ok(Some(Place::New(folder.dev(), folder.ino(), name.to_owned())))
            }
        }
    }
}

fn folder(path: &Path) -> &Path {
    match path.parent() {
        Some(parent) if parent != Path::new("") => parent,
        _ => Path::new("."),
    }
}

/// The path with links at its end followed, also where the last leads to a file that is not there yet. Links in a loop are an
/// error. What is no ordinary file keeps its name: that of a pipe, as /dev/stdout, leads to no other.
fn resolved(path: &Path) -> io::Result<PathBuf> {
    match fs::metadata(path) {
        Ok(m) if m.is_file() => return fs::canonicalize(path),
        Ok(_) => return Ok(path.to_path_buf()),
        Err(e) if e.kind() != io::ErrorKind::NotFound => return Err(e),
        Err(_) => {}
    }
    let mut path = path.to_path_buf();
    while let Ok(target) = fs::read_link(&path) {
        path = folder(&path).join(target);
    }
    Ok(path)
}

/// Writes a file, so that it has all the bytes or stays as it was: beside it, then renamed to it, with its mode and owner. Where
/// that is not possible (other hard links to it, an owner that cannot be given, a folder that takes no new file) it is written
/// in place, as cp does. What is no ordinary file, as a pipe or a device, is written straight.
pub fn write(path: &Path, bytes: &[u8]) -> io::Result<()> {
    let path = &resolved(path)?;
    let old = match fs::metadata(path) {
        Ok(m) if !m.is_file() => return File::options().write(true).open(path)?.write_all(bytes),
        Ok(m) => m,
        Err(e) if e.kind() == io::ErrorKind::NotFound => return Beside::new(path)?.replace(bytes),
        Err(e) => return Err(e),
    };
    // The superuser may write it all the same; that it is read-only is somebody's wish.
    if old.permissions().readonly() {
        return Err(io::Error::new(io::ErrorKind::PermissionDenied, "the file is read-only"));
    }
    let file = File::options().write(true).open(path)?;
    if old.nlink() == 1 {
        if let Ok(beside) = Beside::like(path, &old) {
            return beside.replace(bytes);
        }
    }
    in_place(file, bytes)
}

fn in_place(mut file: File, bytes: &[u8]) -> io::Result<()> {
    file.write_all(bytes)?;
    file.set_len(bytes.len() as u64)?;
    file.sync_all()
}

/// A new file in the folder of `path`, removed unless it takes its place.
struct Beside<'a> {
    path: &'a Path,
    name: PathBuf,
    file: File,
}

impl<'a> Beside<'a> {
    fn new(path: &'a Path) -> io::Result<Beside<'a>> {
        let mut n = 0;
        loop {
            let name = folder(path).join(format!(".flatten-{}-{n}", std::process::id()));
            match File::options().write(true).create_new(true).open(&name) {
                Ok(file) => return Ok(Beside { path, name, file }),
                Err(e) if e.kind() == io::ErrorKind::AlreadyExists => n += 1,
                Err(e) => return Err(e),
            }
        }
    }

    /// With the owner and the mode of the old file. The owner goes first: giving a file away clears bits of its mode.
    fn like(path: &'a Path, old: &Metadata) -> io::Result<Beside<'a>> {
        let beside = Beside::new(path)?;
        let new = beside.file.metadata()?;
        if (new.uid(), new.gid()) != (old.uid(), old.gid()) {
            fchown(&beside.file, Some(old.uid()), Some(old.gid()))?;
        }
        beside.file.set_permissions(Permissions::from_mode(old.mode() & 0o7777))?;
        Ok(beside)
    }

    fn replace(mut self, bytes: &[u8]) -> io::Result<()> {
        self.file.write_all(bytes)?;
        self.file.sync_all()?;
        fs::rename(&self.name, self.path)
    }
}

impl Drop for Beside<'_> {
    fn drop(&mut self) {
        // After the renaming there is none of this name.
        let _ = fs::remove_file(&self.name);
    }
}
