//! Replaces a file's contents whole or not at all: written beside, synced, renamed.

use std::ffi::OsString;
use std::fs::{self, File, OpenOptions};
use std::io::{self, Write};
use std::path::{Path, PathBuf};

/// A crash or a full disk leaves the old file as it was.
pub fn replace(file: &Path, bytes: &[u8]) -> io::Result<()> {
    match fs::metadata(file) {
        // A device or a pipe has no contents to lose.
        Ok(about) if !about.is_file() && !about.is_dir() => fs::write(file, bytes),
        Ok(about) => beside(&fs::canonicalize(file)?, bytes, Some(about.permissions())),
        Err(error) if error.kind() == io::ErrorKind::NotFound => beside(file, bytes, None),
        Err(error) => Err(error),
    }
}

fn beside(file: &Path, bytes: &[u8], allowed: Option<fs::Permissions>) -> io::Result<()> {
    let new = new_name(file)?;
    let written = write_new(&new, bytes, allowed).and_then(|()| fs::rename(&new, file));
    if written.is_err() {
        // What is left there is of no use; the first error is the one to tell.
        let _ = fs::remove_file(&new);
        return written;
    }
    sync_folder(file)
}

/// In the same folder, so that renaming moves no bytes.
fn new_name(file: &Path) -> io::Result<PathBuf> {
    let Some(name) = file.file_name() else {
        return Err(io::ErrorKind::InvalidFilename.into());
    };
    let mut new = OsString::from(".");
    new.push(name);
    new.push(format!(".{}.new", std::process::id()));
    Ok(file.with_file_name(new))
}

fn write_new(new: &Path, bytes: &[u8], allowed: Option<fs::Permissions>) -> io::Result<()> {
    let mut file = OpenOptions::new().write(true).create_new(true).open(new)?;
    if let Some(allowed) = allowed {
        file.set_permissions(allowed)?;
    }
    file.write_all(bytes)?;
    file.sync_all()
}

/// So that the new name outlives a crash, too.
fn sync_folder(file: &Path) -> io::Result<()> {
    let folder = match file.parent() {
        Some(folder) if !folder.as_os_str().is_empty() => folder,
        _ => Path::new("."),
    };
    File::open(folder)?.sync_all()
}
