//! Where a picture is written: never over an input, nor over a file that is no picture, unless that
//! is asked for.

use crate::replace::replace;
use crate::status::Failure;
use std::ffi::OsStr;
use std::fs::{self, File, Metadata};
use std::io::{self, Read};
use std::os::unix::fs::MetadataExt;
use std::path::{Path, PathBuf};

/// So much of a file is read to tell whether it is SVG.
const LOOK: u64 = 4_096;

#[derive(Default)]
pub struct Guard {
    pub force: bool,
    /// What the run reads.
    pub inputs: Vec<PathBuf>,
}

impl Guard {
    pub fn write(&self, file: &OsStr, svg: &str) -> Result<(), Failure> {
        self.allow(file)?;
        replace(Path::new(file), svg.as_bytes()).map_err(|error| cannot(file, error))
    }

    /// Whether a picture may go there, before any work is done for it.
    pub fn allow(&self, file: &OsStr) -> Result<(), Failure> {
        let about = match fs::metadata(file) {
            Ok(about) => about,
            Err(error) if error.kind() == io::ErrorKind::NotFound => return Ok(()),
            Err(error) => return Err(cannot(file, error)),
        };
        if self.force || !about.is_file() {
            return Ok(());
        }
        let inputs = self
            .inputs
            .iter()
            .filter_map(|input| fs::metadata(input).ok());
        if inputs.into_iter().any(|input| same(&input, &about)) {
            return Err(refused(file, "it is an input; --force overwrites it"));
        }
        if about.len() > 0 && !is_svg(file).map_err(|error| cannot(file, error))? {
            return Err(refused(file, "it is no SVG; --force overwrites it"));
        }
        Ok(())
    }
}

/// Whatever their names are.
fn same(a: &Metadata, b: &Metadata) -> bool {
    (a.dev(), a.ino()) == (b.dev(), b.ino())
}

fn is_svg(file: &OsStr) -> io::Result<bool> {
    let mut start = Vec::new();
    File::open(file)?.take(LOOK).read_to_end(&mut start)?;
    let text = start.strip_prefix(b"\xef\xbb\xbf").unwrap_or(&start);
    let tag = b"<svg";
    Ok(
        text.trim_ascii_start().starts_with(b"<")
            && text.windows(tag.len()).any(|part| part == tag),
    )
}

fn refused(file: &OsStr, why: &str) -> Failure {
    cannot(file, io::Error::other(why))
}

fn cannot(file: &OsStr, error: io::Error) -> Failure {
    Failure::Io(format!("cannot write {}", file.to_string_lossy()), error)
}
