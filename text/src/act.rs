//! Lines that stops-text does itself; no command bytes go with them.

use std::ffi::OsString;
use std::os::unix::ffi::OsStringExt;

#[derive(Clone, Debug, PartialEq, Eq)]
pub enum Act {
    Sites,
    Standing,
    Touring,
    Tree,
    Save,
    Draw(OsString),
    Help,
    Quit,
}

impl Act {
    /// The word that asks for it.
    pub fn word(&self) -> &'static str {
        match self {
            Act::Sites => "sites",
            Act::Standing => "standing",
            Act::Touring => "touring",
            Act::Tree => "tree",
            Act::Save => "save",
            Act::Draw(_) => "draw",
            Act::Help => "help",
            Act::Quit => "quit",
        }
    }

    pub fn draw(file: &[u8]) -> Self {
        Act::Draw(OsString::from_vec(file.to_vec()))
    }
}
