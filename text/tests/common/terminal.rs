//! A terminal for the program, and what it shows.
#![allow(unsafe_code)] // Opening it.

use std::ffi::CStr;
use std::fs::{File, OpenOptions};
use std::io::Read;
use std::os::fd::{AsRawFd, FromRawFd};

unsafe extern "C" {
    fn posix_openpt(flags: i32) -> i32;
    fn grantpt(terminal: i32) -> i32;
    fn unlockpt(terminal: i32) -> i32;
    fn ptsname_r(terminal: i32, name: *mut std::ffi::c_char, length: usize) -> i32;
}

/// Both ends of a new terminal: what shows it, and what a program gets.
pub fn terminal() -> (File, File) {
    const READ_WRITE: i32 = 2;
    const NOT_CONTROLLING: i32 = 0o400;
    let mut name = [0; 64];
    // SAFETY: the descriptor is new and nobody else's; the name's length is that of the array.
    let screen = unsafe {
        let screen = posix_openpt(READ_WRITE | NOT_CONTROLLING);
        assert!(screen >= 0 && grantpt(screen) == 0 && unlockpt(screen) == 0);
        let screen = File::from_raw_fd(screen);
        assert_eq!(
            ptsname_r(screen.as_raw_fd(), name.as_mut_ptr(), name.len()),
            0
        );
        screen
    };
    // SAFETY: the call wrote a name that ends with 0.
    let name = unsafe { CStr::from_ptr(name.as_ptr()) }.to_str().unwrap();
    let line = OpenOptions::new()
        .read(true)
        .write(true)
        .open(name)
        .unwrap();
    (screen, line)
}

/// What the terminal shows once every program has left it.
pub fn shown(mut screen: File) -> String {
    let (mut shown, mut piece) = (Vec::new(), [0; 4096]);
    // A terminal that everybody has left ends with an error.
    while let Ok(length @ 1..) = screen.read(&mut piece) {
        shown.extend(&piece[..length]);
    }
    String::from_utf8(shown).unwrap()
}
