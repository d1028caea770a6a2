//! The batch program of document 01 ("Legs to try", last paragraph), from input to output bytes.

use crate::book::{ALL_USED, Book, CUT_COMMAND, NO_ROOM};
use crate::grid::{INPUT_LEN, REPORT_LEN, WORK_LEN};

pub const END_MARK: u8 = 0x2E;

/// What the program prints when every read fills its input buffer as far as it can.
pub fn run(input: &[u8]) -> Vec<u8> {
    run_in_reads(input, INPUT_LEN)
}

/// The same with at most `read_len` bytes a read, as a pipe may give them.
pub fn run_in_reads(input: &[u8], read_len: usize) -> Vec<u8> {
    assert!(read_len >= 1, "a read of nothing is the end of the input");
    let mut book = Book::new();
    let mut unread = input;
    let mut buffer: Vec<u8> = Vec::new();
    let mut output = Vec::new();
    loop {
        let reply = book.call(&buffer, WORK_LEN, REPORT_LEN);
        output.extend(&reply.report);
        // What is left is a cut command, or what found no room in the report.
        buffer.drain(..reply.used);
        match reply.reason {
            // Printing emptied the report buffer, so the same command now finds room.
            NO_ROOM => {}
            ALL_USED | CUT_COMMAND if !unread.is_empty() => {
                let free = INPUT_LEN - buffer.len();
                let (read, rest) = unread.split_at(unread.len().min(free).min(read_len));
                buffer.extend(read);
                unread = rest;
            }
            reason => {
                output.extend([END_MARK, reason]);
                return output;
            }
        }
    }
}
