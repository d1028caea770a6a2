//! Runs document 01's example through the second program's batch program and prints the bytes.

use reference::batch_program;

const INPUT: [u8; 23] = [
    0x41, 0x01, 0x00, 0x02, 0x00, 0x03, 0x00, 0x41, 0x02, 0x00, 0x07, 0x00, 0x01, 0x00, 0x4C, 0x00,
    0x00, 0x00, 0x00, 0x0A, 0x00, 0x00, 0x00,
];

fn hex(bytes: &[u8]) -> String {
    let words: Vec<String> = bytes.iter().map(|byte| format!("{byte:02X}")).collect();
    words.join(" ")
}

fn main() {
    println!("input   {}", hex(&INPUT));
    println!("output  {}", hex(&batch_program::run(&INPUT)));
}
