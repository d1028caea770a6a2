//! "the same run with the steps written out" (document 02, C-15): 61 as 41 and 6D as 4D, a step off the
//! grid as 32,767. A 61 or 6D that is cut short stands as a cut 41 or 4D.

use crate::command::{ADD, ADD_READINGS, Command, MOVE, MOVE_READINGS, Unread, add, move_site};

/// The commands with the steps written out; none where a reading is not finite.
pub fn written_out(mut commands: &[u8]) -> Option<Vec<u8>> {
    let mut written = Vec::new();
    loop {
        match Command::read(commands) {
            Ok((command, length)) => {
                written.extend(in_steps(&command, &commands[..length])?);
                commands = &commands[length..];
            }
            Err(Unread::Cut) => {
                written.extend(cut_in_steps(commands));
                return Some(written);
            }
            // What follows an unknown mark is no command.
            Err(Unread::Unknown) => {
                written.extend(commands);
                return Some(written);
            }
        }
    }
}

fn in_steps(command: &Command, bytes: &[u8]) -> Option<Vec<u8>> {
    match command {
        Command::AddReadings(..) => command.site().map(add),
        Command::MoveReadings(..) => command.site().map(move_site),
        _ => Some(bytes.to_vec()),
    }
}

/// Fewer bytes than a command has; none at the end of the commands.
fn cut_in_steps(bytes: &[u8]) -> Vec<u8> {
    match bytes {
        [ADD_READINGS, ..] => vec![ADD],
        [MOVE_READINGS, ..] => vec![MOVE],
        _ => bytes.to_vec(),
    }
}

/// The bytes of the first commands, so many.
pub fn length(commands: &[u8], count: usize) -> usize {
    let mut used = 0;
    for _ in 0..count {
        let (_, length) = Command::read(&commands[used..]).expect("so many commands are whole");
        used += length;
    }
    used
}
