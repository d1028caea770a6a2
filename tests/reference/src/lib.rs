//! The second program of documents 01 and 02: the same rules written again, plainly, so that the
//! proved service has something independent to be compared with.

pub mod area;
pub mod batch_program;
pub mod book;
pub mod command;
pub mod fraction;
pub mod grid;
pub mod hull;
pub mod layout;
pub mod listener;
pub mod random;
pub mod reading;
pub mod readings;
pub mod record;
pub mod split;
pub mod ties;
pub mod tours;
pub mod written_out;
