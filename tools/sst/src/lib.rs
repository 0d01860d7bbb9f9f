//! `sst`: one command over the proved library, for the author of a program, the firmware engineer and the release desk.
//!
//! The library answers: numbers, parts, tables, verdicts, figures, walks and files are its own. The second processor explains: it has the
//! words' places, the names and the tree. On every run its answer is held against the library's (`held`); where they differ nothing is
//! explained, and the status is 3.
#![forbid(unsafe_code)]

mod arguments;
mod ask;
mod book;
mod bound;
mod carry;
mod certify;
mod chart;
mod check;
mod commands;
mod digest;
mod explain;
mod figures;
mod flat;
mod header;
mod held;
mod input;
mod known;
mod layout;
mod link;
mod list;
mod load;
mod message;
mod names;
mod part;
mod place;
mod reach;
mod session;
mod source;
mod table;
mod verify;
mod walk;
mod warnings;
mod way;
mod way_check;
mod why;

pub use session::{Status, Streams};

use reference::quiet::Measurer;
use session::Session;
use std::ffi::OsString;

/// Runs a command: its arguments without the program's name, the second processor, and where it reads and writes.
pub fn run<'a>(arguments: &[OsString], second: &'a dyn Measurer, streams: Streams<'a>) -> Status {
    let mut session = Session { second, streams };
    let done = commands::run(&mut session, arguments).and_then(|status| session.flush().map(|()| status));
    done.unwrap_or_else(|trouble| session.report(&trouble))
}
