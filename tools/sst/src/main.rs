//! The command itself: the process's arguments and streams.

use reference::side::Reference;
use sst::{Streams, run};
use std::ffi::OsString;
use std::io::{BufWriter, IsTerminal, stderr, stdin, stdout};
use std::process::ExitCode;

fn main() -> ExitCode {
    let arguments: Vec<OsString> = std::env::args_os().skip(1).collect();
    let terminal = stderr().is_terminal();
    let colours = terminal && std::env::var_os("NO_COLOR").is_none_or(|set| set.is_empty());
    let (mut input, mut out, mut err) = (stdin(), BufWriter::new(stdout()), stderr());
    let streams = Streams { input: &mut input, out: &mut out, err: &mut err, colours, terminal };
    ExitCode::from(run(&arguments, &Reference, streams) as u8)
}
