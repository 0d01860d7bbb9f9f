//! A run of the command: the second processor, the streams, and how a run ends.

use reference::quiet::Measurer;
use std::io::{ErrorKind, Read, Write};

/// What the command ends with; of several files the greatest counts.
#[derive(Clone, Copy, PartialEq, Eq, PartialOrd, Ord, Debug)]
pub enum Status {
    Yes = 0,
    /// What was asked about is turned down.
    No = 1,
    /// The command was used wrongly, or a file cannot be read or written.
    Unusable = 2,
    /// The library and the second processor differ.
    Disagree = 3,
}

/// Why a command stops early.
#[derive(Debug)]
pub enum Trouble {
    Usage(String),
    File(String),
    /// What was asked about is turned down, with the whole message.
    Refused(String),
    /// The file, and in what the two differ.
    Disagree(String, String),
    /// Nobody reads the result any more.
    Gone,
}

impl Trouble {
    pub fn status(&self) -> Status {
        match self {
            Trouble::Usage(_) | Trouble::File(_) | Trouble::Gone => Status::Unusable,
            Trouble::Refused(_) => Status::No,
            Trouble::Disagree(..) => Status::Disagree,
        }
    }
}

pub type Done = Result<Status, Trouble>;

/// Where a command reads and writes.
pub struct Streams<'a> {
    pub input: &'a mut dyn Read,
    pub out: &'a mut dyn Write,
    pub err: &'a mut dyn Write,
    /// Whether messages are coloured.
    pub colours: bool,
    /// Whether messages go to a terminal.
    pub terminal: bool,
}

pub struct Session<'a> {
    pub second: &'a dyn Measurer,
    pub streams: Streams<'a>,
}

impl Session<'_> {
    /// A part of the result.
    pub fn out(&mut self, text: &str) -> Result<(), Trouble> {
        self.streams.out.write_all(text.as_bytes()).map_err(|error| unwritten(&error))
    }

    /// A message, behind the part of the result that came before it; that it cannot be shown is no trouble of its own.
    pub fn err(&mut self, text: &str) {
        self.err_bytes(text.as_bytes());
    }

    /// The same with bytes of a text as they are.
    pub fn err_bytes(&mut self, bytes: &[u8]) {
        _ = self.streams.out.flush();
        _ = self.streams.err.write_all(bytes);
    }

    /// What is being done, on a terminal's last line; the next one takes its place, an empty one clears it.
    pub fn progress(&mut self, text: &str) {
        if self.streams.terminal {
            self.err(&format!("\r\x1b[K{text}"));
        }
    }

    /// Says why a command stopped early.
    pub fn report(&mut self, trouble: &Trouble) -> Status {
        match trouble {
            Trouble::Usage(why) => self.err(&format!("sst: {why}\nsst --help says how it is used\n")),
            Trouble::File(why) => self.err(&format!("sst: {why}\n")),
            Trouble::Refused(why) => self.err(&format!("{why}\n")),
            Trouble::Disagree(file, why) => self.err(&format!(
                "{file}: the library and the second processor disagree: {why}\n\
                 one of the two is wrong, so that nothing is explained here; please report this with the file\n"
            )),
            Trouble::Gone => {}
        }
        trouble.status()
    }

    pub fn flush(&mut self) -> Result<(), Trouble> {
        self.streams.out.flush().map_err(|error| unwritten(&error))
    }
}

fn unwritten(error: &std::io::Error) -> Trouble {
    if error.kind() == ErrorKind::BrokenPipe {
        return Trouble::Gone;
    }
    Trouble::File(format!("the result cannot be written to standard output: {error}"))
}
