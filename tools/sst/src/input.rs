//! Files that are read and written. `-` is standard input.

use crate::session::{Session, Trouble};
use std::ffi::OsStr;
use std::fs::{self, File};
use std::io::{self, Read};

/// No file of this project is near it; what is longer is not read to its end.
const MOST_BYTES: u64 = 1 << 26;

/// A file that was read.
pub struct Input {
    /// As it is named in messages.
    pub name: String,
    pub bytes: Vec<u8>,
}

pub fn read(session: &mut Session, path: &OsStr) -> Result<Input, Trouble> {
    let name = if path == "-" { "<stdin>".to_string() } else { path.to_string_lossy().into_owned() };
    let mut bytes = Vec::new();
    let read = if path == "-" {
        if closed() {
            return Err(Trouble::File("standard input is closed".to_string()));
        }
        (&mut *session.streams.input).take(MOST_BYTES + 1).read_to_end(&mut bytes)
    } else {
        open(path).and_then(|file| file.take(MOST_BYTES + 1).read_to_end(&mut bytes))
    };
    match read {
        Err(error) => Err(Trouble::File(format!("{name} cannot be read: {}", reason(&error)))),
        Ok(_) if bytes.len() as u64 > MOST_BYTES => Err(Trouble::File(format!("{name} has more than {MOST_BYTES} bytes"))),
        Ok(_) => Ok(Input { name, bytes }),
    }
}

fn open(path: &OsStr) -> io::Result<File> {
    let file = File::open(path)?;
    if file.metadata()?.is_dir() {
        return Err(io::Error::new(io::ErrorKind::IsADirectory, "it is a directory"));
    }
    Ok(file)
}

/// The reason alone, without the number of the system's error.
fn reason(error: &io::Error) -> String {
    match error.kind() {
        io::ErrorKind::NotFound => "there is no such file".to_string(),
        io::ErrorKind::PermissionDenied => "it may not be read".to_string(),
        _ => error.to_string(),
    }
}

/// Whether standard input was closed when the process began: then it is `/dev/null`, opened to be read and written, which no shell does.
fn closed() -> bool {
    let null = fs::read_link("/proc/self/fd/0").is_ok_and(|path| path.as_os_str() == "/dev/null");
    let flags = fs::read_to_string("/proc/self/fdinfo/0").unwrap_or_default();
    let both = flags.lines().any(|line| line.starts_with("flags:") && line.ends_with('2'));
    null && both
}

/// Writes a file whole or says why not.
pub fn write(path: &OsStr, bytes: &[u8]) -> Result<(), Trouble> {
    let failed = |error: io::Error| Trouble::File(format!("{} cannot be written: {error}", path.to_string_lossy()));
    fs::write(path, bytes).map_err(failed)
}
