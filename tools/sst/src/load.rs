//! `sst load` and `sst admit`: what the loader and the admission say of a table file.

use crate::arguments::Arguments;
use crate::held;
use crate::input::{self, Input};
use crate::known::Known;
use crate::layout::layout;
use crate::message::counted;
use crate::names::Names;
use crate::place::place;
use crate::session::{Done, Session, Status, Trouble};
use crate::source::Source;
use crate::table;
use reference::ffi::Library;
use reference::files::{Files, Loaded};
use reference::processor::MAX_TABLE;
use reference::rights::{Admitted, Rights};
use reference::side::Reference;
use std::ffi::OsStr;

pub fn run(session: &mut Session, arguments: &Arguments) -> Done {
    let input = input::read(session, arguments.one("a table file")?)?;
    let loaded = match loaded(session, &input)? {
        Some((loaded, _)) => loaded,
        None => return Ok(Status::No),
    };
    let claim = if loaded.verdict == 1 { "finishing" } else { "not finishing" };
    let words = counted(loaded.words, "word");
    session.out(&format!("{}: loaded: {words}; its sender says {claim}\n", input.name))?;
    Ok(Status::Yes)
}

/// What the library loads from a file, with its table, where the second loader does the same; nothing where it is refused, with the reason shown.
fn loaded(session: &mut Session, input: &Input) -> Result<Option<(Loaded, Vec<u8>)>, Trouble> {
    let load = |files: &dyn Files| {
        let mut table = vec![0; 2 * MAX_TABLE];
        (files.load(&input.bytes, &mut table), table)
    };
    let (loaded, mut table) = load(&Library);
    if (loaded, &table) != (load(&Reference).0, &load(&Reference).1) {
        return Err(Trouble::Disagree(input.name.clone(), "they load something else".to_string()));
    }
    let why = match loaded.number {
        0 => {
            table.truncate(2 * loaded.words as usize);
            return Ok(Some((loaded, table)));
        }
        40 => format!("no table file: {}", no_file(&input.bytes)),
        _ => "a location that can be reached has no instruction, so that a walk could answer 37".to_string(),
    };
    session.err(&format!("{}: refused {}: {why}\n", input.name, loaded.number));
    Ok(None)
}

/// Bytes of the record of the head, of a record's mark and count, and words of a whole record.
const HEAD: usize = 8;
const MARK: usize = 4;
const RECORD: usize = 256;

/// Why bytes are no table file.
fn no_file(bytes: &[u8]) -> String {
    let Some(head) = bytes.get(..HEAD) else { return format!("it has {} bytes, and the head alone has {HEAD}", bytes.len()) };
    let word = |at: usize| usize::from(head[at]) << 8 | usize::from(head[at + 1]);
    let (length, verdict) = (word(4), word(6));
    if head[..MARK] != *b"HD\0\x02" {
        return "it does not begin with the head's mark HD and its count 2".to_string();
    }
    if !(1..=MAX_TABLE).contains(&length) {
        return format!("its head says {length} words, and a table has 1 to {MAX_TABLE}");
    }
    if verdict > 1 {
        return format!("its verdict is {verdict}, and a verdict is 0 or 1");
    }
    let wanted = HEAD + 2 * length + MARK * length.div_ceil(RECORD);
    if bytes.len() != wanted {
        let words = counted(length as u64, "word");
        return format!("it has {} bytes, and the file of a table of {words} has {wanted}", bytes.len());
    }
    "a record of its table has another mark or count".to_string()
}

pub fn admit(session: &mut Session, arguments: &Arguments) -> Done {
    let input = input::read(session, arguments.one("a table file")?)?;
    let text = arguments.value("text").map(|path| input::read(session, path)).transpose()?;
    let set = granted(session, arguments, text.as_ref())?;
    let Some((_, table)) = loaded(session, &input)? else { return Ok(Status::No) };
    let Admitted { number, location } = Library.admit(&table, &set);
    if Reference.admit(&table, &set) != (Admitted { number, location }) {
        return Err(Trouble::Disagree(input.name, "they admit something else".to_string()));
    }
    if number == 0 {
        session.out(&format!("{}: admitted: each operation that can be reached is granted\n", input.name))?;
        return Ok(Status::Yes);
    }
    let operation = usize::try_from(location).ok().and_then(|at| Some([*table.get(2 * at - 2)?, *table.get(2 * at - 1)?]));
    let operation = operation.map_or(0, u16::from_be_bytes);
    let place = text.map(|text| named(session, &text, &input, location as usize)).transpose()?.unwrap_or_default();
    session
        .err(&format!("{}: refused {number}: operation {operation} at location {location} is not granted{place}\n", input.name));
    Ok(Status::No)
}

/// The operation at a location, by its name and its place in the text that the file was made from.
fn named(session: &mut Session, text: &Input, file: &Input, location: usize) -> Result<String, Trouble> {
    let answer = held::ask(session, &text.name, &text.bytes)?;
    let source = Source::new(&text.name, &text.bytes);
    if answer.number != 0 || table::file(&source, &answer)? != file.bytes {
        return Ok(format!("; {} is not the text of this file", text.name));
    }
    let known = Known::new(&source);
    let layout = layout(&known, &answer.table)?;
    let names = Names { known: &known, layout: &layout, table: &answer.table };
    let Some(spot) = layout.at(location) else { return Ok(String::new()) };
    let at = place(source.text, spot.start);
    Ok(format!(": {} in {}:{}:{}", names.phrase(spot), source.name, at.line, at.column))
}

/// The granted set: a file of bits, or names of operations with the text that declares them.
fn granted(session: &mut Session, arguments: &Arguments, text: Option<&Input>) -> Result<Vec<u8>, Trouble> {
    match (arguments.value("grant"), arguments.value("grant-names")) {
        (Some(path), None) => Ok(input::read(session, path)?.bytes),
        (None, Some(path)) => by_names(session, path, text),
        _ => Err(Trouble::Usage("admit wants `--grant SET` or `--grant-names FILE`, one of the two".to_string())),
    }
}

fn by_names(session: &mut Session, path: &OsStr, text: Option<&Input>) -> Result<Vec<u8>, Trouble> {
    let Some(text) = text else { return Err(Trouble::Usage("`--grant-names` wants `--text FILE` too".to_string())) };
    let names = input::read(session, path)?;
    let source = Source::new(&text.name, &text.bytes);
    let known = Known::new(&source);
    let operations = known.operations();
    let mut set = vec![0u8; 128];
    let lines = String::from_utf8_lossy(&names.bytes).into_owned();
    for name in lines.lines().map(|line| line.split('%').next().unwrap_or_default().trim()).filter(|name| !name.is_empty()) {
        let found = operations.iter().find(|(_, declared)| known.spelt(declared.name) == name);
        let Some((number, _)) = found else {
            return Err(Trouble::File(format!("{}: `{name}` is no operation of {}", names.name, text.name)));
        };
        let bit = usize::from(number - 256);
        set[bit / 8] |= 128 >> (bit % 8);
    }
    Ok(set)
}
