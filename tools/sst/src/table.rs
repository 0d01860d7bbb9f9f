//! `sst table`: writes the table file of a finishing program.

use crate::arguments::Arguments;
use crate::check::{refusal, summary};
use crate::held::{self, Answer};
use crate::input;
use crate::known::Known;
use crate::session::{Done, Session, Status, Trouble};
use crate::source::Source;
use crate::why;
use reference::ffi::Library;
use reference::files::Files;
use reference::side::Reference;

/// The bytes of the longest file.
pub const FILE_BYTES: usize = 8264;

pub fn run(session: &mut Session, arguments: &Arguments) -> Done {
    let input = input::read(session, arguments.one("a file")?)?;
    let Some(out) = arguments.value("output") else { return Err(Trouble::Usage("table wants `-o FILE`".to_string())) };
    let answer = held::ask(session, &input.name, &input.bytes)?;
    let source = Source::new(&input.name, &input.bytes);
    if answer.number != 0 {
        return refusal(session, &source, &answer);
    }
    if !answer.finishing && !arguments.has("not-finishing") {
        let told = why::told(&Known::new(&source), &answer)?;
        session.err(&told.lines(&source));
        session.err("no file was written; `--not-finishing` writes it all the same\n");
        return Ok(Status::No);
    }
    let file = file(&source, &answer)?;
    input::write(out, &file)?;
    session.out(&format!("{}: {}, file of {} bytes: {}\n", source.name, summary(&answer), file.len(), out.to_string_lossy()))?;
    Ok(Status::Yes)
}

/// The file of an accepted text's table, by the library, where the second writer gives the same.
pub fn file(source: &Source, answer: &Answer) -> Result<Vec<u8>, Trouble> {
    let table: Vec<u8> = answer.table.iter().flat_map(|word| word.to_be_bytes()).collect();
    let write = |files: &dyn Files| {
        let mut bytes = vec![0; FILE_BYTES];
        let written = files.write(&table, u64::from(answer.finishing), &mut bytes);
        bytes.truncate(2 * written.words as usize);
        (written.number, bytes)
    };
    let (number, bytes) = write(&Library);
    if number != 0 || (number, &bytes) != (write(&Reference).0, &write(&Reference).1) {
        return Err(Trouble::Disagree(source.name.to_string(), "the table files differ".to_string()));
    }
    Ok(bytes)
}
