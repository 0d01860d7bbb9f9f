//! `sst verify`: whether a file is the table file of a text, byte for byte.

use crate::arguments::Arguments;
use crate::check::{refusal, verdict};
use crate::held;
use crate::input;
use crate::session::{Done, Session, Status, Trouble};
use crate::source::Source;
use crate::table::file;

pub fn run(session: &mut Session, arguments: &Arguments) -> Done {
    let [text, table] = &arguments.words[..] else {
        return Err(Trouble::Usage("verify wants a text and a table file".to_string()));
    };
    let input = input::read(session, text)?;
    let given = input::read(session, table)?;
    let answer = held::ask(session, &input.name, &input.bytes)?;
    let source = Source::new(&input.name, &input.bytes);
    if answer.number != 0 {
        return refusal(session, &source, &answer);
    }
    let file = file(&source, &answer)?;
    if file != given.bytes {
        let why = difference(&file, &given.bytes);
        session.err(&format!("{}: not the table file of {}: {why}\n", given.name, input.name));
        return Ok(Status::No);
    }
    session.out(&format!("{}: verified: this text's table, {}\n", given.name, verdict(&answer)))?;
    Ok(Status::Yes)
}

/// In what a file differs from the one that is wanted.
fn difference(wanted: &[u8], given: &[u8]) -> String {
    if given.is_empty() {
        return "it is empty".to_string();
    }
    match wanted.iter().zip(given).position(|(first, second)| first != second) {
        // The mark, the count and the length of the head record stand before the verdict.
        Some(6 | 7) => "its verdict is another".to_string(),
        Some(at) => format!("byte {at} is {:02X} and should be {:02X}", given[at], wanted[at]),
        None if given.len() > wanted.len() => format!("it has {} bytes too many", given.len() - wanted.len()),
        None => format!("it ends {} bytes too early", wanted.len() - given.len()),
    }
}
