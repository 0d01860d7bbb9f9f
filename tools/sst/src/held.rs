//! The library's answer for a text, held against the second processor's.

use crate::session::{Session, Trouble};
use reference::ffi::Library;
use reference::processor::MAX_TABLE;
use reference::quiet::{Measured, Measurer, TOO_LONG};

/// The figure Q of a program.
#[derive(Clone, Copy, PartialEq, Eq, Debug)]
pub enum Figure {
    /// The program is not finishing.
    None,
    Most(u64),
    TooLong,
}

/// What the library answers for a text.
#[derive(Clone, PartialEq, Eq, Debug)]
pub struct Answer {
    /// 0 where it is accepted.
    pub number: u16,
    /// The part at fault.
    pub start: usize,
    pub len: usize,
    pub table: Vec<u16>,
    pub finishing: bool,
    pub figure: Figure,
}

/// The library's own answer, with nothing held against it.
pub fn library(text: &[u8]) -> Answer {
    let mut bytes = vec![0; 2 * MAX_TABLE];
    let measured = Library.measure(text, &mut bytes);
    answer(&measured, &bytes)
}

fn answer(measured: &Measured, bytes: &[u8]) -> Answer {
    let Measured { processed, figure, figure_number } = *measured;
    let words = bytes.chunks_exact(2).map(|pair| u16::from_be_bytes([pair[0], pair[1]]));
    let figure = match (figure_number, figure) {
        (TOO_LONG, _) => Figure::TooLong,
        (_, 0) => Figure::None,
        (_, most) => Figure::Most(most),
    };
    Answer {
        number: processed.number,
        start: processed.start as usize,
        len: processed.len as usize,
        table: words.take(processed.words as usize).collect(),
        finishing: processed.finishing == 1,
        figure,
    }
}

/// The library's answer, where the second processor gives the same.
pub fn ask(session: &Session, name: &str, text: &[u8]) -> Result<Answer, Trouble> {
    let mut bytes = vec![0; 2 * MAX_TABLE];
    let second = answer(&session.second.measure(text, &mut bytes), &bytes);
    let first = library(text);
    match difference(&first, &second) {
        None => Ok(first),
        Some(why) => Err(Trouble::Disagree(name.to_string(), why)),
    }
}

/// In what two answers differ.
fn difference(first: &Answer, second: &Answer) -> Option<String> {
    if first.number != second.number {
        return Some(format!("the number is {} or {}", first.number, second.number));
    }
    if (first.start, first.len) != (second.start, second.len) {
        let part = |answer: &Answer| format!("the {} bytes from byte {} on", answer.len, answer.start);
        return Some(format!("the part at fault is {} or {}", part(first), part(second)));
    }
    if first.table != second.table {
        return Some("the tables differ".to_string());
    }
    if first.finishing != second.finishing {
        return Some("the verdicts differ".to_string());
    }
    (first.figure != second.figure).then(|| "the figures Q differ".to_string())
}
