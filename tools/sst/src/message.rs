//! Messages about a place of a text, as compilers give them, and the same as objects of JSON.

use crate::place::{json, place, shown};
use crate::session::Session;
use crate::source::Source;

/// What a message is.
#[derive(Clone, Copy, PartialEq, Eq, Debug)]
pub enum Level {
    Fault(u16),
    /// Accepted, but not what was required.
    Refused,
    Warning,
}

/// A sentence about a part of a text, with further ones below it.
#[derive(Clone, PartialEq, Eq, Debug)]
pub struct Message {
    pub level: Level,
    pub start: usize,
    pub len: usize,
    pub sentence: String,
    pub notes: Vec<String>,
}

const BOLD: &str = "\x1b[1m";
const RED: &str = "\x1b[1;31m";
const YELLOW: &str = "\x1b[1;33m";
const PLAIN: &str = "\x1b[0m";

impl Message {
    /// As it is shown to a reader.
    pub fn lines(&self, source: &Source, colours: bool) -> String {
        let at = place(source.text, self.start);
        let (level, colour) = match self.level {
            Level::Fault(number) => (format!("fault {number}"), RED),
            Level::Refused => ("refused".to_string(), RED),
            Level::Warning => ("warning".to_string(), YELLOW),
        };
        let paint = |text: &str, colour: &str| if colours { format!("{colour}{text}{PLAIN}") } else { text.to_string() };
        let head = paint(&format!("{}:{}:{}:", source.name, at.line, at.column), BOLD);
        let mut out = format!("{head} {}: {}\n", paint(&level, colour), self.sentence);
        out.push_str(&shown(source.text, self.start, self.len));
        for note in &self.notes {
            out.push_str(&format!("{:>5} = {note}\n", ""));
        }
        out
    }

    /// As an object of JSON.
    pub fn object(&self, source: &Source) -> String {
        let at = place(source.text, self.start);
        let (level, number) = match self.level {
            Level::Fault(number) => ("fault", format!(",\"number\":{number}")),
            Level::Refused => ("refused", String::new()),
            Level::Warning => ("warning", String::new()),
        };
        let notes: Vec<String> = self.notes.iter().map(|note| json(note)).collect();
        format!(
            "{{\"file\":{},\"level\":\"{level}\"{number},\"line\":{},\"column\":{},\"start\":{},\"length\":{},\"message\":{},\
             \"notes\":[{}]}}\n",
            json(source.name),
            at.line,
            at.column,
            self.start,
            self.len,
            json(&self.sentence),
            notes.join(",")
        )
    }

    pub fn show(&self, session: &mut Session, source: &Source) {
        let lines = self.lines(source, session.streams.colours);
        session.err(&lines);
    }
}

/// Things in a row: `a`, `b` or `c`.
pub fn either(things: &[String], last: &str) -> String {
    match things {
        [] => String::new(),
        [one] => one.clone(),
        [first @ .., end] => format!("{} {last} {end}", first.join(", ")),
    }
}

/// A number with commas between its thousands.
pub fn grouped(number: u128) -> String {
    let digits = number.to_string();
    let mut out = String::new();
    for (i, digit) in digits.chars().enumerate() {
        if i > 0 && (digits.len() - i) % 3 == 0 {
            out.push(',');
        }
        out.push(digit);
    }
    out
}

/// So many things: 1 word, 2,000 words.
pub fn counted(number: u64, thing: &str) -> String {
    let plural = if number == 1 { "" } else { "s" };
    format!("{} {thing}{plural}", grouped(u128::from(number)))
}
