//! What is wrong at the word at fault: a sentence for the case at hand, and notes.

mod classes;
mod limits;
mod nearest;
mod operators;
mod returns;
mod syntax;
mod twice;

use crate::held::Answer;
use crate::known::Known;
use crate::message::{Level, Message};
use crate::source::Source;
use reference::processor::At;

pub use nearest::{near as nearest_of, nearest};

/// A sentence, and what stands below it.
pub struct Explained {
    sentence: String,
    notes: Vec<String>,
}

impl Explained {
    fn new(sentence: String) -> Explained {
        Explained { sentence, notes: Vec::new() }
    }

    fn note(mut self, note: impl Into<String>) -> Explained {
        self.notes.push(note.into());
        self
    }

    fn notes(mut self, notes: impl IntoIterator<Item = String>) -> Explained {
        self.notes.extend(notes);
        self
    }
}

/// The fault of a text that the library has refused.
pub fn explain(source: &Source, answer: &Answer) -> Message {
    let known = Known::new(source);
    let at = source.at(answer.start);
    let Explained { sentence, notes } = explained(&known, answer, at).unwrap_or_else(|| general(answer.number));
    Message { level: Level::Fault(answer.number), start: answer.start, len: answer.len, sentence, notes }
}

fn explained(known: &Known, answer: &Answer, at: At) -> Option<Explained> {
    match answer.number {
        1 => Some(syntax::no_word(known.source, at)),
        2 => Some(syntax::not_here(known.source, at)),
        3 => classes::unknown(known, at),
        4 => twice::declared(known, at),
        5 => classes::other_class(known, at),
        6 => twice::label(known, at),
        7 => Some(returns::exit()),
        8 => returns::returns(known, at),
        9 => limits::limit(known, at),
        20 => Some(limits::table(known.source)),
        45 => operators::contradiction(known, at),
        _ => None,
    }
}

/// What the number says of any text.
fn general(number: u16) -> Explained {
    let sentence = match number {
        3 => "this is declared nowhere, or it is a type that is declared later",
        4 => "this is declared twice, or its value is",
        5 => "this is declared, but not in the class wanted here",
        6 => "this label is repeated",
        8 => "the rule does not return as its head says",
        9 => "this passes a limit",
        45 => "this contradicts another operator of the section",
        _ => "this is refused",
    };
    Explained::new(sentence.to_string())
}
