//! `sst check`: what the library says of texts, with the fault explained where it is, as compilers do.

use crate::arguments::Arguments;
use crate::explain::explain;
use crate::held::{self, Answer, Figure};
use crate::input;
use crate::known::Known;
use crate::message::{Level, Message, counted, grouped};
use crate::place::json;
use crate::session::{Done, Session, Status, Trouble};
use crate::source::Source;
use crate::{warnings, why};
use std::ffi::OsStr;

pub fn run(session: &mut Session, arguments: &Arguments) -> Done {
    if arguments.words.is_empty() {
        return Err(Trouble::Usage("check wants a file, or several".to_string()));
    }
    let warn = match arguments.value("warn").map(OsStr::to_string_lossy).as_deref() {
        None | Some("all") => true,
        Some("none") => false,
        Some(other) => return Err(Trouble::Usage(format!("`--warn` takes `all` or `none`, and not `{other}`"))),
    };
    let check = Check { json: arguments.has("json"), required: arguments.has("require-finishing"), warn };
    let mut worst = Status::Yes;
    for path in &arguments.words {
        let status = match check.file(session, path) {
            Err(trouble @ (Trouble::File(_) | Trouble::Disagree(..))) => session.report(&trouble),
            other => other?,
        };
        worst = worst.max(status);
    }
    Ok(worst)
}

struct Check {
    json: bool,
    required: bool,
    warn: bool,
}

impl Check {
    fn file(&self, session: &mut Session, path: &OsStr) -> Done {
        let input = input::read(session, path)?;
        let answer = held::ask(session, &input.name, &input.bytes)?;
        let source = Source::new(&input.name, &input.bytes);
        if answer.number != 0 {
            self.show(session, &source, &explain(&source, &answer))?;
            return Ok(Status::No);
        }
        let known = Known::new(&source);
        if self.warn {
            for warning in warnings::warnings(&known) {
                self.show(session, &source, &warning)?;
            }
        }
        if !answer.finishing && (self.warn || self.required) {
            self.not_finishing(session, &known, &answer)?;
        }
        let line = if self.json { accepted(&source, &answer) } else { format!("{}: {}\n", source.name, summary(&answer)) };
        session.out(&line)?;
        Ok(if self.required && !answer.finishing { Status::No } else { Status::Yes })
    }

    fn not_finishing(&self, session: &mut Session, known: &Known, answer: &Answer) -> Result<(), Trouble> {
        let told = why::told(known, answer)?;
        let level = if self.required { Level::Refused } else { Level::Warning };
        let notes = if self.json { told.steps.iter().map(|step| step.trim_start().to_string()).collect() } else { Vec::new() };
        let sentence = format!("not finishing: {}", told.sentence);
        self.show(session, known.source, &Message { level, start: told.start, len: told.len, sentence, notes })?;
        if !self.json {
            session.err(&told.path());
        }
        Ok(())
    }

    fn show(&self, session: &mut Session, source: &Source, message: &Message) -> Result<(), Trouble> {
        if self.json {
            return session.out(&message.object(source));
        }
        message.show(session, source);
        Ok(())
    }
}

/// An accepted text as an object of JSON.
fn accepted(source: &Source, answer: &Answer) -> String {
    let figure = match answer.figure {
        Figure::Most(most) => most.to_string(),
        Figure::None | Figure::TooLong => "null".to_string(),
    };
    let (name, words) = (json(source.name), answer.table.len());
    let finishing = answer.finishing;
    format!("{{\"file\":{name},\"level\":\"accepted\",\"words\":{words},\"finishing\":{finishing},\"figure\":{figure}}}\n")
}

/// Words, verdict and figure of an accepted text.
pub fn summary(answer: &Answer) -> String {
    format!("{}, {}", counted(answer.table.len() as u64, "word"), verdict(answer))
}

pub fn verdict(answer: &Answer) -> String {
    match answer.figure {
        Figure::None => "not finishing".to_string(),
        Figure::Most(most) => format!("finishing, Q = {most}"),
        Figure::TooLong => format!("finishing, Q is above {}", grouped(u128::from(reference::quiet::GREATEST))),
    }
}

/// Explains a text that is refused where an accepted one is wanted.
pub fn refusal(session: &mut Session, source: &Source, answer: &Answer) -> Done {
    explain(source, answer).show(session, source);
    Ok(Status::No)
}
