//! `sst run --ask`: a walk that asks for answers at a prompt, and can be stepped.

use crate::book::{self, Book};
use crate::session::{Done, Session, Status, Trouble};
use crate::walk::{EVENT_BYTES, Sum, Trace};
use reference::ffi::Library;
use reference::side::{Inputs, Side};
use reference::walker::{BUDGET, WAITS};

/// How far the walk goes before it stops at the prompt.
#[derive(Clone, Copy, PartialEq, Eq)]
enum Mode {
    /// To the next operation that asks.
    Run,
    /// One step.
    Step,
    /// To the next event.
    Event,
}

const COMMANDS: &str = "s a step, e to the next event, r to the next question, q leave";

struct Asker<'a, 'b> {
    trace: &'a Trace<'a>,
    mode: Mode,
    words: std::slice::Iter<'b, String>,
    answers: Vec<u8>,
}

/// What is said at the prompt.
enum Said {
    Go,
    Leave,
    Answer(String),
}

pub fn walk(session: &mut Session, trace: &Trace, book: &Book) -> Done {
    let mut asker = Asker { trace, mode: Mode::Run, words: book.answers.iter(), answers: Vec::new() };
    let mut sum = Sum::fresh(book);
    let mut given = None;
    while matches!(sum.number, BUDGET | WAITS) && sum.steps < book.budget {
        if sum.number == WAITS {
            let Some(answer) = asker.answer(session, &sum)? else { return left(session, trace, &sum, book) };
            asker.answers.extend(answer.to_be_bytes());
            given = Some(answer);
        } else if asker.mode == Mode::Step && !asker.go(session)? {
            return left(session, trace, &sum, book);
        }
        asker.step(session, &mut sum, given.take())?;
    }
    let inputs = Inputs { answers: &asker.answers, ..trace.inputs };
    Trace { inputs, ..*trace }.hold(&sum, book)?;
    trace.conclude(session, &sum, book)
}

fn left(session: &mut Session, trace: &Trace, sum: &Sum, book: &Book) -> Done {
    trace.conclude(session, sum, book)?;
    Ok(Status::No)
}

impl Asker<'_, '_> {
    fn step(&mut self, session: &mut Session, sum: &mut Sum, given: Option<u16>) -> Result<(), Trouble> {
        let location = usize::from(Library.location(&sum.walk));
        let mut event = [0; EVENT_BYTES];
        let (is, answer) = given.map_or((0, 0), |answer| (1, answer));
        let inputs = Inputs { answers: &[], ..self.trace.inputs };
        let done = Library.paused(inputs, is, answer, 1, &mut sum.walk, &mut event);
        let event = &event[..EVENT_BYTES * done.written as usize];
        sum.add(done.number, done.steps, event);
        if self.mode == Mode::Event && !event.is_empty() {
            self.mode = Mode::Step;
        }
        session.out(&self.trace.line(location, event, &sum.walk))?;
        session.flush()
    }

    /// The answer to the operation that asks: the next of those given, or what is said at the prompt.
    fn answer(&mut self, session: &mut Session, sum: &Sum) -> Result<Option<u16>, Trouble> {
        let known = self.trace.names.known;
        let [_, operation, _] = sum.last_event();
        if let Some(word) = self.words.next() {
            return book::answer(known, operation, word).map(Some);
        }
        loop {
            let answers = book::answers_of(known, operation).join(" or ");
            let event = self.trace.names.event(sum.last_event());
            let name = event.trim_start_matches("operation ");
            match self.said(session, &format!("{name} answers {answers}? "))? {
                Said::Leave => return Ok(None),
                Said::Go => session.err(&format!("an answer is wanted first; letters are {COMMANDS}\n")),
                Said::Answer(word) => match book::answer(known, operation, &word) {
                    Ok(answer) => return Ok(Some(answer)),
                    Err(_) => session.err(&format!("`{word}` is no answer of {name}, nor a letter: {COMMANDS}\n")),
                },
            }
        }
    }

    /// Whether the walk goes on.
    fn go(&mut self, session: &mut Session) -> Result<bool, Trouble> {
        loop {
            match self.said(session, "> ")? {
                Said::Go => return Ok(true),
                Said::Leave => return Ok(false),
                Said::Answer(_) => session.err(&format!("a letter is wanted: {COMMANDS}\n")),
            }
        }
    }

    fn said(&mut self, session: &mut Session, prompt: &str) -> Result<Said, Trouble> {
        session.flush()?;
        session.err(prompt);
        let Some(line) = line(session) else { return Ok(Said::Leave) };
        match line.trim() {
            "q" => return Ok(Said::Leave),
            "s" => self.mode = Mode::Step,
            "e" => self.mode = Mode::Event,
            "r" => self.mode = Mode::Run,
            "" => {}
            word => return Ok(Said::Answer(word.to_string())),
        }
        Ok(Said::Go)
    }
}

/// A line of standard input; nothing at its end.
fn line(session: &mut Session) -> Option<String> {
    let mut bytes = Vec::new();
    let mut byte = [0];
    while (&mut *session.streams.input).read(&mut byte).is_ok_and(|count| count == 1) {
        if byte[0] == b'\n' {
            return Some(String::from_utf8_lossy(&bytes).into_owned());
        }
        bytes.push(byte[0]);
    }
    (!bytes.is_empty()).then(|| String::from_utf8_lossy(&bytes).into_owned())
}
