//! `sst run`: a walk by names, step by step.

use crate::arguments::Arguments;
use crate::ask;
use crate::book::{self, Book};
use crate::check::refusal;
use crate::held;
use crate::input;
use crate::known::Known;
use crate::layout::{Layout, What, layout};
use crate::message::counted;
use crate::names::Names;
use crate::place::place;
use crate::session::{Done, Session, Status, Trouble};
use crate::source::Source;
use reference::ffi::Library;
use reference::side::{Inputs, Reference, Side};
use reference::walker::{BUDGET, WAITS, WALK_BYTES};

/// Steps that are walked where no budget is set.
const USUAL_STEPS: u64 = 100_000;
pub const EVENT_BYTES: usize = 6;

pub fn run(session: &mut Session, arguments: &Arguments) -> Done {
    let Some(path) = arguments.words.first() else { return Err(Trouble::Usage("run wants a file".to_string())) };
    if path == "-" && arguments.has("ask") {
        return Err(Trouble::Usage("with `--ask` the answers come from standard input, and the program cannot".to_string()));
    }
    let input = input::read(session, path)?;
    let answer = held::ask(session, &input.name, &input.bytes)?;
    let source = Source::new(&input.name, &input.bytes);
    if answer.number != 0 {
        return refusal(session, &source, &answer);
    }
    let known = Known::new(&source);
    let layout = layout(&known, &answer.table)?;
    let mut book = book::given(session, arguments, &known)?;
    if book.budget == book::USUAL_BUDGET {
        book.budget = USUAL_STEPS;
    }
    let names = Names { known: &known, layout: &layout, table: &answer.table };
    let table: Vec<u8> = answer.table.iter().flat_map(|word| word.to_be_bytes()).collect();
    let tokens: Vec<u8> = book.tokens.iter().flat_map(|word| word.to_be_bytes()).collect();
    let quiet = arguments.has("quiet");
    if arguments.has("ask") {
        let inputs = Inputs { table: &table, tokens: &tokens, answers: &[] };
        return ask::walk(session, &Trace { names: &names, layout: &layout, inputs, quiet }, &book);
    }
    let answers = answers(&known, &table, &tokens, &book)?;
    let inputs = Inputs { table: &table, tokens: &tokens, answers: &answers };
    Trace { names: &names, layout: &layout, inputs, quiet }.walk(session, &book)
}

/// The answers as words: their names are looked up in the type of the operation that asks, as the walk comes to it.
pub fn answers(known: &Known, table: &[u8], tokens: &[u8], book: &Book) -> Result<Vec<u8>, Trouble> {
    let mut walk = [0; WALK_BYTES];
    let mut events = [0; EVENT_BYTES];
    let mut out = Vec::new();
    let mut left = book.budget;
    Library.fresh(&mut walk, book.allowance);
    let mut given = None;
    let mut words = book.answers.iter();
    loop {
        let inputs = Inputs { table, tokens, answers: &[] };
        let (is, word) = given.take().map_or((0, 0), |word| (1, word));
        let done = Library.paused(inputs, is, word, left, &mut walk, &mut events);
        left -= done.steps;
        if done.number == WAITS {
            let Some(word) = words.next() else { break };
            let operation = u16::from_be_bytes([events[2], events[3]]);
            let word = book::answer(known, operation, word)?;
            out.extend(word.to_be_bytes());
            given = Some(word);
        } else if done.number != reference::walker::ROOM {
            break;
        }
    }
    Ok(out)
}

/// A walk whose steps are shown.
pub struct Trace<'a> {
    pub names: &'a Names<'a>,
    pub layout: &'a Layout,
    pub inputs: Inputs<'a>,
    pub quiet: bool,
}

/// Sums over the steps of a walk.
pub struct Sum {
    pub number: u16,
    pub steps: u64,
    pub events: Vec<u8>,
    pub walk: [u8; WALK_BYTES],
}

impl Sum {
    pub fn fresh(book: &Book) -> Sum {
        let mut walk = [0; WALK_BYTES];
        Library.fresh(&mut walk, book.allowance);
        Sum { number: BUDGET, steps: 0, events: Vec::new(), walk }
    }

    pub fn add(&mut self, number: u16, steps: u64, event: &[u8]) {
        self.number = number;
        self.steps += steps;
        self.events.extend(event);
    }

    /// The words of the last event.
    pub fn last_event(&self) -> [u16; 3] {
        let event = &self.events[self.events.len().saturating_sub(EVENT_BYTES)..];
        let word = |i: usize| event.get(2 * i..2 * i + 2).map_or(0, |word| u16::from_be_bytes([word[0], word[1]]));
        [word(0), word(1), word(2)]
    }
}

impl Trace<'_> {
    fn walk(&self, session: &mut Session, book: &Book) -> Done {
        let mut sum = Sum::fresh(book);
        while sum.steps < book.budget && sum.number == BUDGET {
            let location = usize::from(Library.location(&sum.walk));
            let mut event = [0; EVENT_BYTES];
            let done = Library.whole(self.inputs, 1, &mut sum.walk, &mut event);
            let event = &event[..EVENT_BYTES * done.written as usize];
            sum.add(done.number, done.steps, event);
            session.out(&self.line(location, event, &sum.walk))?;
        }
        self.hold(&sum, book)?;
        self.conclude(session, &sum, book)
    }

    /// What the walk ended with.
    pub fn conclude(&self, session: &mut Session, sum: &Sum, book: &Book) -> Done {
        let (read, used) = (Library.read(&sum.walk), Library.used(&sum.walk));
        let tokens = counted(book.tokens.len() as u64, "token");
        let counts = format!("{}, {read} of {tokens} read, {} used", counted(sum.steps, "step"), counted(used, "answer"));
        session.out(&format!("number {}: {}; {counts}\n", sum.number, meaning(sum.number)))?;
        Ok(if sum.number == 0 { Status::Yes } else { Status::No })
    }

    /// A step: its rule, its place, what was done, and its event. The walk is the one behind the step.
    pub fn line(&self, location: usize, event: &[u8], walk: &[u8]) -> String {
        let word = |i: usize| u16::from_be_bytes([event[2 * i], event[2 * i + 1]]);
        let event = if event.is_empty() { None } else { Some(self.names.event([word(0), word(1), word(2)])) };
        if self.quiet {
            return event.map_or_else(String::new, |event| format!("{event}\n"));
        }
        let Some(spot) = self.layout.at(location) else { return format!("{location}\n") };
        let at = place(self.names.known.source.text, spot.start);
        let rule = &self.layout.rules[spot.rule].name;
        let event = event.map(|event| format!("  {event}")).unwrap_or_default();
        let phrase = match spot.what {
            What::ChooseToken | What::ChooseValue => self.names.taken(spot, usize::from(Library.location(walk))),
            _ => self.names.phrase(spot),
        };
        let line = format!("{location:>6}  {rule:16} {:>7}  {phrase:16}{event}", format!("{}:{}", at.line, at.column));
        format!("{}\n", line.trim_end())
    }

    /// The same walk in one call, by the library and by the second walker.
    pub fn hold(&self, sum: &Sum, book: &Book) -> Result<(), Trouble> {
        let whole = |side: &dyn Side| {
            let mut walk = [0; WALK_BYTES];
            let mut events = vec![0; sum.events.len() + EVENT_BYTES];
            side.fresh(&mut walk, book.allowance);
            let done = side.whole(self.inputs, book.budget, &mut walk, &mut events);
            events.truncate(EVENT_BYTES * done.written as usize);
            (done.number, done.steps, walk, events)
        };
        let stepped = (sum.number, sum.steps, sum.walk, sum.events.clone());
        if whole(&Library) == stepped && whole(&Reference) == stepped {
            return Ok(());
        }
        let name = self.names.known.source.name.to_string();
        Err(Trouble::Disagree(name, "the walks differ".to_string()))
    }
}

/// What a walk's number says.
pub fn meaning(number: u16) -> &'static str {
    match number {
        0 => "the walk has ended",
        30 => "stopped: another token is required here, and no repair is left",
        31 => "stopped: a token is required, and there is none",
        32 => "stopped: the choice has no label for the value",
        33 => "stopped: a call with 64 pending",
        34 => "stopped: an operation asks, and there is no answer left",
        22 => "left where an operation asks",
        36 => "the budget is done",
        _ => "stopped",
    }
}
