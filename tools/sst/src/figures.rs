//! `sst figures`: exact figures over a shelf of books, with the place of each action that was never executed.

use crate::arguments::Arguments;
use crate::book::{self, Book};
use crate::check::refusal;
use crate::held;
use crate::input;
use crate::known::Known;
use crate::layout::{Layout, What, layout};
use crate::message::counted;
use crate::names::Names;
use crate::place::place;
use crate::session::{Done, Session, Status, Trouble};
use crate::source::Source;
use crate::walk::{EVENT_BYTES, answers, meaning};
use reference::ffi::Library;
use reference::figures::Figures;
use reference::side::{Inputs, Reference, Side};
use reference::walker::{ROOM, WALK_BYTES};
use std::ffi::OsStr;

const FIGURES_BYTES: usize = 33_296;

pub fn run(session: &mut Session, arguments: &Arguments) -> Done {
    let Some((path, books)) = arguments.words.split_first() else {
        return Err(Trouble::Usage("figures wants a file and books".to_string()));
    };
    let input = input::read(session, path)?;
    let answer = held::ask(session, &input.name, &input.bytes)?;
    let source = Source::new(&input.name, &input.bytes);
    if answer.number != 0 {
        return refusal(session, &source, &answer);
    }
    let known = Known::new(&source);
    let layout = layout(&known, &answer.table)?;
    let table = answer.table.iter().flat_map(|word| word.to_be_bytes()).collect();
    let mut shelf = Shelf { known: &known, table, figures: vec![0; FIGURES_BYTES] };
    for (i, path) in (1..).zip(books) {
        session.progress(&format!("book {i} of {}: {}", books.len(), path.to_string_lossy()));
        let told = shelf.read(session, path);
        session.progress("");
        session.out(&told?)?;
    }
    let names = Names { known: &known, layout: &layout, table: &answer.table };
    shelf.report(session, &names)?;
    shelf.instructions(session, &names, arguments.has("counts"))?;
    if let Some(out) = arguments.value("lcov") {
        input::write(out, lcov(&shelf, &layout).as_bytes())?;
    }
    Ok(Status::Yes)
}

struct Shelf<'a> {
    known: &'a Known<'a>,
    table: Vec<u8>,
    figures: Vec<u8>,
}

impl Shelf<'_> {
    fn read(&mut self, session: &mut Session, path: &OsStr) -> Result<String, Trouble> {
        let file = input::read(session, path)?;
        self.add(&file.name, &book::read(self.known, &file.name, &file.bytes)?)
    }

    /// Adds a book, and tells how its walk ended.
    fn add(&mut self, name: &str, book: &Book) -> Result<String, Trouble> {
        let tokens: Vec<u8> = book.tokens.iter().flat_map(|word| word.to_be_bytes()).collect();
        let answers = answers(self.known, &self.table, &tokens, book)?;
        let inputs = Inputs { table: &self.table, tokens: &tokens, answers: &answers };
        let room = EVENT_BYTES * (events(inputs, book) + 1);
        let mut second = self.figures.clone();
        let done = Library.add_book(inputs, book.budget, book.allowance, &mut self.figures, &mut vec![0; room]);
        let other = Reference.add_book(inputs, book.budget, book.allowance, &mut second, &mut vec![0; room]);
        if (done.number, done.steps) != (other.number, other.steps) || second != self.figures {
            return Err(Trouble::Disagree(name.to_string(), "the figures differ".to_string()));
        }
        if matches!(done.number, 21 | 46) {
            return Err(Trouble::Refused(format!("{name}: refused {}: the sums would pass 64 bits", done.number)));
        }
        let steps = counted(done.steps, "step");
        Ok(format!("book {name}: {steps}, number {}: {}\n", done.number, meaning(done.number)))
    }

    /// How often a location was executed.
    fn count(&self, location: usize) -> u64 {
        let bytes = self.figures[8 * (location - 1)..8 * location].iter();
        bytes.fold(0, |number, byte| number << 8 | u64::from(*byte))
    }

    fn report(&self, session: &mut Session, names: &Names) -> Result<(), Trouble> {
        let shelf = Library.shelf(&self.figures);
        let layout = names.layout;
        let instructions = layout.spots.iter().filter(|spot| spot.what != What::Labels).count();
        let (books, steps) = (counted(shelf.books, "book"), counted(shelf.total, "step"));
        session.out(&format!("{books}, {steps}, mean {} remainder {}\n", shelf.mean, shelf.rest))?;
        session.out(&format!("{} of {instructions} instructions executed\n", shelf.covered))?;
        for rule in &layout.rules {
            let (_, total) = Library.rule_total(&self.figures, rule.location as u64, rule.end as u64);
            let tenths = (1000 * u128::from(total)).checked_div(u128::from(shelf.total)).unwrap_or(0);
            let share = format!("{}.{}%", tenths / 10, tenths % 10);
            session.out(&format!("rule {}, line {}: {}, {share}\n", rule.name, rule.line, counted(total, "execution")))?;
        }
        Ok(())
    }

    /// Instructions that no book came to, and the counts of the others where they are wanted.
    fn instructions(&self, session: &mut Session, names: &Names, counts: bool) -> Result<(), Trouble> {
        for spot in names.layout.spots.iter().filter(|spot| !matches!(spot.what, What::Labels | What::Constant)) {
            let at = place(names.known.source.text, spot.start);
            let rule = &names.layout.rules[spot.rule].name;
            let told = format!("{}:{} {}, rule {rule}, location {}", at.line, at.column, names.told(spot), spot.location);
            match self.count(spot.location) {
                0 => session.out(&format!("never {told}\n"))?,
                count if counts => session.out(&format!("count {told}: {}\n", counted(count, "execution")))?,
                _ => {}
            }
        }
        Ok(())
    }
}

/// The events that a book's walk writes.
fn events(inputs: Inputs, book: &Book) -> usize {
    let mut walk = [0; WALK_BYTES];
    let mut events = vec![0; EVENT_BYTES * 1024];
    let (mut all, mut left) = (0, book.budget);
    Library.fresh(&mut walk, book.allowance);
    loop {
        let done = Library.whole(inputs, left, &mut walk, &mut events);
        all += done.written as usize;
        left -= done.steps;
        if done.number != ROOM {
            return all;
        }
    }
}

/// Lines and their counts, as coverage tools read them: a line's is the greatest of its instructions'.
fn lcov(shelf: &Shelf, layout: &Layout) -> String {
    let source = shelf.known.source;
    let mut lines = std::collections::BTreeMap::new();
    for spot in layout.spots.iter().filter(|spot| spot.what != What::Labels) {
        let count: &mut u64 = lines.entry(place(source.text, spot.start).line).or_default();
        *count = shelf.count(spot.location).max(*count);
    }
    let rows: String = lines.iter().map(|(line, count)| format!("DA:{line},{count}\n")).collect();
    let hit = lines.values().filter(|count| **count > 0).count();
    format!("TN:\nSF:{}\n{rows}LF:{}\nLH:{hit}\nend_of_record\n", source.name, lines.len())
}
