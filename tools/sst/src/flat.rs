//! `sst why --book`: a book on which the library walks without end, for a way round that answers alone can take.

use crate::input;
use crate::known::{Class, Known};
use crate::message::counted;
use crate::reach::{Lead, Reach};
use crate::session::{Session, Trouble};
use crate::way::{Fact, Hop, Path, Round, Way};
use reference::ffi::Library;
use reference::quiet::choice;
use reference::side::{Inputs, Side};
use reference::walker::{BUDGET, ROOM, WALK_BYTES};
use std::collections::HashMap;
use std::ffi::OsStr;

/// Steps that the library walks on the book.
const STEPS: u64 = 1_000_000;
/// The most steps of one round.
const MOST_ROUND: usize = 100_000;

/// Writes the book, and says what the library did on it.
pub fn write(session: &mut Session, known: &Known, table: &[u16], way: &Way, out: &OsStr) -> Result<(), Trouble> {
    let Round::Cycle(path) = &way.round else {
        session.out("no book: a walk on this way stops with 33, as 64 calls are pending then\n")?;
        return Ok(());
    };
    let Some((lead, round)) = found(known, table, way, path) else {
        session
            .out("no book: no walk was found that comes there; the verdict looks at each cycle by itself, and no further\n")?;
        return Ok(());
    };
    let answers = repeated(&lead, &round);
    let Some(read) = walked(table, &lead.tokens, &answers) else {
        session.out("no book: no walk was found that goes on so; the verdict looks no further than quiet paths\n")?;
        return Ok(());
    };
    let words = |words: &[u16]| words.iter().map(|word| format!(" {word}")).collect::<String>();
    let book = format!("tokens:{}\nanswers:{}\nbudget: {STEPS}\n", words(&lead.tokens), words(&answers));
    input::write(out, book.as_bytes())?;
    let (steps, file) = (counted(STEPS, "step"), out.to_string_lossy());
    let tokens = counted(read, "token");
    session.out(&format!("{file}: on this book the library walked {steps} and read {tokens}\n"))
}

/// What leads to the cycle, and the answers and steps of one round.
fn found<'a>(known: &Known, table: &'a [u16], way: &'a Way, path: &Path) -> Option<(Lead, Flat<'a>)> {
    let tokens: Vec<u16> = known.of_class(Class::Input).filter_map(|token| token.value).collect();
    let lead = Reach { table, tokens: &tokens }.lead(path.from)?;
    let facts = way.facts.iter().map(|(fact, path)| (*fact, path)).collect();
    let mut round = Flat { table, facts, answers: Vec::new(), steps: 1 };
    round.path(path)?;
    Some((lead, round))
}

/// A round with its called rules' paths put in.
struct Flat<'a> {
    table: &'a [u16],
    facts: HashMap<Fact, &'a Path>,
    answers: Vec<u16>,
    steps: usize,
}

impl Flat<'_> {
    fn path(&mut self, path: &Path) -> Option<()> {
        path.hops.iter().try_for_each(|hop| self.hop(hop))
    }

    fn hop(&mut self, hop: &Hop) -> Option<()> {
        self.steps += 1;
        if self.steps > MOST_ROUND {
            return None;
        }
        if let Some(fact) = hop.through {
            let path = *self.facts.get(&fact)?;
            return self.path(path);
        }
        if self.table[hop.from - 1] == 11 {
            let (labels, default) = choice(self.table, hop.from);
            let label = labels.iter().find(|(_, to)| *to == hop.to && hop.to != default).map(|(label, _)| *label);
            let other = || (0..=u16::MAX).find(|answer| !labels.iter().any(|(label, _)| label == answer));
            self.answers.push(label.or_else(other)?);
        }
        Some(())
    }
}

/// Answers enough for the budget: those of the lead, and then those of the round over and over.
fn repeated(lead: &Lead, round: &Flat) -> Vec<u16> {
    let rounds = STEPS as usize / round.steps + 2;
    let again = std::iter::repeat_n(&round.answers, rounds).flatten();
    lead.answers.iter().chain(again).copied().collect()
}

/// The tokens that the library reads in so many steps, where it goes on to the last of them.
fn walked(table: &[u16], tokens: &[u16], answers: &[u16]) -> Option<u64> {
    let bytes = |words: &[u16]| words.iter().flat_map(|word| word.to_be_bytes()).collect::<Vec<u8>>();
    let (table, tokens, answers) = (bytes(table), bytes(tokens), bytes(answers));
    let inputs = Inputs { table: &table, tokens: &tokens, answers: &answers };
    let mut walk = [0; WALK_BYTES];
    let mut events = vec![0; 6 * 1024];
    Library.fresh(&mut walk, 0);
    let mut left = STEPS;
    loop {
        let done = Library.whole(inputs, left, &mut walk, &mut events);
        left -= done.steps;
        match done.number {
            ROOM => {}
            BUDGET if left == 0 => return Some(Library.read(&walk)),
            _ => return None,
        }
    }
}
