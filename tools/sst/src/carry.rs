//! `sst carry`: whether a reading position is carried to new rules, and why not.

use crate::arguments::Arguments;
use crate::check::refusal;
use crate::held;
use crate::input::{self, Input};
use crate::known::Known;
use crate::layout::{RuleSpan, Spot, What, layout};
use crate::message::counted;
use crate::names::Names;
use crate::place::{place, quoted};
use crate::session::{Done, Session, Status, Trouble};
use crate::source::Source;
use reference::carry::{Carrier, RULE, SECTIONS};
use reference::ffi::Library;
use reference::processor::{Sort, Word, words};
use reference::quiet;
use reference::side::Reference;
use reference::walker::{WALK_BYTES, Walk};
use std::ffi::OsStr;

pub fn run(session: &mut Session, arguments: &Arguments) -> Done {
    let [old, new] = &arguments.words[..] else {
        return Err(Trouble::Usage("carry wants the old text and the new one".to_string()));
    };
    let (old, new) = (input::read(session, old)?, input::read(session, new)?);
    let walk = arguments.value("walk").map(|path| input::read(session, path)).transpose()?;
    if arguments.has("output") && walk.is_none() {
        return Err(Trouble::Usage("`-o FILE` wants `--walk FILE` too".to_string()));
    }
    let answers = [held::ask(session, &old.name, &old.bytes)?, held::ask(session, &new.name, &new.bytes)?];
    let sources = [&old, &new].map(|text| Source::new(&text.name, &text.bytes));
    if let Some((source, answer)) = sources.iter().zip(&answers).find(|(_, answer)| answer.number != 0) {
        return refusal(session, source, answer);
    }
    let [before, after] = [0, 1].map(|i| Known::new(&sources[i]));
    let layouts = [layout(&before, &answers[0].table)?, layout(&after, &answers[1].table)?];
    let between = Between {
        old: Names { known: &before, layout: &layouts[0], table: &answers[0].table },
        new: Names { known: &after, layout: &layouts[1], table: &answers[1].table },
    };
    match walk {
        None => between.rules(session),
        Some(walk) => between.walk(session, &walk, arguments.value("output")),
    }
}

/// Two accepted texts.
struct Between<'a> {
    old: Names<'a>,
    new: Names<'a>,
}

impl Between<'_> {
    /// What the library answers for a walk, with the walk that it leaves, where the second implementation does the same.
    fn carried(&self, walk: &[u8]) -> Result<(u16, Vec<u8>), Trouble> {
        let (old, new) = (self.old.known.source, self.new.known.source);
        let ask = |carrier: &dyn Carrier| {
            let mut walk = walk.to_vec();
            (carrier.carry(old.text, new.text, &mut walk), walk)
        };
        let (carried, left) = ask(&Library);
        if ask(&Reference) != (carried, left.clone()) {
            return Err(Trouble::Disagree(new.name.to_string(), "they carry a walk otherwise".to_string()));
        }
        Ok((carried.number, left))
    }

    /// A line for each old rule: whether a walk in it is carried.
    fn rules(&self, session: &mut Session) -> Done {
        let mut status = Status::Yes;
        for rule in &self.old.layout.rules {
            let number = self.number_at(rule.location)?;
            if number == SECTIONS {
                session.out(&format!("no walk is carried: {SECTIONS}: {}\n", self.sections()?))?;
                return Ok(Status::No);
            }
            let told = if number == 0 { "carried".to_string() } else { format!("{number}: {}", self.difference(rule)?) };
            session.out(&format!("rule {}, line {}: {told}\n", rule.name, rule.line))?;
            status = if number == 0 { status } else { Status::No };
        }
        Ok(status)
    }

    /// What is answered for a walk at a location, with no call pending.
    fn number_at(&self, location: usize) -> Result<u16, Trouble> {
        let walk = Walk { location: location as u16, ..Walk::fresh() };
        Ok(self.carried(&walk.encode())?.0)
    }

    /// Carries a walk, and writes it where that is wanted.
    fn walk(&self, session: &mut Session, walk: &Input, out: Option<&OsStr>) -> Done {
        let (number, left) = self.carried(&walk.bytes)?;
        let Some(state) = Walk::decode(&walk.bytes).filter(|_| number == 0) else {
            let why = self.refused(number, &walk.bytes)?;
            session.err(&format!("{}: refused {number}: {why}\n", walk.name));
            return Ok(Status::No);
        };
        let after = Walk::decode(&left).map_or(0, |walk| walk.location);
        let (from, to) = (at(&self.old, state.location), at(&self.new, after));
        let calls = counted(state.held as u64, "call");
        if let Some(out) = out {
            input::write(out, &left)?;
        }
        let out = out.map_or_else(String::new, |out| format!(": {}", out.to_string_lossy()));
        session.out(&format!("{}: carried from {from} to {to}, {calls} pending{out}\n", walk.name))?;
        Ok(Status::Yes)
    }

    /// Why a walk is not carried.
    fn refused(&self, number: u16, bytes: &[u8]) -> Result<String, Trouble> {
        match (number, Walk::decode(bytes)) {
            (SECTIONS, _) => self.sections(),
            (RULE, Some(walk)) => {
                for place in [walk.location].iter().chain(&walk.returns[..walk.held]) {
                    let inside = |rule: &&RuleSpan| (rule.location..rule.end).contains(&usize::from(*place));
                    let Some(rule) = self.old.layout.rules.iter().find(inside) else {
                        return Ok(format!("location {place} lies in no rule of {}", self.old.known.source.name));
                    };
                    if self.number_at(rule.location)? != 0 {
                        return Ok(format!("rule {}, line {}: {}", rule.name, rule.line, self.difference(rule)?));
                    }
                }
                Err(self.unexplained())
            }
            _ if bytes.len() != WALK_BYTES => Ok(format!("a walk has {WALK_BYTES} bytes, and it has {}", bytes.len())),
            _ => Ok("its bytes are no walk".to_string()),
        }
    }

    fn unexplained(&self) -> Trouble {
        Trouble::Disagree(self.new.known.source.name.to_string(), "no difference is found".to_string())
    }

    /// The first word in which the sections differ.
    fn sections(&self) -> Result<String, Trouble> {
        let (old, new) = (self.old.known.source, self.new.known.source);
        let (before, after) = (words(old.text), words(new.text));
        for (a, b) in before.iter().zip(&after) {
            if spelt(old, a) != spelt(new, b) {
                let told =
                    |source: &Source, word: &Word| format!("{} at {}", quoted(spelt(source, word)), placed(source, word.start));
                return Ok(format!("the sections differ first in {} and {}", told(old, a), told(new, b)));
            }
            if a.sort == Sort::Sign("rules") {
                break;
            }
        }
        Err(self.unexplained())
    }

    /// In what a rule of the old text differs from the new one of its name.
    fn difference(&self, rule: &RuleSpan) -> Result<String, Trouble> {
        let new = self.new.known.source;
        let Some(other) = self.new.layout.rules.iter().find(|other| other.name == rule.name) else {
            return Ok(format!("{} has no such rule", new.name));
        };
        let (before, after) = (spots(&self.old, rule), spots(&self.new, other));
        let pairs = || before.iter().zip(&after);
        let first = pairs().position(|(a, b)| key(&self.old, a) != key(&self.new, b));
        let first = first.or_else(|| pairs().position(|(a, b)| jump(&self.old, a) != jump(&self.new, b)));
        let i = first.unwrap_or(before.len().min(after.len()));
        let told = |names: &Names, spots: &[&Spot]| {
            let spot = spots.get(i).or(spots.last())?;
            Some(format!("{} at {}", names.told(spot), placed(names.known.source, spot.start)))
        };
        let (Some(a), Some(b)) = (told(&self.old, &before), told(&self.new, &after)) else { return Err(self.unexplained()) };
        if first.is_none() && before.len() == after.len() {
            return Err(self.unexplained());
        }
        Ok(format!("it differs first in {a} and {b}"))
    }
}

fn spelt<'a>(source: &Source<'a>, word: &Word) -> &'a [u8] {
    &source.text[word.start..word.start + word.len]
}

/// A byte of a text as file, line and column.
fn placed(source: &Source, start: usize) -> String {
    let at = place(source.text, start);
    format!("{}:{}:{}", source.name, at.line, at.column)
}

/// The rule and the place of a location.
fn at(names: &Names, location: u16) -> String {
    match names.layout.at(usize::from(location)) {
        None => format!("location {location}"),
        Some(spot) => {
            let rule = &names.layout.rules[spot.rule].name;
            format!("{}, rule {rule}", placed(names.known.source, spot.start))
        }
    }
}

/// The instructions of a rule.
fn spots<'a>(names: &Names<'a>, rule: &RuleSpan) -> Vec<&'a Spot> {
    let inside = |spot: &&Spot| (rule.location..rule.end).contains(&spot.location) && spot.what != What::Labels;
    names.layout.spots.iter().filter(inside).collect()
}

/// What is compared of an instruction: names stand for the locations of rules, and a choice has its labels, each with its alternative.
fn key(names: &Names, spot: &Spot) -> (What, String, Vec<(u16, usize)>) {
    if !matches!(spot.what, What::ChooseToken | What::ChooseValue) {
        return (spot.what, names.phrase(spot), Vec::new());
    }
    let (labels, _) = quiet::choice(names.table, spot.location);
    let mut targets: Vec<usize> = labels.iter().map(|(_, to)| *to).collect();
    targets.sort_unstable();
    targets.dedup();
    let alternative = |to: usize| targets.iter().position(|target| *target == to).unwrap_or(0);
    (spot.what, String::new(), labels.iter().map(|(label, to)| (*label, alternative(*to))).collect())
}

/// How far an instruction jumps: that alone differs where a cycle begins or a choice ends elsewhere.
fn jump(names: &Names, spot: &Spot) -> Option<u16> {
    let jumps = matches!(spot.what, What::Join | What::Leave | What::Again | What::Repaired);
    names.table.get(spot.location).copied().filter(|_| jumps)
}
