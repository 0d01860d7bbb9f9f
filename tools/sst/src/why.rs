//! `sst why`: the way round on which a program reads no token.

use crate::arguments::Arguments;
use crate::check::{refusal, verdict};
use crate::flat;
use crate::held::{self, Answer};
use crate::input;
use crate::known::Known;
use crate::layout::{Spot, What, layout};
use crate::message::either;
use crate::names::Names;
use crate::place::place;
use crate::session::{Done, Session, Status, Trouble};
use crate::source::Source;
use crate::way::{Fact, Hop, Path, Round, Way, find};
use crate::way_check::holds;
use reference::processor::Sort;
use std::collections::{HashMap, HashSet};

pub fn run(session: &mut Session, arguments: &Arguments) -> Done {
    let input = input::read(session, arguments.one("a file")?)?;
    let answer = held::ask(session, &input.name, &input.bytes)?;
    let source = Source::new(&input.name, &input.bytes);
    if answer.number != 0 {
        return refusal(session, &source, &answer);
    }
    let known = Known::new(&source);
    let layout = layout(&known, &answer.table)?;
    let starts: Vec<usize> = layout.rules.iter().map(|rule| rule.location).collect();
    if answer.finishing {
        return finishing(session, &source, &answer, &starts);
    }
    let way = checked(&source, &answer, &starts)?;
    let names = Names { known: &known, layout: &layout, table: &answer.table };
    session.out(&tell(&names, &way).lines(&source))?;
    if let Some(out) = arguments.value("book") {
        flat::write(session, &known, &answer.table, &way, out)?;
    }
    Ok(Status::No)
}

fn finishing(session: &mut Session, source: &Source, answer: &Answer, starts: &[usize]) -> Done {
    if find(&answer.table, starts).is_some() {
        return Err(disagree(source, "the library says finishing, and a way round was found"));
    }
    let verdict = verdict(answer);
    session.out(&format!(
        "{}: {verdict}: each way round a cycle reads a token, and no rule comes to a call of itself before it reads one\n",
        source.name
    ))?;
    Ok(Status::Yes)
}

fn disagree(source: &Source, why: &str) -> Trouble {
    Trouble::Disagree(source.name.to_string(), why.to_string())
}

/// A way round that was checked.
fn checked(source: &Source, answer: &Answer, starts: &[usize]) -> Result<Way, Trouble> {
    let way = find(&answer.table, starts);
    let way = way.ok_or_else(|| disagree(source, "the library says not finishing, and no way round was found"))?;
    if !holds(&answer.table, starts, &way) {
        return Err(disagree(source, "the way round does not follow from the table"));
    }
    Ok(way)
}

/// A way round in words: the cycle or rule that it is about, and a line a step.
pub struct Told {
    pub start: usize,
    pub len: usize,
    pub sentence: String,
    pub steps: Vec<String>,
}

impl Told {
    pub fn lines(&self, source: &Source) -> String {
        format!("{}: not finishing: {}\n{}", source.name, self.sentence, self.path())
    }

    /// The steps, cut where they are many.
    pub fn path(&self) -> String {
        let mut out: String = self.steps.iter().take(MOST_LINES).map(|step| format!("{step}\n")).collect();
        if self.steps.len() > MOST_LINES {
            out.push_str(&format!("{:>8}  .. and {} more steps\n", "", self.steps.len() - MOST_LINES));
        }
        out
    }
}

/// The way round of a program that is not finishing, in words.
pub fn told(known: &Known, answer: &Answer) -> Result<Told, Trouble> {
    let layout = layout(known, &answer.table)?;
    let starts: Vec<usize> = layout.rules.iter().map(|rule| rule.location).collect();
    let way = checked(known.source, answer, &starts)?;
    Ok(tell(&Names { known, layout: &layout, table: &answer.table }, &way))
}

fn tell(names: &Names, way: &Way) -> Told {
    let facts = way.facts.iter().map(|(fact, path)| (*fact, path)).collect();
    let mut teller = Teller { names, facts, told: HashSet::new(), steps: Vec::new() };
    let (start, len, sentence) = match &way.round {
        Round::Cycle(path) => teller.cycle(path),
        Round::Calls(paths) => teller.calls(paths),
    };
    Told { start, len, sentence, steps: teller.steps }
}

/// The most lines that are shown.
const MOST_LINES: usize = 60;

struct Teller<'a> {
    names: &'a Names<'a>,
    facts: HashMap<Fact, &'a Path>,
    /// What was told before is not told again.
    told: HashSet<Fact>,
    steps: Vec<String>,
}

impl Teller<'_> {
    fn line(&mut self, start: usize, depth: usize, words: &str) {
        let at = place(self.names.known.source.text, start);
        self.steps.push(format!("{:>8}  {:width$}{words}", format!("{}:{}", at.line, at.column), "", width = 2 * depth));
    }

    fn cycle(&mut self, path: &Path) -> (usize, usize, String) {
        self.path(path, 0);
        let Some(end) = self.names.layout.at(path.end()).copied() else { return (0, 0, "a cycle reads no token".to_string()) };
        self.line(end.start, 0, "and again");
        let rule = &self.names.layout.rules[end.rule].name;
        let open = self.open(end.start).unwrap_or(end.start);
        let line = place(self.names.known.source.text, open).line;
        let len = self.names.known.source.word(self.names.known.source.at(open)).len;
        (open, len, format!("this way round the cycle of line {line}, in rule {rule}, reads no token"))
    }

    /// Where the cycle begins whose end stands there.
    fn open(&self, close: usize) -> Option<usize> {
        let source = self.names.known.source;
        let mut depth = 0;
        for at in (0..=source.at(close)).rev() {
            match source.word(at).sort {
                Sort::Sign("}" | "]") => depth += 1,
                Sort::Sign("{" | "[") => depth -= 1,
                _ => {}
            }
            if depth == 0 {
                return Some(source.word(at).start);
            }
        }
        None
    }

    fn calls(&mut self, paths: &[Path]) -> (usize, usize, String) {
        for path in paths {
            if let Some(rule) = self.names.layout.rule_at(path.from) {
                self.line(rule.start, 0, &format!("{} begins", rule.name));
            }
            self.path(path, 1);
            if let Some(spot) = self.names.layout.at(path.end()).copied() {
                self.line(spot.start, 1, &format!("{} is called", self.names.phrase(&spot)));
            }
        }
        let first = paths.first().and_then(|path| self.names.layout.rule_at(path.from));
        let Some(rule) = first else { return (0, 0, "a rule comes to a call of itself".to_string()) };
        let sentence = format!("rule {} comes to a call of itself and reads no token before it", rule.name);
        (rule.start, self.names.known.source.word(self.names.known.source.at(rule.start)).len, sentence)
    }

    fn path(&mut self, path: &Path, depth: usize) {
        path.hops.iter().for_each(|hop| self.hop(hop, depth));
    }

    fn hop(&mut self, hop: &Hop, depth: usize) {
        let names = self.names;
        let Some(spot) = names.layout.at(hop.from).copied() else { return };
        match spot.what {
            What::Constant | What::Ask | What::Join | What::Labels => {}
            What::Call => self.call(&spot, hop, depth),
            What::ChooseToken => self.line(spot.start, depth, "the next token has no label here, or there is none: *"),
            What::ChooseValue => self.answers(&spot, hop, depth),
            What::Again => self.line(spot.start, depth, "} and again in this cycle"),
            _ => self.line(spot.start, depth, &names.phrase(&spot)),
        }
    }

    /// An operation's answer, and where it leads.
    fn answers(&mut self, spot: &Spot, hop: &Hop, depth: usize) {
        let names = self.names;
        let labels = names.labels(spot, hop.to);
        let Some(asked) = names.layout.at(spot.location - 1).copied() else { return };
        let answer = if labels.is_empty() { "what has no label: *".to_string() } else { either(&labels, "or") };
        self.line(asked.start, depth, &format!("{} answers {answer}", names.phrase(&asked)));
    }

    fn call(&mut self, spot: &Spot, hop: &Hop, depth: usize) {
        let names = self.names;
        let Some(fact @ (rule, value)) = hop.through else { return };
        let of = names.layout.rule_at(rule).and_then(|rule| rule.of);
        let value = value.map(|value| format!(" returns {}", names.value(of, value))).unwrap_or_default();
        let first = self.told.insert(fact);
        let path = self.facts.get(&fact).copied();
        let how = if first { ", reading no token" } else { ", as above" };
        self.line(spot.start, depth, &format!("{}{value}{how}", names.phrase(spot)));
        if let Some(path) = path.filter(|_| first) {
            self.path(path, depth + 1);
            let end = names.layout.at(path.end()).copied();
            if let Some(end) = end.filter(|end| matches!(end.what, What::Result | What::Return)) {
                self.line(end.start, depth + 1, &names.phrase(&end));
            }
        }
    }
}
