//! Parts translated separately (A.13): the words of a part are read behind those of the common part, as if both were one text, and
//! its calls go by the common part's list.

use super::{
    Act, At, By, Choice, MAX_NAMES, MAX_TEXT, Names, Node, Parser, Program, Read, Selector, Sort, Tree, Word, first_early,
    first_late, values, words,
};
use std::collections::{HashMap, HashSet};
use std::ops::Range;
use std::{iter, slice};

/// The number of a common part among the texts; the parts count from 1.
pub const COMMON: usize = 0;
/// The number of a part where it is translated by itself.
const PART: usize = 1;
/// Over a limit.
const LIMIT: u16 = 9;

/// A word at fault in one of several texts.
#[derive(Clone, Copy, PartialEq, Eq, Debug)]
pub struct Fault {
    pub number: u16,
    pub text: usize,
    pub start: usize,
    pub len: usize,
}

/// A name, and where it stands in its text.
#[derive(Clone, PartialEq, Eq, Debug)]
pub struct Name {
    pub start: usize,
    pub spelling: Vec<u8>,
}

/// A use of a rule, with its name.
#[derive(Clone, PartialEq, Eq, Debug)]
pub enum Called {
    Call(Name),
    Selector(Name),
    /// As operand of a section of operators, with the place of their pair among the part's.
    Operand(Name, usize),
}

impl Called {
    pub fn rule(&self) -> &Name {
        match self {
            Called::Call(name) | Called::Selector(name) | Called::Operand(name, _) => name,
        }
    }

    /// What stands for it among the cells of an object: 0 for a rule by its name, and from 1 on the pairs.
    fn mark(&self) -> u16 {
        match self {
            Called::Operand(_, pair) => 1 + *pair as u16,
            Called::Call(_) | Called::Selector(_) => 0,
        }
    }
}

/// A section of operators and an operand rule, as they are first used together, with the place of the `^`.
#[derive(Clone, PartialEq, Eq, Debug)]
pub struct Pair {
    pub sign: usize,
    pub section: Name,
    pub operand: Name,
}

/// A rule of a part, and the rules that it uses in text order.
#[derive(Clone, PartialEq, Eq, Debug)]
pub struct PartRule {
    pub name: Name,
    pub of: Option<Name>,
    pub called: Vec<Called>,
    /// Its actions as an object has them (docs/LAYOUT.md).
    pub cells: Vec<u16>,
    /// From behind the rule before it to behind its semicolon.
    pub text: Range<usize>,
}

/// What a part has for linking.
#[derive(Clone, PartialEq, Eq, Debug, Default)]
pub struct Part {
    pub rules: Vec<PartRule>,
    pub pairs: Vec<Pair>,
}

/// What a common part has for linking: where its sections end, and the choice rules with their types.
#[derive(Clone, PartialEq, Eq, Debug)]
pub struct Common {
    pub sections: usize,
    pub list: HashMap<Vec<u8>, Vec<u8>>,
}

/// A common part by itself.
pub fn common(text: &[u8]) -> Result<Common, Fault> {
    let texts = Texts::new(&[text])?;
    let (tree, _) = texts.tree()?;
    let list = tree.list.iter().map(|(name, of)| (texts.name(*name).spelling, texts.name(*of).spelling)).collect();
    Ok(Common { sections: texts.words[texts.rules()].start, list })
}

/// A part with its common part.
pub fn translate(common: &[u8], part: &[u8]) -> Result<Part, Fault> {
    let texts = Texts::new(&[common, part])?;
    let (tree, program) = texts.tree()?;
    Ok(texts.part(&tree, &program))
}

/// The words of a text as they are spelt, also those that are no words.
pub fn spellings(text: &[u8]) -> Vec<Vec<u8>> {
    let spelt = words(text).into_iter().filter(|word| word.sort != Sort::End);
    spelt.map(|word| text[word.start..word.start + word.len].to_vec()).collect()
}

/// Texts one behind the other, an end word behind the words of each.
struct Texts {
    bytes: Vec<u8>,
    words: Vec<Word>,
    /// The first word of each, and the place where it begins.
    starts: Vec<(At, usize)>,
}

impl Texts {
    /// Each at most so long; that comes before all else.
    fn new(texts: &[&[u8]]) -> Result<Texts, Fault> {
        let mut all = Texts { bytes: Vec::new(), words: Vec::new(), starts: Vec::new() };
        for (number, text) in texts.iter().enumerate() {
            if text.len() > MAX_TEXT {
                return Err(Fault { number: 9, text: number, start: text.len(), len: 0 });
            }
            let from = all.bytes.len();
            all.starts.push((all.words.len(), from));
            all.words.extend(words(text).into_iter().map(|word| Word { start: from + word.start, ..word }));
            // A line feed ends a comment, and nothing goes on behind it.
            all.bytes.extend([text, &b"\n"[..]].concat());
        }
        Ok(all)
    }

    /// The last text, and the place where it begins.
    fn last(&self) -> (At, usize) {
        self.starts[self.starts.len() - 1]
    }

    /// The first `rules` of the last text.
    fn rules(&self) -> At {
        let (first, _) = self.last();
        let found = self.words[first..].iter().position(|word| word.sort == Sort::Sign("rules"));
        first + found.expect("a text that was read")
    }

    fn show(&self, (at, number): (At, u16)) -> Fault {
        let text = self.starts.iter().rposition(|(first, _)| *first <= at).unwrap_or(COMMON);
        let Word { start, len, .. } = self.words[at];
        Fault { number, text, start: start - self.starts[text].1, len }
    }

    /// The tree of a common part, and of a part behind it if there is one, if they have no fault; and its rules with numbers for names.
    fn tree(&self) -> Result<(Tree, Program), Fault> {
        let mut parser = Parser::new(&self.bytes, &self.words);
        let mut read = parser.common();
        if self.starts.len() > PART {
            read = read.and_then(|()| parser.part());
        }
        let Parser { tree, mut over, .. } = parser;
        let values = values(&self.bytes, &self.words, &tree.sections, &mut over);
        if let Some(fault) = first_early(&over, read.err()) {
            return Err(self.show(fault));
        }
        let mentioned = mentions(&tree);
        if let Some(at) = self.past_names(&tree, &mentioned) {
            return Err(self.show((at, LIMIT)));
        }
        let mut names = Names::new(&self.bytes, &self.words);
        names.list = Some(HashMap::new());
        // A rule that is called stands in some part.
        names.known.extend(mentioned.iter().map(|at| self.spelling(*at)));
        names.declare(&tree, &values);
        let program = names.bodies(&tree);
        first_late(&names.faults).map_or(Ok((tree, program)), |fault| Err(self.show(fault)))
    }

    fn spelling(&self, at: At) -> &[u8] {
        let Word { start, len, .. } = self.words[at];
        &self.bytes[start..start + len]
    }

    /// The first word that names a rule more than there may be names: those of the sections, the list's, and those that the part has or calls.
    fn past_names(&self, tree: &Tree, mentioned: &[At]) -> Option<At> {
        let mut seen: HashSet<&[u8]> = tree.list.iter().map(|(name, _)| self.spelling(*name)).collect();
        let others = mentioned.iter().copied().filter(|at| seen.insert(self.spelling(*at)));
        others.skip(MAX_NAMES.saturating_sub(tree.declared + tree.list.len())).next()
    }

    /// A name, and its place in the last text.
    fn name(&self, at: At) -> Name {
        let Word { start, len, .. } = self.words[at];
        Name { start: start - self.last().1, spelling: self.bytes[start..start + len].to_vec() }
    }

    /// The rules of the last text.
    fn part(&self, tree: &Tree, program: &Program) -> Part {
        let end = |at: At| self.words[at].start + self.words[at].len - self.last().1;
        let mut part = Part::default();
        let mut from = end(self.rules());
        for (body, rule) in tree.bodies.iter().zip(&program.rules) {
            let mut called = Vec::new();
            self.called(&body.nodes, &mut part.pairs, &mut called);
            let mut cells = Vec::new();
            put_acts(&rule.acts, &mut called.iter(), &mut cells);
            let text = from..end(body.end);
            from = text.end;
            part.rules.push(PartRule { name: self.name(body.name), of: body.of.map(|of| self.name(of)), called, cells, text });
        }
        part
    }

    /// The rules that actions use, and the pairs that they are the first to use.
    fn called(&self, nodes: &[Node], pairs: &mut Vec<Pair>, out: &mut Vec<Called>) {
        for node in nodes {
            match node {
                Node::Call(rule) => out.push(Called::Call(self.name(*rule))),
                Node::Operators(used) => {
                    let (section, operand) = (self.name(used.section), self.name(used.rule));
                    let same =
                        |pair: &Pair| (&pair.section.spelling, &pair.operand.spelling) == (&section.spelling, &operand.spelling);
                    let found = pairs.iter().position(same);
                    out.push(Called::Operand(operand.clone(), found.unwrap_or(pairs.len())));
                    if found.is_none() {
                        pairs.push(Pair { sign: self.name(used.sign).start, section, operand });
                    }
                }
                Node::Cycle(nodes) => self.called(nodes, pairs, out),
                Node::Choice { by, alternatives } => {
                    if let Selector::Rule(rule) = by {
                        out.push(Called::Selector(self.name(*rule)));
                    }
                    alternatives.iter().for_each(|alternative| self.called(&alternative.nodes, pairs, out));
                }
                _ => {}
            }
        }
    }
}

/// Actions as cells, then 0; `called` are the uses of rules in them, in text order.
fn put_acts(acts: &[Act], called: &mut slice::Iter<Called>, cells: &mut Vec<u16>) {
    for act in acts {
        match act {
            Act::Exit => cells.push(1),
            Act::Match(token) => cells.extend([3, *token]),
            Act::Any => cells.push(4),
            Act::Emit(token) => cells.extend([5, *token]),
            Act::Signal(error) => cells.extend([6, *error]),
            Act::Call(_) => cells.extend([8, next_mark(called)]),
            Act::Return(None) => cells.push(9),
            Act::Return(Some(value)) => cells.extend([10, *value]),
            Act::Update(operation, value) => cells.extend(iter::once(*operation).chain(*value)),
            Act::Cycle(acts) => {
                cells.push(2);
                put_acts(acts, called, cells);
            }
            Act::Choice(choice) => {
                match choice.by {
                    By::Token => cells.push(7),
                    By::Rule(_) => cells.extend([11, next_mark(called)]),
                    By::Operation(operation, value) => cells.extend(iter::once(operation).chain(value)),
                }
                put_alternatives(choice, called, cells);
            }
        }
    }
    cells.push(0);
}

fn next_mark(called: &mut slice::Iter<Called>) -> u16 {
    called.next().expect("a name for each call").mark()
}

fn put_alternatives(choice: &Choice, called: &mut slice::Iter<Called>, cells: &mut Vec<u16>) {
    for (labels, acts) in &choice.alternatives {
        cells.push(64 + labels.len() as u16);
        cells.extend(labels);
        put_acts(acts, called, cells);
    }
    match &choice.otherwise {
        Some(acts) => {
            cells.push(13);
            put_acts(acts, called, cells);
        }
        None => cells.push(if choice.by == By::Token { 14 } else { 12 }),
    }
}

/// The names of rules in a part, in text order: of each rule its own, then those that it calls.
fn mentions(tree: &Tree) -> Vec<At> {
    let mut out = Vec::new();
    for body in &tree.bodies {
        out.push(body.name);
        add_called(&body.nodes, &mut out);
    }
    out
}

fn add_called(nodes: &[Node], out: &mut Vec<At>) {
    for node in nodes {
        match node {
            Node::Call(rule) => out.push(*rule),
            Node::Operators(used) => out.push(used.rule),
            Node::Cycle(nodes) => add_called(nodes, out),
            Node::Choice { by, alternatives } => {
                if let Selector::Rule(rule) = by {
                    out.push(*rule);
                }
                alternatives.iter().for_each(|alternative| add_called(&alternative.nodes, out));
            }
            _ => {}
        }
    }
}

impl Parser<'_> {
    /// Sections, `rules`, a line for each choice rule, `end`; then the words of the next text.
    fn common(&mut self) -> Read<()> {
        while !self.takes("rules") {
            self.section()?;
        }
        let names = self.names;
        self.tree.declared = names;
        while !self.takes("end") {
            let name = self.rule_name()?;
            self.must(">>")?;
            let of = self.name()?;
            self.must(";")?;
            self.tree.list.push((name, of));
        }
        // They are the names of rules in parts, which count there.
        (self.names, self.rules) = (names, 0);
        self.ends()?;
        self.take();
        Ok(())
    }

    /// `rules`, one rule or more, `end`.
    fn part(&mut self) -> Read<()> {
        self.must("rules")?;
        self.rules()
    }
}
