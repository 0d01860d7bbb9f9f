//! Which part of the text each instruction of the table comes from: the words of each action are counted along the tree, and what is
//! found is held against the library's table and its rows of rules.

use crate::known::{Class, Known, selector_type};
use crate::session::Trouble;
use crate::source::{head_words, selector_words};
use reference::ffi::Library;
use reference::figures::Figures;
use reference::processor::{Alternative, At, MAX_RULES, Node, Operators, Selector, Use, made};

/// What an instruction is for.
#[derive(Clone, Copy, PartialEq, Eq, Debug)]
pub enum What {
    Match,
    Any,
    Emit,
    Signal,
    /// The constant of the operation behind it.
    Constant,
    Update,
    /// An operation whose answer the choice behind it goes by.
    Ask,
    Call,
    ChooseToken,
    /// By a rule's value or an operation's answer.
    ChooseValue,
    /// No instruction: the labels of a choice.
    Labels,
    /// The jump from the end of an alternative behind the choice.
    Join,
    /// `>`.
    Leave,
    /// The jump from the end of a cycle to its start.
    Again,
    Result,
    Return,
    /// The return at a rule's semicolon.
    Last,
    /// Of a choice by token without otherwise: the first label's token is required, and then its alternative is taken.
    Required,
    Repaired,
    /// Of another choice without otherwise.
    NoLabel,
}

/// An instruction, or the labels of a choice.
#[derive(Clone, Copy, Debug)]
pub struct Spot {
    pub location: usize,
    pub rule: usize,
    /// Bytes of the text.
    pub start: usize,
    pub what: What,
    /// The type of a constant, of a result, and of a choice's labels.
    pub of: Option<At>,
}

/// A rule: its name as it is shown, where it stands in the text and in the table.
pub struct RuleSpan {
    pub name: String,
    pub start: usize,
    pub line: usize,
    pub location: usize,
    /// The location behind its last word.
    pub end: usize,
    /// The type of its value.
    pub of: Option<At>,
}

pub struct Layout {
    pub spots: Vec<Spot>,
    pub rules: Vec<RuleSpan>,
}

impl Layout {
    /// The instruction at a location.
    pub fn at(&self, location: usize) -> Option<&Spot> {
        self.spots.binary_search_by_key(&location, |spot| spot.location).ok().map(|i| &self.spots[i])
    }

    pub fn rule_at(&self, location: usize) -> Option<&RuleSpan> {
        self.rules.iter().find(|rule| rule.location == location)
    }
}

/// The layout of an accepted text.
pub fn layout(known: &Known, table: &[u16]) -> Result<Layout, Trouble> {
    let mut builder = Builder { known, at: 0, location: 1, rule: 0, spots: Vec::new(), starts: Vec::new() };
    builder.bodies();
    let made = made(known.source.text, &known.source.outline);
    made.iter().for_each(|(used, level)| builder.made(used, *level));
    let Builder { spots, starts, location, .. } = builder;
    let rules = spans(known, &made, table.len());
    let same = rules.iter().map(|rule| rule.location).eq(starts);
    if !same || location != table.len() + 1 || !spots.iter().all(|spot| agrees(spot, table)) {
        return Err(Trouble::Disagree(known.source.name.to_string(), "the places of the table's words differ".to_string()));
    }
    Ok(Layout { spots, rules })
}

/// The rows that the library has for the rules, with their names as they are shown.
fn spans(known: &Known, made: &[(Use, u16)], words: usize) -> Vec<RuleSpan> {
    const ROW: usize = 24;
    let mut bytes = vec![0; ROW * MAX_RULES];
    let (_, count) = Library.rules(known.source.text, &mut bytes);
    let field = |row: &[u8], i: usize| row[8 * i..8 * i + 8].iter().fold(0usize, |number, byte| number << 8 | usize::from(*byte));
    let rows: Vec<&[u8]> = bytes.chunks_exact(ROW).take(count as usize).collect();
    let bodies = &known.source.outline.tree.bodies;
    let name = |i: usize| match made.get(i.wrapping_sub(bodies.len())) {
        Some((used, level)) => format!("^{} @{}, level {level}", known.spelt(used.section), known.spelt(used.rule)),
        None => bodies.get(i).map_or_else(String::new, |body| known.spelt(body.name)),
    };
    let span = |(i, row): (usize, &&[u8])| RuleSpan {
        name: name(i),
        start: field(row, 0),
        line: crate::place::place(known.source.text, field(row, 0)).line,
        location: field(row, 2),
        end: rows.get(i + 1).map_or(words + 1, |next| field(next, 2)),
        of: bodies.get(i).and_then(|body| body.of),
    };
    rows.iter().enumerate().map(span).collect()
}

/// Whether the table has such an instruction there.
fn agrees(spot: &Spot, table: &[u16]) -> bool {
    let Some(word) = table.get(spot.location - 1) else { return false };
    match spot.what {
        What::Join | What::Leave => *word == 1,
        What::Again | What::Repaired => *word == 2,
        What::Match | What::Required => *word == 3,
        What::Any => *word == 4,
        What::Emit => *word == 5,
        What::Signal => *word == 6,
        What::ChooseToken => *word == 7,
        What::Call => *word == 8,
        What::Return | What::Last => *word == 9,
        What::Result => *word == 10,
        What::ChooseValue => *word == 11,
        What::NoLabel => *word == 12,
        What::Constant => *word == 13,
        What::Update => (256..768).contains(word),
        What::Ask => (768..1280).contains(word),
        What::Labels => true,
    }
}

/// How many words an instruction takes.
fn size(what: What) -> usize {
    match what {
        What::Any | What::Update | What::Ask | What::Return | What::Last | What::NoLabel | What::Labels => 1,
        _ => 2,
    }
}

struct Builder<'a> {
    known: &'a Known<'a>,
    /// The word of the text that comes next.
    at: At,
    location: usize,
    rule: usize,
    spots: Vec<Spot>,
    /// The locations of the rules.
    starts: Vec<usize>,
}

impl Builder<'_> {
    fn put(&mut self, what: What, at: At, of: Option<At>) {
        let start = self.known.source.word(at).start;
        self.spots.push(Spot { location: self.location, rule: self.rule, start, what, of });
        self.location += size(what);
    }

    fn labels(&mut self, count: usize, at: At) {
        self.put(What::Labels, at, None);
        self.location += 2 * count;
    }

    fn bodies(&mut self) {
        for (rule, body) in self.known.source.outline.tree.bodies.iter().enumerate() {
            self.rule = rule;
            self.starts.push(self.location);
            self.at = body.name + if body.of.is_some() { 4 } else { 2 };
            self.nodes(&body.nodes, body.of);
            if body.of.is_none() {
                self.put(What::Last, body.end, None);
            }
        }
    }

    fn nodes(&mut self, nodes: &[Node], of: Option<At>) {
        nodes.iter().for_each(|node| self.node(node, of));
    }

    fn node(&mut self, node: &Node, of: Option<At>) {
        let first = self.at;
        match node {
            Node::Bare { word, given } => self.action(*word, *given),
            Node::Any => self.sign(What::Any, first),
            Node::Exit(word) => self.sign(What::Leave, *word),
            Node::Emit(word) => self.prefixed(What::Emit, first, *word),
            Node::Signal(word) => self.prefixed(What::Signal, first, *word),
            Node::Call(word) => self.prefixed(What::Call, first, *word),
            Node::Operators(used) => self.prefixed(What::Call, first, used.rule),
            Node::Return { word, value } => {
                if value.is_some() {
                    self.put(What::Result, *word, of);
                }
                self.put(What::Return, *word, None);
                self.at = value.unwrap_or(*word) + 1;
            }
            Node::Cycle(nodes) => {
                self.at += 1;
                self.nodes(nodes, of);
                self.sign(What::Again, self.at);
            }
            Node::Choice { by, alternatives } => self.choice(by, alternatives, of),
        }
    }

    /// An action of one word.
    fn sign(&mut self, what: What, at: At) {
        self.put(what, at, None);
        self.at = at + 1;
    }

    /// An action of a sign and a name.
    fn prefixed(&mut self, what: What, sign: At, name: At) {
        self.put(what, sign, None);
        self.at = name + 1;
    }

    fn action(&mut self, word: At, given: Option<(At, At)>) {
        let known = self.known;
        if known.find(Class::Input, known.source.spelling(word)).is_some() {
            return self.sign(What::Match, word);
        }
        self.operation(What::Update, word, given);
    }

    fn operation(&mut self, what: What, word: At, given: Option<(At, At)>) {
        let known = self.known;
        let declared = known.find(Class::Operation, known.source.spelling(word));
        if given.is_some() {
            self.put(What::Constant, word, declared.and_then(|declared| declared.parameter));
        }
        self.put(what, word, declared.and_then(|declared| declared.of));
        self.at = given.map_or(word, |(_, constant)| constant + 1) + 1;
    }

    fn choice(&mut self, by: &Selector, alternatives: &[Alternative], of: Option<At>) {
        let open = self.at;
        match by {
            Selector::Token => self.put(What::ChooseToken, open, None),
            Selector::Rule(_) => self.put(What::Call, open + 1, None),
            Selector::Operation { word, given } => self.operation(What::Ask, *word, *given),
        }
        if !matches!(by, Selector::Token) {
            self.put(What::ChooseValue, open, selector_type(self.known, by));
        }
        self.at = open + selector_words(by);
        let count = alternatives.iter().map(|alternative| alternative.labels.len()).sum();
        for alternative in alternatives.iter().filter(|alternative| !alternative.otherwise) {
            self.at += head_words(alternative);
            self.nodes(&alternative.nodes, of);
            self.put(What::Join, self.at, None);
        }
        self.labels(count, open);
        self.default(by, alternatives, open, of);
        self.at += 1;
    }

    fn default(&mut self, by: &Selector, alternatives: &[Alternative], open: At, of: Option<At>) {
        if let Some(otherwise) = alternatives.iter().find(|alternative| alternative.otherwise) {
            self.at += head_words(otherwise);
            self.nodes(&otherwise.nodes, of);
        } else if matches!(by, Selector::Token) {
            self.put(What::Required, open, None);
            self.put(What::Repaired, open, None);
        } else {
            self.put(What::NoLabel, open, None);
        }
    }

    /// The rule of a level of operators: the operand, and then the level's operators, in a cycle or once.
    fn made(&mut self, used: &Use, level: u16) {
        self.rule = self.starts.len();
        self.starts.push(self.location);
        let known = self.known;
        let name = known.source.spelling(used.section);
        let is = |section: &&Operators| known.source.spelling(section.name) == name;
        let Some(section) = known.source.outline.tree.operators.iter().find(is) else { return };
        let operators: Vec<_> = section.entries.iter().filter(|operator| operator.level == level).collect();
        self.put(What::Call, used.sign, None);
        self.put(What::ChooseToken, used.sign, None);
        for _ in &operators {
            [What::Call, What::Emit, What::Join].into_iter().for_each(|what| self.put(what, used.sign, None));
        }
        self.labels(operators.len(), used.sign);
        if operators.iter().all(|operator| operator.left) {
            self.put(What::Leave, used.sign, None);
            self.put(What::Again, used.sign, None);
        }
        self.put(What::Last, used.sign, None);
    }
}
