//! What a chart shows of each rule: its actions, choices and cycles, each with the location of its instruction.

use crate::known::{Class, Known};
use crate::layout::{RuleSpan, Spot, What};
use crate::names::Names;
use reference::processor::{Alternative, At, Node, Operators, Selector, Use, left, made};

#[derive(Clone, Copy, PartialEq, Eq, Debug)]
pub enum Shape {
    Token,
    Rule,
    Output,
    Error,
    Operation,
    /// A value that a choice goes by, or that is returned.
    Value,
    Otherwise,
}

/// What stands on a track, with the location of its instruction if it has one of its own.
pub struct Step {
    pub shape: Shape,
    pub lines: Vec<String>,
    pub location: Option<usize>,
}

pub enum Item {
    Step(Step),
    /// `>`.
    Leave(usize),
    /// `>>`, with a value.
    Return(Option<String>, usize),
    Cycle {
        items: Vec<Item>,
        /// Whether some `>` leaves it.
        left: bool,
    },
    Choice {
        by: Option<Step>,
        tracks: Vec<Track>,
    },
}

/// An alternative, begun by its labels.
pub struct Track {
    pub label: Step,
    pub items: Vec<Item>,
}

/// The chart of a rule.
pub struct Chart<'a> {
    pub rule: &'a RuleSpan,
    /// The type of its value.
    pub of: Option<String>,
    pub items: Vec<Item>,
}

/// The charts of all rules, those made for operators behind the others.
pub fn charts<'a>(names: &Names<'a>) -> Vec<Chart<'a>> {
    let source = names.known.source;
    let mut reader = Reader { known: names.known, spots: &names.layout.spots };
    let mut bodies = Vec::new();
    for body in &source.outline.tree.bodies {
        bodies.push(reader.nodes(&body.nodes));
        if body.of.is_none() {
            reader.next();
        }
    }
    for (used, level) in made(source.text, &source.outline) {
        bodies.push(operators(names, &used, level, bodies.len()));
    }
    let of = |rule: &RuleSpan| rule.of.map(|of| names.known.spelt(of));
    let rules = names.layout.rules.iter().zip(bodies);
    rules.map(|(rule, items)| Chart { rule, of: of(rule), items }).collect()
}

/// Reads instructions and actions side by side.
struct Reader<'a> {
    known: &'a Known<'a>,
    /// Those that are still to come.
    spots: &'a [Spot],
}

impl Reader<'_> {
    /// The location of the next instruction.
    fn coming(&self) -> usize {
        self.spots.first().map_or(0, |spot| spot.location)
    }

    fn next(&mut self) -> usize {
        let location = self.coming();
        self.spots = self.spots.get(1..).unwrap_or_default();
        location
    }

    fn nodes(&mut self, nodes: &[Node]) -> Vec<Item> {
        nodes.iter().map(|node| self.node(node)).collect()
    }

    fn step(&mut self, shape: Shape, text: String) -> Step {
        Step { shape, lines: vec![text], location: Some(self.next()) }
    }

    fn node(&mut self, node: &Node) -> Item {
        let known = self.known;
        match node {
            Node::Bare { word, given: None } if known.find(Class::Input, known.source.spelling(*word)).is_some() => {
                Item::Step(self.step(Shape::Token, known.spelt(*word)))
            }
            Node::Bare { word, given } => Item::Step(self.operation(*word, *given)),
            Node::Any => Item::Step(self.step(Shape::Token, "?".to_string())),
            Node::Emit(word) => Item::Step(self.step(Shape::Output, known.spelt(*word))),
            Node::Signal(word) => Item::Step(self.step(Shape::Error, known.spelt(*word))),
            Node::Call(word) => Item::Step(self.step(Shape::Rule, known.spelt(*word))),
            Node::Operators(used) => {
                let text = format!("^{} @{}", known.spelt(used.section), known.spelt(used.rule));
                Item::Step(self.step(Shape::Rule, text))
            }
            Node::Exit(_) => Item::Leave(self.next()),
            Node::Return { value, .. } => {
                if value.is_some() {
                    self.next();
                }
                Item::Return(value.map(|value| known.spelt(value)), self.next())
            }
            Node::Cycle(nodes) => {
                let items = self.nodes(nodes);
                self.next();
                Item::Cycle { items, left: left(nodes) }
            }
            Node::Choice { by, alternatives } => self.choice(by, alternatives),
        }
    }

    fn operation(&mut self, word: At, given: Option<(At, At)>) -> Step {
        let name = self.known.spelt(word);
        let Some((_, constant)) = given else { return self.step(Shape::Operation, name) };
        self.next();
        self.step(Shape::Operation, format!("{name}({})", self.known.spelt(constant)))
    }

    fn choice(&mut self, by: &Selector, alternatives: &[Alternative]) -> Item {
        let (shape, step) = match by {
            Selector::Token => (Shape::Token, None),
            Selector::Rule(word) => (Shape::Value, Some(self.step(Shape::Rule, self.known.spelt(*word)))),
            Selector::Operation { word, given } => (Shape::Value, Some(self.operation(*word, *given))),
        };
        self.next();
        let mut tracks = Vec::new();
        for alternative in alternatives.iter().filter(|alternative| !alternative.otherwise) {
            let labels: Vec<String> = alternative.labels.iter().map(|label| self.known.spelt(*label)).collect();
            let label = Step { shape, lines: flowed(&labels), location: Some(self.coming()) };
            tracks.push(Track { label, items: self.nodes(&alternative.nodes) });
            self.next();
        }
        self.next();
        match alternatives.iter().find(|alternative| alternative.otherwise) {
            Some(otherwise) => {
                let location = (!otherwise.nodes.is_empty()).then(|| self.coming());
                tracks.push(Track { label: otherwise_step(location), items: self.nodes(&otherwise.nodes) });
            }
            None => (0..if step.is_some() { 1 } else { 2 }).for_each(|_| _ = self.next()),
        }
        Item::Choice { by: step, tracks }
    }
}

fn otherwise_step(location: Option<usize>) -> Step {
    Step { shape: Shape::Otherwise, lines: vec!["otherwise".to_string()], location }
}

/// The columns of a line of labels, but where one label alone has more.
const MOST_COLUMNS: usize = 34;

/// Labels in lines, with commas between them.
fn flowed(labels: &[String]) -> Vec<String> {
    let mut lines: Vec<String> = Vec::new();
    for (i, label) in labels.iter().enumerate() {
        let label = if i + 1 < labels.len() { format!("{label},") } else { label.clone() };
        match lines.last_mut() {
            Some(line) if line.chars().count() + 1 + label.chars().count() <= MOST_COLUMNS => {
                line.push(' ');
                line.push_str(&label);
            }
            _ => lines.push(label),
        }
    }
    lines
}

/// The rule made for a level of operators: the operand, and then the level's operators, in a cycle where they go from left to right.
fn operators(names: &Names, used: &Use, level: u16, rule: usize) -> Vec<Item> {
    let known = names.known;
    let spots: Vec<&Spot> = names.layout.spots.iter().filter(|spot| spot.rule == rule).collect();
    let is = |section: &&Operators| known.source.spelling(section.name) == known.source.spelling(used.section);
    let section = known.source.outline.tree.operators.iter().find(is);
    let entries = section.into_iter().flat_map(|section| &section.entries).filter(|operator| operator.level == level);
    let step = |spot: &&Spot| {
        let shape = if spot.what == What::Emit { Shape::Output } else { Shape::Rule };
        let text = names.phrase(spot).trim_start_matches(['@', '.']).to_string();
        Item::Step(Step { shape, lines: vec![text], location: Some(spot.location) })
    };
    let mut items: Vec<Item> = spots.iter().take(1).map(step).collect();
    let mut tracks = Vec::new();
    for (operator, spots) in entries.zip(spots.get(2..).unwrap_or_default().chunks(3)) {
        let location = spots.first().map(|spot| spot.location);
        let label = Step { shape: Shape::Token, lines: vec![known.spelt(operator.input)], location };
        tracks.push(Track { label, items: spots.iter().take(2).map(step).collect() });
    }
    let leaves = spots.iter().find(|spot| spot.what == What::Leave).map(|spot| spot.location);
    tracks.push(Track { label: otherwise_step(leaves), items: leaves.into_iter().map(Item::Leave).collect() });
    let choice = Item::Choice { by: None, tracks };
    items.push(if leaves.is_some() { Item::Cycle { items: vec![choice], left: true } } else { choice });
    items
}
