//! Exits outside a cycle (7), and rules that do not return as their head says (8).

use super::Explained;
use crate::known::Known;
use crate::source::{head_words, selector_words, words_in};
use reference::processor::{Alternative, At, Body, Node, Selector, left, past_all};

pub fn exit() -> Explained {
    let explained = Explained::new("`>` leaves a cycle, and no cycle stands around it".to_string());
    explained.note("a cycle is { .. }; to return from the rule: >>")
}

pub fn returns(known: &Known, at: At) -> Option<Explained> {
    let source = known.source;
    let body = source.outline.tree.bodies.iter().find(|body| body.name <= at && at <= body.end)?;
    let name = source.quoted(body.name);
    let Some(of) = body.of else {
        let sentence = format!("rule {name} has no type, so that `>>` returns no value there");
        return Some(Explained::new(sentence).note(format!("to return one, declare it as {} >> TYPE:", known.spelt(body.name))));
    };
    if at != body.end {
        let values: Vec<String> = known.values(of).map(|value| known.spelt(value.name)).collect();
        let sentence = format!("rule {name} returns a {}; `>>` wants a value of it", source.quoted(of));
        return Some(Explained::new(sentence).notes(values.first().map(|value| format!("for instance >> {value}"))));
    }
    let sentence = format!("rule {name} returns a {}, but can come to its semicolon without a value", source.quoted(of));
    Some(Explained::new(sentence).notes(way(known, body)))
}

/// The way on which a rule comes to its semicolon: what is taken in each choice and cycle on it.
fn way(known: &Known, body: &Body) -> Vec<String> {
    let mut way = Way { known, steps: Vec::new() };
    way.past(&body.nodes, body.name + if body.of.is_some() { 4 } else { 2 });
    match way.steps.len() {
        0 if body.nodes.is_empty() => vec!["the rule has no action".to_string()],
        0 => vec!["no `>>` stands on the way".to_string()],
        _ => vec![format!("the way there: {}", way.steps.join(", then "))],
    }
}

struct Way<'a> {
    known: &'a Known<'a>,
    steps: Vec<String>,
}

impl Way<'_> {
    fn step(&mut self, at: At) {
        let source = self.known.source;
        self.steps.push(format!("{} in line {}", source.quoted(at), source.line(at)));
    }

    /// Past actions, the first of which begins with that word.
    fn past(&mut self, nodes: &[Node], mut at: At) {
        for node in nodes {
            match node {
                Node::Cycle(nodes) => self.out(nodes, at + 1),
                Node::Choice { by, alternatives } => self.take(by, alternatives, at, past_all, Way::past),
                _ => {}
            }
            at += words_in(std::slice::from_ref(node));
        }
    }

    /// Out of a cycle by its first exit.
    fn out(&mut self, nodes: &[Node], mut at: At) {
        for node in nodes {
            match node {
                Node::Exit(word) => return self.step(*word),
                Node::Choice { by, alternatives } if alternatives.iter().any(|alternative| left(&alternative.nodes)) => {
                    return self.take(by, alternatives, at, left, Way::out);
                }
                Node::Choice { by, alternatives } => self.take(by, alternatives, at, past_all, Way::past),
                Node::Cycle(nodes) => self.out(nodes, at + 1),
                _ => {}
            }
            at += words_in(std::slice::from_ref(node));
        }
    }

    /// By the first alternative that can be gone through so.
    fn take(
        &mut self,
        by: &Selector,
        alternatives: &[Alternative],
        at: At,
        can: fn(&[Node]) -> bool,
        go: fn(&mut Self, &[Node], At),
    ) {
        let mut at = at + selector_words(by);
        for alternative in alternatives {
            if can(&alternative.nodes) {
                self.step(at + 1);
                return go(self, &alternative.nodes, at + head_words(alternative));
            }
            at += head_words(alternative) + words_in(&alternative.nodes);
        }
    }
}
