//! Warnings about an accepted text. They refuse nothing.

use crate::known::{Class, Declaration, Known, selector_type};
use crate::message::{Level, Message, either};
use reference::processor::{Alternative, At, Node, Selector, Sort};
use std::collections::BTreeSet;

pub fn warnings(known: &Known) -> Vec<Message> {
    let mut out = Vec::new();
    unreached(known, &mut out);
    unused(known, &mut out);
    for body in &known.source.outline.tree.bodies {
        choices(known, &body.nodes, &mut out);
    }
    out.sort_by_key(|message| message.start);
    out
}

fn warning(known: &Known, at: At, sentence: String) -> Message {
    let word = known.source.word(at);
    Message { level: Level::Warning, start: word.start, len: word.len, sentence, notes: Vec::new() }
}

/// The words of a rule's body that name rules it calls.
fn called(nodes: &[Node], out: &mut Vec<At>) {
    for node in nodes {
        match node {
            Node::Call(word) => out.push(*word),
            Node::Operators(used) => out.push(used.rule),
            Node::Cycle(nodes) => called(nodes, out),
            Node::Choice { by, alternatives } => {
                if let Selector::Rule(word) = by {
                    out.push(*word);
                }
                alternatives.iter().for_each(|alternative| called(&alternative.nodes, out));
            }
            _ => {}
        }
    }
}

/// Rules that no call reaches from the first.
fn unreached(known: &Known, out: &mut Vec<Message>) {
    let source = known.source;
    let bodies = &source.outline.tree.bodies;
    let mut reached = BTreeSet::from([0]);
    let mut open = vec![0];
    while let Some(rule) = open.pop() {
        let mut calls = Vec::new();
        called(&bodies[rule].nodes, &mut calls);
        for word in calls {
            let next = bodies.iter().position(|body| source.spelling(body.name) == source.spelling(word));
            open.extend(next.filter(|next| reached.insert(*next)));
        }
    }
    for (i, body) in bodies.iter().enumerate().filter(|(i, _)| !reached.contains(i)) {
        let first = source.quoted(bodies[0].name);
        out.push(warning(known, body.name, format!("no call leads from {first} to rule {}", source.quoted(bodies[i].name))));
    }
}

/// Names that are declared and stand nowhere else.
fn unused(known: &Known, out: &mut Vec<Message>) {
    let source = known.source;
    let declaring: BTreeSet<At> =
        known.all.iter().flat_map(|declared| [Some(declared.name), declared.string]).flatten().collect();
    let words = source.outline.words.iter().enumerate();
    let others = words.filter(|(at, word)| matches!(word.sort, Sort::Name | Sort::Quoted) && !declaring.contains(at));
    let used: BTreeSet<&[u8]> = others.map(|(at, _)| source.spelling(at)).collect();
    let mut told = BTreeSet::new();
    for declared in known.all.iter().filter(|declared| declared.class != Class::Rule && !answered(known, declared)) {
        let stands = [Some(declared.name), declared.string].into_iter().flatten().any(|at| used.contains(source.spelling(at)));
        if !stands && told.insert(declared.name) {
            out.push(warning(known, declared.name, format!("{} is declared and never used", source.quoted(declared.name))));
        }
    }
}

/// Whether a declaration is a value that an operation may answer with.
fn answered(known: &Known, declared: &Declaration) -> bool {
    let of = declared.of.filter(|_| declared.class == Class::Value).map(|of| known.source.spelling(of));
    let answers = known.of_class(Class::Operation).filter_map(|operation| operation.of);
    of.is_some() && answers.into_iter().any(|answer| Some(known.source.spelling(answer)) == of)
}

fn choices(known: &Known, nodes: &[Node], out: &mut Vec<Message>) {
    for node in nodes {
        match node {
            Node::Cycle(nodes) => choices(known, nodes, out),
            Node::Choice { by, alternatives } => {
                choice(known, by, alternatives, out);
                alternatives.iter().for_each(|alternative| choices(known, &alternative.nodes, out));
            }
            _ => {}
        }
    }
}

/// A choice by a value: one that can come and has no label, and labels that the rule never returns.
fn choice(known: &Known, by: &Selector, alternatives: &[Alternative], out: &mut Vec<Message>) {
    let (Some(of), Some(word)) = (selector_type(known, by), selector_word(by)) else { return };
    let source = known.source;
    let returned = returned(known, by);
    let comes = |name: &[u8]| returned.as_ref().is_none_or(|returned| returned.contains(name));
    let labels: Vec<At> = alternatives.iter().flat_map(|alternative| alternative.labels.iter().copied()).collect();
    let labelled = |name: &[u8]| labels.iter().any(|label| source.spelling(*label) == name);
    let values = known.values(of).map(|value| source.spelling(value.name));
    let missing: Vec<String> = values.filter(|name| comes(name) && !labelled(name)).map(crate::place::quoted).collect();
    if !missing.is_empty() && !alternatives.iter().any(|alternative| alternative.otherwise) {
        let verb = if returned.is_some() { "return" } else { "answer" };
        let sentence = format!(
            "{} can {verb} {}, for which there is no label: the walk would stop with 32",
            source.quoted(word),
            either(&missing, "or")
        );
        out.push(warning(known, word, sentence));
    }
    for label in labels.iter().filter(|label| !comes(source.spelling(**label))) {
        out.push(warning(known, *label, format!("{} never returns {}", source.quoted(word), source.quoted(*label))));
    }
}

fn selector_word(by: &Selector) -> Option<At> {
    match by {
        Selector::Token => None,
        Selector::Rule(word) | Selector::Operation { word, .. } => Some(*word),
    }
}

/// The names of the values that a rule returns somewhere; nothing for an operation, which may answer any.
fn returned<'a>(known: &Known<'a>, by: &Selector) -> Option<BTreeSet<&'a [u8]>> {
    let Selector::Rule(word) = by else { return None };
    let source = known.source;
    let body = source.outline.tree.bodies.iter().find(|body| source.spelling(body.name) == source.spelling(*word))?;
    let mut out = BTreeSet::new();
    returns(&body.nodes, &mut |value| _ = out.insert(source.spelling(value)));
    Some(out)
}

fn returns(nodes: &[Node], found: &mut impl FnMut(At)) {
    for node in nodes {
        match node {
            Node::Return { value: Some(value), .. } => found(*value),
            Node::Cycle(nodes) => returns(nodes, found),
            Node::Choice { alternatives, .. } => alternatives.iter().for_each(|alternative| returns(&alternative.nodes, found)),
            _ => {}
        }
    }
}
