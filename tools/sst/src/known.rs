//! What a text declares, and what is wanted at a word of its rules.

use crate::source::Source;
use reference::processor::{Alternative, At, Head, Node, Selector, Use};

#[derive(Clone, Copy, PartialEq, Eq, PartialOrd, Ord, Debug)]
pub enum Class {
    Input,
    Output,
    Error,
    Type,
    Value,
    Operation,
    Rule,
    Section,
}

/// A declared name. Words are given by their index.
#[derive(Clone, Copy, Debug)]
pub struct Declaration {
    pub class: Class,
    pub name: At,
    pub string: Option<At>,
    /// Of a token, an error and a value.
    pub value: Option<u16>,
    /// The type of a value, of a rule's value and of an operation's answer.
    pub of: Option<At>,
    /// The type of an operation's constant.
    pub parameter: Option<At>,
}

/// All declarations of a text, in text order.
pub struct Known<'a> {
    pub source: &'a Source<'a>,
    pub all: Vec<Declaration>,
}

impl<'a> Known<'a> {
    pub fn new(source: &'a Source<'a>) -> Known<'a> {
        let mut known = Known { source, all: Vec::new() };
        known.sections();
        let tree = &source.outline.tree;
        for section in &tree.operators {
            known.push(Class::Section, section.name);
        }
        for body in &tree.bodies {
            known.push(Class::Rule, body.name).of = body.of;
        }
        known.all.sort_by_key(|declared| (declared.name, declared.class));
        known
    }

    fn push(&mut self, class: Class, name: At) -> &mut Declaration {
        self.all.push(Declaration { class, name, string: None, value: None, of: None, parameter: None });
        let last = self.all.len() - 1;
        &mut self.all[last]
    }

    fn sections(&mut self) {
        let outline = &self.source.outline;
        for (section, values) in outline.tree.sections.iter().zip(&outline.values) {
            if let Head::Type(name) = section.head {
                self.push(Class::Type, name);
            }
            for (entry, value) in section.entries.iter().zip(values) {
                for class in classes(section.head) {
                    let declared = self.push(class, entry.name);
                    (declared.string, declared.value, declared.parameter) = (entry.string, *value, entry.parameter);
                    declared.of = if let Head::Type(name) = section.head { Some(name) } else { entry.result };
                }
            }
        }
    }

    pub fn of_class(&self, class: Class) -> impl Iterator<Item = &Declaration> {
        self.all.iter().filter(move |declared| declared.class == class)
    }

    /// Whether a word is the name or the string of a declaration.
    pub fn named(&self, declared: &Declaration, spelling: &[u8]) -> bool {
        let words = [Some(declared.name), declared.string];
        words.into_iter().flatten().any(|at| self.source.spelling(at) == spelling)
    }

    /// The first declaration of a class with that name or string.
    pub fn find(&self, class: Class, spelling: &[u8]) -> Option<&Declaration> {
        self.of_class(class).find(|declared| self.named(declared, spelling))
    }

    /// The values of a type, by its name.
    pub fn values(&self, of: At) -> impl Iterator<Item = &Declaration> {
        let name = self.source.spelling(of);
        self.of_class(Class::Value).filter(move |value| value.of.is_some_and(|of| self.source.spelling(of) == name))
    }

    /// All that a word may stand for.
    pub fn anywhere(&self, spelling: &[u8]) -> Vec<&Declaration> {
        self.all.iter().filter(|declared| self.named(declared, spelling)).collect()
    }

    /// The name that has a value in a class; the number itself where there is none.
    pub fn name_of(&self, class: Class, value: u16) -> String {
        let found = self.of_class(class).find(|declared| declared.value == Some(value));
        found.map_or_else(|| value.to_string(), |declared| self.spelt(declared.name))
    }

    /// The name of a value of a type.
    pub fn value_name(&self, of: At, value: u16) -> String {
        let found = self.values(of).find(|declared| declared.value == Some(value));
        found.map_or_else(|| value.to_string(), |declared| self.spelt(declared.name))
    }

    pub fn spelt(&self, at: At) -> String {
        String::from_utf8_lossy(self.source.spelling(at)).into_owned()
    }

    /// Operations in the order of their numbers' declaration, each with its number.
    pub fn operations(&self) -> Vec<(u16, &Declaration)> {
        let mut counts = [0u16; 4];
        let numbered = self.of_class(Class::Operation).map(|operation| {
            let kind = 2 * usize::from(operation.of.is_some()) + usize::from(operation.parameter.is_some());
            let number = 256 * (kind as u16 + 1) + counts[kind];
            counts[kind] += 1;
            (number, operation)
        });
        numbered.collect()
    }
}

fn classes(head: Head) -> Vec<Class> {
    match head {
        Head::Tokens { input, output } => {
            let both = [(input, Class::Input), (output, Class::Output)];
            both.into_iter().filter_map(|(is, class)| is.then_some(class)).collect()
        }
        Head::Errors => vec![Class::Error],
        Head::Type(_) => vec![Class::Value],
        Head::Mechanism => vec![Class::Operation],
    }
}

/// What is wanted at a word.
#[derive(Clone, Copy, PartialEq, Eq, Debug)]
pub enum Wanted {
    /// An input token or an operation without an answer.
    Action,
    Input,
    Output,
    Error,
    /// A rule without a type, behind `@`.
    Procedure,
    /// A rule with a type, behind `[@`.
    Chooser,
    /// An operation with an answer, behind `[`.
    Asker,
    /// A value of the type with that name.
    Value(At),
    Type,
    Section,
}

/// What is wanted at a word that refers to something.
pub fn wanted(known: &Known, at: At) -> Option<Wanted> {
    let tree = &known.source.outline.tree;
    let types = tree.sections.iter().flat_map(|section| &section.entries).flat_map(|entry| [entry.parameter, entry.result]);
    if types.chain(tree.bodies.iter().map(|body| body.of)).flatten().any(|of| of == at) {
        return Some(Wanted::Type);
    }
    for operator in tree.operators.iter().flat_map(|section| &section.entries) {
        if operator.input == at || operator.output == at {
            return Some(if operator.input == at { Wanted::Input } else { Wanted::Output });
        }
    }
    tree.bodies.iter().find_map(|body| in_nodes(known, &body.nodes, body.of, at))
}

fn in_nodes(known: &Known, nodes: &[Node], of: Option<At>, at: At) -> Option<Wanted> {
    nodes.iter().find_map(|node| match node {
        Node::Bare { word, given } => in_action(known, *word, *given, Wanted::Action, at),
        Node::Emit(word) => (*word == at).then_some(Wanted::Output),
        Node::Signal(word) => (*word == at).then_some(Wanted::Error),
        Node::Call(word) => (*word == at).then_some(Wanted::Procedure),
        Node::Operators(Use { section, rule, .. }) => {
            let wanted = (*section == at).then_some(Wanted::Section);
            wanted.or((*rule == at).then_some(Wanted::Procedure))
        }
        Node::Return { value, .. } => of.filter(|_| *value == Some(at)).map(Wanted::Value),
        Node::Cycle(nodes) => in_nodes(known, nodes, of, at),
        Node::Choice { by, alternatives } => {
            in_selector(known, by, at).or_else(|| in_alternatives(known, by, alternatives, of, at))
        }
        Node::Any | Node::Exit(_) => None,
    })
}

/// An operation's name, or its constant.
fn in_action(known: &Known, word: At, given: Option<(At, At)>, wanted: Wanted, at: At) -> Option<Wanted> {
    if word == at {
        return Some(wanted);
    }
    given.filter(|(_, constant)| *constant == at)?;
    known.find(Class::Operation, known.source.spelling(word))?.parameter.map(Wanted::Value)
}

fn in_selector(known: &Known, by: &Selector, at: At) -> Option<Wanted> {
    match by {
        Selector::Token => None,
        Selector::Rule(word) => (*word == at).then_some(Wanted::Chooser),
        Selector::Operation { word, given } => in_action(known, *word, *given, Wanted::Asker, at),
    }
}

fn in_alternatives(known: &Known, by: &Selector, alternatives: &[Alternative], of: Option<At>, at: At) -> Option<Wanted> {
    alternatives.iter().find_map(|alternative| {
        if alternative.labels.contains(&at) {
            return match by {
                Selector::Token => Some(Wanted::Input),
                _ => selector_type(known, by).map(Wanted::Value),
            };
        }
        in_nodes(known, &alternative.nodes, of, at)
    })
}

/// The type of a choice's labels, if it is no choice by token.
pub fn selector_type(known: &Known, by: &Selector) -> Option<At> {
    match by {
        Selector::Token => None,
        Selector::Rule(word) => known.find(Class::Rule, known.source.spelling(*word))?.of,
        Selector::Operation { word, .. } => known.find(Class::Operation, known.source.spelling(*word))?.of,
    }
}
