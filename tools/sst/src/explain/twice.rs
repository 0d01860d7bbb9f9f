//! What is declared twice (4), and labels that are repeated (6), each with the earlier one.

use super::Explained;
use crate::known::{Class, Declaration, Known, selector_type};
use reference::processor::{At, Node, Selector};

pub fn declared(known: &Known, at: At) -> Option<Explained> {
    let here: Vec<&Declaration> = known.all.iter().filter(|declared| declared.name == at).collect();
    here.iter().find_map(|later| {
        let earlier = known.all.iter().filter(|earlier| earlier.name < at && one_class(earlier, later));
        let earlier: Vec<&Declaration> = earlier.collect();
        by_name(known, later, &earlier).or_else(|| by_string(known, later, &earlier)).or_else(|| by_value(known, later, &earlier))
    })
}

/// Whether two declarations may not bear one name. Rules and operations are one class, and an operation bears no input token's name.
fn one_class(first: &Declaration, second: &Declaration) -> bool {
    match (first.class, second.class) {
        (Class::Value, Class::Value) => first.of == second.of,
        (Class::Rule | Class::Operation, Class::Rule | Class::Operation) => true,
        (Class::Input, Class::Operation) | (Class::Operation, Class::Input) => true,
        (first, second) => first == second,
    }
}

fn class_words(class: Class) -> &'static str {
    match class {
        Class::Input => "an input token",
        Class::Output => "an output token",
        Class::Error => "an error",
        Class::Type => "a type",
        Class::Value => "a value of this type",
        Class::Operation => "an operation",
        Class::Rule => "a rule",
        Class::Section => "a section of operators",
    }
}

fn by_name(known: &Known, later: &Declaration, earlier: &[&Declaration]) -> Option<Explained> {
    let source = known.source;
    let spelling = source.spelling(later.name);
    let first = earlier.iter().find(|first| source.spelling(first.name) == spelling)?;
    let explained = Explained::new(format!("{} is already the name of {}", source.quoted(later.name), class_words(first.class)));
    let explained = explained.note(format!("declared in line {}", source.line(first.name)));
    let apart = first.class != later.class;
    Some(explained.notes(apart.then(|| match (first.class, later.class) {
        (Class::Input, _) | (_, Class::Input) => "an operation may not bear an input token's name".to_string(),
        _ => "rules and operations share their names".to_string(),
    })))
}

fn by_string(known: &Known, later: &Declaration, earlier: &[&Declaration]) -> Option<Explained> {
    let source = known.source;
    let string = later.string?;
    let first = earlier.iter().find(|first| known.named(first, source.spelling(string)))?;
    let sentence = format!(
        "the string {} of {} is already that of {}",
        source.quoted(string),
        source.quoted(later.name),
        source.quoted(first.name)
    );
    Some(Explained::new(sentence).note(format!("{} is declared in line {}", source.quoted(first.name), source.line(first.name))))
}

fn by_value(known: &Known, later: &Declaration, earlier: &[&Declaration]) -> Option<Explained> {
    let source = known.source;
    let value = later.value?;
    let first = earlier.iter().find(|first| first.class == later.class && first.value == Some(value))?;
    let sentence =
        format!("{} gets the value {value}, which {} already has", source.quoted(later.name), source.quoted(first.name));
    let place = format!("{} is declared in line {}", source.quoted(first.name), source.line(first.name));
    let counted = "where none is set, an entry gets the value after the one before it, the first of a section the one after the greatest of its class";
    let set = source.word(later.name + 1).sort == reference::processor::Sort::Sign("=")
        || later.string.is_some_and(|string| source.word(string + 1).sort == reference::processor::Sort::Sign("="));
    Some(Explained::new(sentence).note(place).notes((!set).then(|| counted.to_string())))
}

pub fn label(known: &Known, at: At) -> Option<Explained> {
    let source = known.source;
    let (of, labels) = source.outline.tree.bodies.iter().find_map(|body| labels(known, &body.nodes, at))?;
    let value = |label: At| match of {
        None => known.find(Class::Input, source.spelling(label)).and_then(|token| token.value),
        Some(of) => {
            let found = known.values(of).find(|value| known.named(value, source.spelling(label)));
            found.and_then(|found| found.value)
        }
    };
    let earlier = labels.iter().take_while(|label| **label != at).find(|label| value(**label) == value(at))?;
    let explained = Explained::new(format!("the label {} is repeated", source.quoted(at)));
    let first = format!("it stands in line {} already", source.line(*earlier));
    let alike = source.spelling(*earlier) == source.spelling(at);
    let spelt = format!("{} in line {} is the same token", source.quoted(*earlier), source.line(*earlier));
    Some(explained.note(if alike { first } else { spelt }))
}

/// All labels of the choice that has this one, and their type.
fn labels(known: &Known, nodes: &[Node], at: At) -> Option<(Option<At>, Vec<At>)> {
    nodes.iter().find_map(|node| match node {
        Node::Cycle(nodes) => labels(known, nodes, at),
        Node::Choice { by, alternatives } => {
            let all: Vec<At> = alternatives.iter().flat_map(|alternative| alternative.labels.iter().copied()).collect();
            if all.contains(&at) {
                let of = if matches!(by, Selector::Token) { None } else { selector_type(known, by) };
                return Some((of, all));
            }
            alternatives.iter().find_map(|alternative| labels(known, &alternative.nodes, at))
        }
        _ => None,
    })
}
