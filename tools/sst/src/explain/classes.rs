//! Names that are declared nowhere (3), and names of another class than the one wanted (5).

use super::Explained;
use super::nearest::{near, nearest};
use crate::known::{Class, Declaration, Known, Wanted, wanted};
use crate::message::either;
use reference::processor::{At, Node, Selector};

/// What is wanted, in words.
fn wanted_words(known: &Known, wanted: Wanted) -> String {
    match wanted {
        Wanted::Action => "an input token or an operation without an answer".to_string(),
        Wanted::Input => "an input token".to_string(),
        Wanted::Output => "an output token".to_string(),
        Wanted::Error => "an error".to_string(),
        Wanted::Procedure => "a rule without a type".to_string(),
        Wanted::Chooser => "a rule with a type".to_string(),
        Wanted::Asker => "an operation with an answer".to_string(),
        Wanted::Value(of) => format!("a value of type {}", known.source.quoted(of)),
        Wanted::Type => "a type".to_string(),
        Wanted::Section => "a section of operators".to_string(),
    }
}

fn wanted_classes(wanted: Wanted) -> &'static [Class] {
    match wanted {
        Wanted::Action => &[Class::Input, Class::Operation],
        Wanted::Input => &[Class::Input],
        Wanted::Output => &[Class::Output],
        Wanted::Error => &[Class::Error],
        Wanted::Procedure | Wanted::Chooser => &[Class::Rule],
        Wanted::Asker => &[Class::Operation],
        Wanted::Value(_) => &[Class::Value],
        Wanted::Type => &[Class::Type],
        Wanted::Section => &[Class::Section],
    }
}

pub fn unknown(known: &Known, at: At) -> Option<Explained> {
    let (source, spelling) = (known.source, known.source.spelling(at));
    let wanted = wanted(known, at)?;
    if let Some(later) = known.find(Class::Type, spelling).filter(|_| wanted == Wanted::Type) {
        let sentence = format!("type {} is declared only later", source.quoted(at));
        return Some(Explained::new(sentence).note(format!(
            "it is declared in line {}; a type has to stand before the operations that use it",
            source.line(later.name)
        )));
    }
    let words = wanted_words(known, wanted);
    let explained = Explained::new(format!("{} is declared nowhere; {words} is wanted here", source.quoted(at)));
    let names = match wanted {
        Wanted::Value(of) => near(known.values(of).map(|value| source.spelling(value.name)), spelling),
        _ => nearest(known, spelling, wanted_classes(wanted)),
    };
    if !names.is_empty() {
        return Some(explained.note(format!("nearly alike: {}", either(&names, "and"))));
    }
    Some(explained.notes(offered(known, wanted)))
}

/// The most names that are told where none is nearly alike.
const MOST_OFFERED: usize = 8;

/// What there is of the class wanted.
fn offered(known: &Known, wanted: Wanted) -> Option<String> {
    let source = known.source;
    let names: Vec<String> = match wanted {
        Wanted::Value(of) => known.values(of).map(|value| source.quoted(value.name)).collect(),
        _ => {
            let declared = known.all.iter().filter(|declared| wanted_classes(wanted).contains(&declared.class));
            declared.map(|declared| source.quoted(declared.name)).collect()
        }
    };
    match names.len() {
        0 => Some("the text declares nothing of that class".to_string()),
        1..=MOST_OFFERED => Some(format!("of that class the text declares {}", either(&names, "and"))),
        _ => None,
    }
}

pub fn other_class(known: &Known, at: At) -> Option<Explained> {
    if let Some(explained) = constant(known, at) {
        return Some(explained);
    }
    let (source, spelling) = (known.source, known.source.spelling(at));
    if source.outline.tree.bodies.first().is_some_and(|body| body.name == at) {
        let sentence =
            format!("{} is the first rule and has a type; the walk begins there, and nothing takes its value", source.quoted(at));
        return Some(Explained::new(sentence).note("put a rule without a type in front"));
    }
    let wanted = wanted(known, at)?;
    let found = known.anywhere(spelling);
    if found.is_empty() {
        let sentence = format!("{} is not listed in the common part, so that it has no type", source.quoted(at));
        return Some(Explained::new(sentence).note(format!("{} is wanted here", wanted_words(known, wanted))));
    }
    let is: Vec<String> = found.iter().map(|declared| described(known, declared)).collect();
    let sentence = format!("{} is {}; {} is wanted here", source.quoted(at), either(&is, "and"), wanted_words(known, wanted));
    let lines: Vec<String> = found.iter().map(|declared| source.line(declared.name)).collect();
    let declared = Explained::new(sentence).note(format!("declared in line {}", either(&lines, "and")));
    Some(declared.notes(found.iter().find_map(|declared| instead(known, declared, wanted, at))))
}

/// What a declared name is.
fn described(known: &Known, declared: &Declaration) -> String {
    let of = declared.of.map(|of| known.source.quoted(of)).unwrap_or_default();
    match declared.class {
        Class::Input => "an input token".to_string(),
        Class::Output => "an output token".to_string(),
        Class::Error => "an error".to_string(),
        Class::Type => "a type".to_string(),
        Class::Value => format!("a value of type {of}"),
        Class::Operation if declared.of.is_some() => format!("an operation that answers with a {of}"),
        Class::Operation => "an operation without an answer".to_string(),
        Class::Rule if declared.of.is_some() => format!("a rule that returns a {of}"),
        Class::Rule => "a rule without a type".to_string(),
        Class::Section => "a section of operators".to_string(),
    }
}

/// How the author may have meant it.
fn instead(known: &Known, declared: &Declaration, wanted: Wanted, at: At) -> Option<String> {
    let name = known.spelt(at);
    match (declared.class, wanted, declared.of) {
        (Class::Output, Wanted::Action, _) => Some(format!("to write it: .{name}")),
        (Class::Error, Wanted::Action, _) => Some(format!("to report it: #{name}")),
        (Class::Rule, Wanted::Action, None) => Some(format!("to call it: @{name}")),
        (Class::Rule, Wanted::Action | Wanted::Procedure, Some(_)) => {
            Some(format!("its value is wanted by a choice: [@{name} | ..]"))
        }
        (Class::Rule, Wanted::Asker, Some(_)) => Some(format!("to choose by it: [@{name} | ..]")),
        (Class::Operation, Wanted::Action, Some(_)) => Some(format!("its answer is wanted by a choice: [{name} | ..]")),
        (Class::Operation, Wanted::Procedure, None) => Some(format!("an operation is written without `@`: {name}")),
        (Class::Operation, Wanted::Chooser, Some(_)) => Some(format!("an operation is written without `@`: [{name} | ..]")),
        (Class::Input, Wanted::Asker, _) => Some(format!("to choose by the next token: [ | {name}: ..]")),
        (Class::Section, Wanted::Action, _) => Some(format!("to use it: ^{name} @RULE")),
        _ => None,
    }
}

/// A constant that is missing, at the operation's name, or too much, at the parenthesis.
fn constant(known: &Known, at: At) -> Option<Explained> {
    let (word, open, chooses) = known.source.outline.tree.bodies.iter().find_map(|body| operation(&body.nodes, at))?;
    let (source, spelling) = (known.source, known.source.spelling(word));
    let name = source.quoted(word);
    let token = known.find(Class::Input, spelling).map(|_| format!("{name} is an input token and takes no constant"));
    let declared = known.find(Class::Operation, spelling);
    if declared.is_some_and(|declared| declared.of.is_some() != chooses) {
        return None;
    }
    match (open, declared.and_then(|declared| declared.parameter)) {
        (Some(open), None) if open == at => {
            let line = declared.map(|declared| format!("declared in line {}", source.line(declared.name)));
            let sentence = token.unwrap_or_else(|| format!("the operation {name} takes no constant"));
            Some(Explained::new(sentence).notes(line))
        }
        (Some(open), Some(_)) if open == at => token.map(Explained::new),
        (None, Some(of)) if word == at => {
            let values: Vec<String> = known.values(of).map(|value| known.spelt(value.name)).collect();
            let example = values.first().map(|value| format!("for instance {}({value})", known.spelt(word)));
            let sentence = format!("{name} wants a constant of type {} behind it", source.quoted(of));
            Some(Explained::new(sentence).notes(example))
        }
        _ => None,
    }
}

/// The operation whose name or opening parenthesis is this word, with its parenthesis, and whether a choice goes by it.
fn operation(nodes: &[Node], at: At) -> Option<(At, Option<At>, bool)> {
    let is = |word: At, given: Option<(At, At)>, chooses: bool| {
        let open = given.map(|(open, _)| open);
        (word == at || open == Some(at)).then_some((word, open, chooses))
    };
    nodes.iter().find_map(|node| match node {
        Node::Bare { word, given } => is(*word, *given, false),
        Node::Cycle(nodes) => operation(nodes, at),
        Node::Choice { by, alternatives } => {
            let selector = if let Selector::Operation { word, given } = by { is(*word, *given, true) } else { None };
            selector.or_else(|| alternatives.iter().find_map(|alternative| operation(&alternative.nodes, at)))
        }
        _ => None,
    })
}
