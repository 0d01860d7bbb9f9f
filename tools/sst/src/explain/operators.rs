//! Operators that contradict each other (45).

use super::Explained;
use crate::known::{Class, Known};
use reference::processor::At;

pub fn contradiction(known: &Known, at: At) -> Option<Explained> {
    let source = known.source;
    let sections = &source.outline.tree.operators;
    let section = sections.iter().find(|section| section.entries.iter().any(|operator| operator.input == at))?;
    let here = section.entries.iter().find(|operator| operator.input == at)?;
    let token = |at: At| known.find(Class::Input, source.spelling(at)).and_then(|token| token.value);
    let earlier = || section.entries.iter().take_while(|operator| operator.input != at);
    if let Some(first) = earlier().find(|operator| token(operator.input).is_some() && token(operator.input) == token(at)) {
        let sentence = format!("{} is listed twice in {}", source.quoted(at), source.quoted(section.name));
        return Some(Explained::new(sentence).note(format!(
            "it stands in line {} as {}",
            source.line(first.input),
            source.quoted(first.input)
        )));
    }
    let first = earlier().find(|operator| operator.level == here.level && operator.left != here.left)?;
    let side = |left: bool| if left { "left" } else { "right" };
    let sentence =
        format!("level {} is {} for {} and {} here", here.level, side(first.left), source.quoted(first.input), side(here.left));
    let note = format!(
        "{} stands in line {}; a level has one side for all its operators",
        source.quoted(first.input),
        source.line(first.input)
    );
    Some(Explained::new(sentence).note(note))
}
