//! Limits that are passed (9), with their numbers, and tables that are too long (20).

use super::Explained;
use crate::known::{Class, Known};
use crate::message::grouped;
use crate::source::Source;
use reference::processor::{
    At, Head, LEVELS, MAX_BYTES, MAX_DEPTH, MAX_KIND, MAX_LABELS, MAX_NAMES, MAX_RULES, MAX_TABLE, MAX_TEXT, MAX_VALUE, Sort,
    Use, resolve, table_words, uses,
};
use std::collections::BTreeSet;

pub fn limit(known: &Known, at: At) -> Option<Explained> {
    let source = known.source;
    if source.text.len() > MAX_TEXT {
        let sentence =
            format!("the text has {} bytes; {} are the most", grouped(source.text.len() as u128), grouped(MAX_TEXT as u128));
        return Some(Explained::new(sentence).note("a program can be split into parts that are translated separately"));
    }
    match source.word(at).sort {
        Sort::Number => Some(number(source, at)),
        Sort::Sign("^") => made(known, at),
        Sort::Sign(_) => Some(Explained::new(format!(
            "this is the {}rd cycle or choice in each other; {MAX_DEPTH} are the most",
            MAX_DEPTH + 1
        ))),
        Sort::Name if source.word(at).len > MAX_BYTES => {
            let len = source.word(at).len;
            Some(Explained::new(format!("the name has {len} bytes; {MAX_BYTES} are the most")))
        }
        _ if follows(source, at, &["|", ","]) => {
            Some(Explained::new(format!("this is label {} of its choice; {MAX_LABELS} are the most", MAX_LABELS + 1)))
        }
        _ => name(known, at),
    }
}

fn follows(source: &Source, at: At, signs: &[&str]) -> bool {
    at > 0 && matches!(source.word(at - 1).sort, Sort::Sign(sign) if signs.contains(&sign))
}

fn number(source: &Source, at: At) -> Explained {
    if follows(source, at, &["="]) {
        return Explained::new(format!("{} is above {MAX_VALUE}, the greatest value", source.quoted(at)));
    }
    let (low, high) = (LEVELS.start(), LEVELS.end());
    Explained::new(format!("{} is no level of an operator; levels are {low} to {high}", source.quoted(at)))
}

/// A declared name: too many operations of its kind, too many names or rules, or no value left.
fn name(known: &Known, at: At) -> Option<Explained> {
    let source = known.source;
    let tree = &source.outline.tree;
    let entries = tree.sections.iter().flat_map(|section| section.entries.iter().map(|entry| (section.head, entry)));
    let entry = entries.clone().find(|(_, entry)| entry.name == at);
    if let Some((Head::Mechanism, entry)) = entry {
        let before = entries.filter(|(head, other)| *head == Head::Mechanism && other.name <= at && other.kind() == entry.kind());
        if before.count() > MAX_KIND {
            let sentence = format!("this is operation {} of its kind; {MAX_KIND} are the most", MAX_KIND + 1);
            return Some(Explained::new(sentence).note("kinds are: with or without a constant, with or without an answer"));
        }
    }
    let rules = rule_names(source, at);
    if rules > MAX_RULES {
        return Some(Explained::new(format!("this is rule {rules}; {MAX_RULES} are the most")));
    }
    let declared = known.all.iter().filter(|declared| declared.class != Class::Rule && declared.name <= at);
    let names: BTreeSet<At> = declared.map(|declared| declared.name).collect();
    if names.len() + rules > MAX_NAMES {
        return Some(Explained::new(format!("this is name {} that the text declares; {MAX_NAMES} are the most", MAX_NAMES + 1)));
    }
    let sentence = format!("{} would get a value above {MAX_VALUE}, the greatest", source.quoted(at));
    entry.map(|_| {
        Explained::new(sentence).note(
            "an entry gets the value after the one before it, the first of a section the one after the greatest of its class",
        )
    })
}

/// How many rules' names stand up to a word: behind `rules` and behind each semicolon there.
fn rule_names(source: &Source, at: At) -> usize {
    let Some(rules) = (0..at).find(|other| source.word(*other).sort == Sort::Sign("rules")) else { return 0 };
    let names =
        (rules + 1..=at).filter(|other| follows(source, *other, &["rules", ";"]) && source.word(*other).sort == Sort::Name);
    names.count()
}

/// The rules that operators stand for.
fn made(known: &Known, at: At) -> Option<Explained> {
    let source = known.source;
    let tree = &source.outline.tree;
    let pair = |used: &Use| (source.spelling(used.section), source.spelling(used.rule));
    let mut pairs = Vec::new();
    let mut rules = tree.bodies.len();
    for used in uses(tree).iter().filter(|used| used.sign <= at) {
        if pairs.contains(&pair(used)) {
            continue;
        }
        pairs.push(pair(used));
        let section = tree.operators.iter().find(|section| source.spelling(section.name) == pair(used).0)?;
        let mut levels: Vec<u16> = section.entries.iter().map(|operator| operator.level).collect();
        let most = levels.iter().map(|level| levels.iter().filter(|other| *other == level).count()).max();
        if most > Some(MAX_LABELS) {
            let sentence = format!("a level of {} has more than {MAX_LABELS} operators", source.quoted(used.section));
            return Some(Explained::new(sentence).note("each becomes a label of one choice"));
        }
        levels.sort_unstable();
        levels.dedup();
        rules += levels.len();
    }
    let note =
        format!("operators stand for a rule a level, for each operand rule that they are used with: {rules} rules up to here");
    let (what, limit) = if rules > MAX_RULES { ("rules", MAX_RULES) } else { ("names", MAX_NAMES) };
    let sentence = format!("with the rules that operators stand for there are more than {limit} {what}");
    Some(Explained::new(sentence).note(note))
}

pub fn table(source: &Source) -> Explained {
    let most = grouped(MAX_TABLE as u128);
    match resolve(source.text) {
        Err(_) => Explained::new(format!("the table has more than {most} words")),
        Ok(program) => {
            let words = grouped(table_words(&program) as u128);
            let explained = Explained::new(format!("the table would have {words} words; {most} are the most"));
            explained.note("nothing is wrong with any one word: let rules share what they repeat")
        }
    }
}
