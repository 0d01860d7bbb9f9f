//! Parts translated separately (A.13): a second translator of parts, and a second linker, which puts the texts together and
//! processes them as one.
//!
//! Linking looks at the parts' names for 5, 49 and 50; everything else, 9 at a rule or at a `^`, 20, the table, the verdict and the
//! figure, is what the processor says of the one text, with the place of its word looked up in the text that it came from.

pub mod object;
pub mod split;
#[cfg(test)]
mod tests;
pub mod worked;

use crate::files;
use crate::processor::parts::{COMMON, Common, Fault, Name, Part, common as read_common, translate};
use crate::processor::{Answer, process_long};
use crate::quiet::{Measured, measured};
use crate::side::Reference;
use crate::tables::bytes;
use object::Object;
use std::collections::HashSet;

/// The most parts.
pub const MAX_PARTS: usize = 16;

/// No part, too many, or over another limit.
const LIMIT: u16 = 9;
/// The first rule has a type.
const TYPED: u16 = 5;
/// A called rule in no part, or a rule that is not what the common part says.
pub const UNLIKE: u16 = 49;
/// A rule name in two parts.
pub const TWICE: u16 = 50;
/// What is lent is too short, or the table too long.
const SHORT: u16 = 20;
/// No objects of the common part.
pub const NO_OBJECT: u16 = files::FORM;

/// A part translated by itself with its common part.
pub fn part(common: &[u8], text: &[u8]) -> Result<Object, Fault> {
    translate(common, text).map(|part| Object::new(common, text, &part))
}

/// Parts of one common part, linked in order where so many words are lent: the table, and what is answered with it.
pub fn link(common: &[u8], texts: &[&[u8]], room_words: usize) -> Result<(Vec<u16>, Measured), Fault> {
    let read = read_common(common)?;
    if !(1..=MAX_PARTS).contains(&texts.len()) {
        return Err(Fault { number: LIMIT, text: COMMON, start: common.len(), len: 0 });
    }
    let translated = |(number, text): (usize, &&[u8])| translate(common, text).map_err(|fault| of_part(fault, number));
    let parts: Vec<Part> = (1..).zip(texts).map(translated).collect::<Result<_, _>>()?;
    if let Some(fault) = typed(&parts).or_else(|| unlike(&read, &parts)).or_else(|| twice(&parts)) {
        return Err(fault);
    }
    let one = OneText::new(&common[..read.sections], texts, &parts);
    let (answer, starts) = process_long(&one.text, room_words);
    match answer {
        Answer::Refused { number, start, len } => Err(one.back(number, start, len)),
        Answer::Accepted { ref table, .. } => Ok((table.clone(), measured(&answer, &starts))),
    }
}

/// A fault of a part that was translated as the part of that number.
fn of_part(fault: Fault, number: usize) -> Fault {
    Fault { text: if fault.text == COMMON { COMMON } else { number }, ..fault }
}

/// A fault at a name in the part of that number.
fn at_name(number: u16, text: usize, name: &Name) -> Fault {
    Fault { number, text, start: name.start, len: name.spelling.len() }
}

/// 5 at the first rule of all, if it has a type.
fn typed(parts: &[Part]) -> Option<Fault> {
    let first = parts.first()?.rules.first()?;
    first.of.is_some().then(|| at_name(TYPED, 1, &first.name))
}

/// The first 49: part after part, rule after rule, a rule's own name before the names of those that it uses.
fn unlike(common: &Common, parts: &[Part]) -> Option<Fault> {
    let rules = || (1..).zip(parts).flat_map(|(number, part)| part.rules.iter().map(move |rule| (number, rule)));
    let declared: HashSet<&[u8]> = rules().map(|(_, rule)| &rule.name.spelling[..]).collect();
    for (number, rule) in rules() {
        let of = rule.of.as_ref().map(|of| &of.spelling);
        if common.list.get(&rule.name.spelling) != of {
            return Some(at_name(UNLIKE, number, &rule.name));
        }
        let missing = rule.called.iter().find(|called| !declared.contains(&called.rule().spelling[..]));
        if let Some(called) = missing {
            return Some(at_name(UNLIKE, number, called.rule()));
        }
    }
    None
}

/// The first 50: a name that a part before has.
fn twice(parts: &[Part]) -> Option<Fault> {
    let mut before: HashSet<&[u8]> = HashSet::new();
    for (number, part) in (1..).zip(parts) {
        if let Some(rule) = part.rules.iter().find(|rule| before.contains(&rule.name.spelling[..])) {
            return Some(at_name(TWICE, number, &rule.name));
        }
        before.extend(part.rules.iter().map(|rule| &rule.name.spelling[..]));
    }
    None
}

/// The rules of all parts in one text, behind the sections of the common part.
pub struct OneText {
    pub text: Vec<u8>,
    /// For each part its number, the place where its rules begin in the one text, and in its own.
    pieces: Vec<(usize, usize, usize)>,
    /// The last part's number and its length.
    last: (usize, usize),
}

impl OneText {
    /// Of parts without faults.
    pub fn new(sections: &[u8], texts: &[&[u8]], parts: &[Part]) -> OneText {
        let mut text = [sections, b"rules\n"].concat();
        let mut pieces = Vec::new();
        for ((number, own), part) in (1..).zip(texts).zip(parts) {
            let (from, to) = (part.rules[0].text.start, part.rules[part.rules.len() - 1].text.end);
            pieces.push((number, text.len(), from));
            text.extend([&own[from..to], b"\n"].concat());
        }
        text.extend(b"end");
        OneText { text, pieces, last: (texts.len(), texts.last().map_or(0, |text| text.len())) }
    }

    /// Where a word of the one text came from; what is at its end is at the end of the last part.
    fn back(&self, number: u16, start: usize, len: usize) -> Fault {
        if start == self.text.len() {
            return Fault { number, text: self.last.0, start: self.last.1, len };
        }
        let piece = self.pieces.iter().rfind(|(_, from, _)| *from <= start);
        let (text, from, own) = *piece.expect("a fault of a rule");
        Fault { number, text, start: own + start - from, len }
    }
}

/// The one text of parts without faults.
pub fn one_text(common: &[u8], texts: &[&[u8]]) -> Option<Vec<u8>> {
    let read = read_common(common).ok()?;
    let parts: Vec<Part> = texts.iter().map(|text| translate(common, text).ok()).collect::<Option<_>>()?;
    Some(OneText::new(&common[..read.sections], texts, &parts).text)
}

/// What `sst_part` answers, the lent bytes apart.
#[derive(Clone, Copy, PartialEq, Eq, Debug, Default)]
pub struct Translated {
    pub number: u16,
    pub text: u64,
    pub start: u64,
    pub len: u64,
    pub words: u64,
}

/// What `sst_link` answers, the lent bytes apart.
#[derive(Clone, Copy, PartialEq, Eq, Debug, Default)]
pub struct Linked {
    pub number: u16,
    pub text: u64,
    pub start: u64,
    pub len: u64,
    pub words: u64,
    pub finishing: u64,
    pub figure: u64,
    pub figure_number: u64,
}

impl Translated {
    pub fn refused(fault: Fault) -> Translated {
        let Fault { number, text, start, len } = fault;
        Translated { number, text: text as u64, start: start as u64, len: len as u64, words: 0 }
    }
}

impl Linked {
    pub fn refused(fault: Fault) -> Linked {
        let Translated { number, text, start, len, .. } = Translated::refused(fault);
        Linked { number, text, start, len, ..Linked::default() }
    }

    pub fn accepted(measured: &Measured) -> Linked {
        let Measured { processed, figure, figure_number } = *measured;
        Linked { words: processed.words, finishing: processed.finishing, figure, figure_number, ..Linked::default() }
    }
}

/// The entries `sst_part` and `sst_link`.
pub trait Parts {
    fn name(&self) -> &'static str;
    fn part(&self, common: &[u8], part: &[u8], object: &mut [u8]) -> Translated;
    fn link(&self, common: &[u8], objects: &[u8], table: &mut [u8]) -> Linked;
}

/// This crate's own objects have the part's bytes, a word each, behind what an object has: the linker wants the text.
impl Parts for Reference {
    fn name(&self) -> &'static str {
        "rust"
    }

    fn part(&self, common: &[u8], text: &[u8], object: &mut [u8]) -> Translated {
        let room = object.len() / 2;
        let end = Fault { number: SHORT, text: 1, start: text.len(), len: 0 };
        let made = part(common, text).map(|object| own_words(&object, text));
        match made.and_then(|words| if words.len() <= room { Ok(words) } else { Err(end) }) {
            Ok(words) => {
                files::fill(object, &words);
                Translated { words: words.len() as u64, ..Translated::default() }
            }
            Err(fault) => {
                files::fill(object, &[]);
                Translated::refused(fault)
            }
        }
    }

    fn link(&self, common: &[u8], objects: &[u8], table: &mut [u8]) -> Linked {
        let room = table.len() / 2;
        let read = read_common(common).and_then(|_| texts_of(common, objects));
        let linked = read.and_then(|texts| {
            let texts: Vec<&[u8]> = texts.iter().map(Vec::as_slice).collect();
            link(common, &texts, room)
        });
        match linked {
            Ok((words, measured)) => {
                files::fill(table, &words);
                Linked::accepted(&measured)
            }
            Err(fault) => {
                files::fill(table, &[]);
                Linked::refused(fault)
            }
        }
    }
}

/// The words of this crate's own object.
pub fn own_words(object: &Object, text: &[u8]) -> Vec<u16> {
    let text: Vec<u16> = text.iter().map(|byte| u16::from(*byte)).collect();
    object.with(&text)
}

/// The texts of this crate's own objects, or 40 with the number of the first that is none: what is read must be written as these
/// very words.
fn texts_of(common: &[u8], objects: &[u8]) -> Result<Vec<Vec<u8>>, Fault> {
    let mut texts = Vec::new();
    let mut rest = objects;
    while !rest.is_empty() {
        let no_object = Fault { number: NO_OBJECT, text: texts.len() + 1, start: 0, len: 0 };
        let words = files::words(rest);
        let (count, text_bytes) = object::first(&words).ok_or(no_object)?;
        let text: Vec<u8> = words[count - text_bytes..count].iter().map(|word| *word as u8).collect();
        let again = part(common, &text).map(|object| own_words(&object, &text));
        if again.map(|again| bytes(&again)).as_deref() != Ok(&rest[..2 * count]) {
            return Err(no_object);
        }
        texts.push(text);
        rest = &rest[2 * count..];
    }
    Ok(texts)
}
