//! Checks the texts of docs/FAULTS.md: each bad one is refused with its number at the word said, each mended one is accepted.
//!
//! check_faults FILE
//!
//! A section `## N: ..` has a bad text, the sentence "The word shown is `;`." or "The word shown is the third `;`." (a word that stands
//! there more than once), the line `mended:` and a mended text; both texts are indented. 20 is no fault of a text and has none. A section
//! with a line `common:` has a common part, its parts in order, the sentence with "of part 2" at its end, and the mended parts. Both
//! processors are asked; built without the library, this crate's alone.
#![forbid(unsafe_code)]

use std::process::ExitCode;

use reference::ffi;
use reference::harness;
use reference::parts::{Linked, Parts};
use reference::side::{Processed, Processor, Reference};

const LARGEST: usize = 2 * 4_096;
/// Bytes enough for an object of these texts.
const OBJECT: usize = 4_096;
/// The numbers that have a section, in the document's order, and the one that has no texts.
const NUMBERS: [u16; 13] = [1, 2, 3, 4, 5, 6, 7, 8, 9, 20, 45, 49, 50];
const WITHOUT_TEXTS: u16 = 20;
const ORDINALS: [&str; 6] = ["the first ", "the second ", "the third ", "the fourth ", "the fifth ", "the sixth "];

/// A section's number and its lines.
type Section<'a> = (u16, Vec<&'a str>);

fn sections(document: &str) -> Result<Vec<Section<'_>>, String> {
    let mut sections: Vec<Section> = Vec::new();
    for line in document.lines() {
        if let Some(head) = line.strip_prefix("## ") {
            let number = head.split(':').next().and_then(|number| number.parse().ok());
            sections.push((number.ok_or_else(|| format!("no number: {line}"))?, Vec::new()));
        } else if let Some((_, lines)) = sections.last_mut() {
            lines.push(line);
        }
    }
    let numbers: Vec<u16> = sections.iter().map(|(number, _)| *number).collect();
    if numbers == NUMBERS { Ok(sections) } else { Err(format!("the sections are {numbers:?}, not {NUMBERS:?}")) }
}

/// The indented blocks.
fn blocks(lines: &[&str]) -> Vec<String> {
    let groups = lines.split(|line| !line.starts_with("    "));
    let group = |group: &[&str]| group.iter().map(|line| format!("{}\n", &line[4..])).collect();
    groups.filter(|lines| !lines.is_empty()).map(group).collect()
}

/// The places of a word in a text; a name is not looked for inside other names.
fn places(text: &str, word: &str) -> Vec<usize> {
    let named = |byte: Option<&u8>| byte.is_some_and(|byte| byte.is_ascii_alphanumeric() || *byte == b'_');
    let alone = |at: usize| {
        let (before, behind) = (at.checked_sub(1).and_then(|at| text.as_bytes().get(at)), text.as_bytes().get(at + word.len()));
        !(named(word.as_bytes().first()) && (named(before) || named(behind)))
    };
    text.match_indices(word).map(|(at, _)| at).filter(|at| alone(*at)).collect()
}

/// The place and the length of the word that the section says is shown.
fn shown(lines: &[&str], text: &str) -> Result<(usize, usize), String> {
    let sentence = lines.iter().find_map(|line| line.strip_prefix("The word shown is "));
    let (ordinal, quoted) = sentence.and_then(|rest| rest.split_once('`')).ok_or("no sentence `The word shown is ..`")?;
    let word =
        quoted.strip_suffix('.').and_then(|rest| rest.split('`').next()).ok_or("the sentence does not end in a full stop")?;
    let places = places(text, word);
    let which = match (ordinal, places.len()) {
        ("", 1) => 0,
        ("", _) => return Err(format!("`{word}` stands there {} times", places.len())),
        _ => ORDINALS.iter().position(|known| *known == ordinal).ok_or_else(|| format!("which is \"{ordinal}\"?"))?,
    };
    let place = places.get(which).ok_or_else(|| format!("there is no {ordinal}`{word}`"))?;
    Ok((*place, word.len()))
}

fn ask(side: &dyn Processor, text: &str) -> Processed {
    side.process(text.as_bytes(), &mut vec![0; LARGEST])
}

/// What is wrong with a section, if anything.
fn check(sides: &[&dyn Processor], number: u16, lines: &[&str]) -> Result<(), String> {
    let blocks = blocks(lines);
    if number == WITHOUT_TEXTS {
        return if blocks.is_empty() { Ok(()) } else { Err("texts that nothing is said of".to_string()) };
    }
    let [bad, mended] = &blocks[..] else { return Err(format!("{} texts, not a bad and a mended one", blocks.len())) };
    if !lines.contains(&"mended:") {
        return Err("no line `mended:`".to_string());
    }
    let (start, len) = shown(lines, bad)?;
    let wanted = Processed { number, start: start as u64, len: len as u64, words: 0, finishing: 0 };
    for side in sides {
        let done = ask(*side, bad);
        if done != wanted {
            return Err(format!("{}: {done:?}, not {wanted:?}", side.name()));
        }
        let done = ask(*side, mended);
        if done.number != 0 {
            return Err(format!("{} refuses the mended text: {done:?}", side.name()));
        }
    }
    Ok(())
}

/// What linking parts of a common part answers.
fn link(side: &dyn Parts, common: &str, parts: &[String]) -> Linked {
    let mut objects = Vec::new();
    for part in parts {
        let mut object = vec![0; OBJECT];
        let made = side.part(common.as_bytes(), part.as_bytes(), &mut object);
        if made.number != 0 {
            return Linked { number: made.number, text: made.text, start: made.start, len: made.len, ..Linked::default() };
        }
        objects.extend(&object[..2 * made.words as usize]);
    }
    side.link(common.as_bytes(), &objects, &mut vec![0; LARGEST])
}

/// What is wrong with a section of parts, if anything.
fn check_parts(sides: &[&dyn Parts], number: u16, lines: &[&str]) -> Result<(), String> {
    let mended = lines.iter().position(|line| *line == "mended:").ok_or("no line `mended:`")?;
    let (bad, good) = (blocks(&lines[..mended]), blocks(&lines[mended..]));
    let [common, parts @ ..] = &bad[..] else { return Err("no common part".to_string()) };
    let sentence = lines.iter().find(|line| line.starts_with("The word shown is ")).ok_or("no sentence")?;
    let text = sentence.strip_suffix('.').and_then(|rest| rest.rsplit(' ').next()).and_then(|text| text.parse::<usize>().ok());
    let text = text.filter(|text| (1..=parts.len()).contains(text)).ok_or("no `of part ..`")?;
    let (start, len) = shown(lines, &parts[text - 1])?;
    let wanted = Linked { number, text: text as u64, start: start as u64, len: len as u64, ..Linked::default() };
    for side in sides {
        let done = link(*side, common, parts);
        if done != wanted {
            return Err(format!("{}: {done:?}, not {wanted:?}", side.name()));
        }
        let done = link(*side, common, &good);
        if done.number != 0 {
            return Err(format!("{} refuses the mended parts: {done:?}", side.name()));
        }
    }
    Ok(())
}

fn main() -> ExitCode {
    let document = match harness::document("check_faults") {
        Ok(document) => document,
        Err(status) => return status,
    };
    let mut sides: Vec<&dyn Processor> = vec![&Reference];
    if let Some(library) = ffi::processor() {
        sides.push(library);
    }
    let mut linkers: Vec<&dyn Parts> = vec![&Reference];
    if let Some(library) = ffi::parts() {
        linkers.push(library);
    }
    let sections = sections(&document).unwrap_or_else(|message| {
        println!("{message}");
        Vec::new()
    });
    let mut good = !sections.is_empty();
    for (number, lines) in &sections {
        let checked =
            if lines.contains(&"common:") { check_parts(&linkers, *number, lines) } else { check(&sides, *number, lines) };
        if let Err(message) = checked {
            println!("{number}: {message}");
            good = false;
        }
    }
    if good { ExitCode::SUCCESS } else { ExitCode::FAILURE }
}
