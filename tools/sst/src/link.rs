//! `sst link`: parts translated separately and linked, with a fault explained in the text that it stands in.

use crate::arguments::Arguments;
use crate::check::summary;
use crate::explain::{explain, nearest_of};
use crate::held::{Answer, Figure};
use crate::input::{self, Input};
use crate::list;
use crate::message::{Level, Message, either};
use crate::place::{place, quoted};
use crate::session::{Done, Session, Status, Trouble};
use crate::source::{Frame, Source};
use crate::table::file;
use reference::ffi::Library;
use reference::parts::{Linked, MAX_PARTS, Parts, TWICE, Translated, UNLIKE, link};
use reference::processor::parts::{COMMON, Fault, common, translate};
use reference::processor::{MAX_TABLE, Sort, Word, words};
use reference::quiet::TOO_LONG;

/// Bytes for an object at first, and at most.
const FIRST_ROOM: usize = 1 << 16;
const MOST_ROOM: usize = 1 << 24;
/// An object that does not fit.
const SHORT: u16 = 20;

pub fn run(session: &mut Session, arguments: &Arguments) -> Done {
    if arguments.words.len() < 2 {
        return Err(Trouble::Usage("link wants a common part and one part or more".to_string()));
    }
    let texts = arguments.words.iter().map(|path| input::read(session, path)).collect::<Result<Vec<Input>, Trouble>>()?;
    if texts.len() > MAX_PARTS + 1 {
        return Err(Trouble::Refused(format!("{}: {} parts; {MAX_PARTS} are the most", texts[0].name, texts.len() - 1)));
    }
    let answered = held(&texts)?;
    if answered.linked.number != 0 {
        let (message, text) = answered.explained(&texts);
        message.show(session, &Source::new(&text.name, &text.bytes));
        return Ok(Status::No);
    }
    finish(session, arguments, &texts[0], &answered.answer())
}

fn finish(session: &mut Session, arguments: &Arguments, common: &Input, answer: &Answer) -> Done {
    if arguments.has("list") {
        return list::lines(session, answer);
    }
    let source = Source::new(&common.name, &common.bytes);
    let Some(out) = arguments.value("output") else {
        session.out(&format!("{}: linked: {}\n", common.name, summary(answer)))?;
        return Ok(Status::Yes);
    };
    if !answer.finishing && !arguments.has("not-finishing") {
        session.err(&format!("{}: linked: {}\n", common.name, summary(answer)));
        session.err("no file was written; `--not-finishing` writes it all the same\n");
        return Ok(Status::No);
    }
    let file = file(&source, answer)?;
    input::write(out, &file)?;
    let (bytes, out) = (file.len(), out.to_string_lossy());
    session.out(&format!("{}: linked: {}, file of {bytes} bytes: {out}\n", common.name, summary(answer)))?;
    Ok(Status::Yes)
}

/// What the library answers for parts.
struct Answered {
    linked: Linked,
    table: Vec<u16>,
    /// Whether all parts were translated.
    translated: bool,
}

/// The library's answer, where the second linker gives the same.
fn held(texts: &[Input]) -> Result<Answered, Trouble> {
    let answered = library(texts);
    let second = second(texts);
    if second != (answered.linked, answered.table.clone()) {
        return Err(Trouble::Disagree(texts[0].name.clone(), "they link something else".to_string()));
    }
    Ok(answered)
}

/// Each part translated, and then all linked, by the second linker.
fn second(texts: &[Input]) -> (Linked, Vec<u16>) {
    let common = &texts[0].bytes;
    let parts: Vec<&[u8]> = texts[1..].iter().map(|part| &part.bytes[..]).collect();
    let refused = (1..).zip(&parts).find_map(|(number, part)| {
        let fault = translate(common, part).err()?;
        Some(Fault { text: if fault.text == COMMON { COMMON } else { number }, ..fault })
    });
    match refused.map_or_else(|| link(common, &parts, MAX_TABLE), Err) {
        Err(fault) => (Linked::refused(fault), Vec::new()),
        Ok((table, measured)) => (Linked::accepted(&measured), table),
    }
}

fn library(texts: &[Input]) -> Answered {
    let common = &texts[0].bytes;
    let mut objects = Vec::new();
    for (number, part) in (1..).zip(&texts[1..]) {
        match object(common, &part.bytes) {
            Ok(object) => objects.extend(object),
            Err(refused) => return untranslated(&refused, number),
        }
    }
    let mut bytes = vec![0; 2 * MAX_TABLE];
    let linked = Library.link(common, &objects, &mut bytes);
    let words = bytes.chunks_exact(2).map(|pair| u16::from_be_bytes([pair[0], pair[1]]));
    Answered { linked, table: words.take(linked.words as usize).collect(), translated: true }
}

/// The answer where a part, by its number, is not translated.
fn untranslated(refused: &Translated, part: u64) -> Answered {
    let Translated { number, text, start, len, .. } = *refused;
    let text = if text == 0 { 0 } else { part };
    let linked = Linked { number, text, start, len, ..Linked::default() };
    Answered { linked, table: Vec::new(), translated: false }
}

/// Shows why the only part of these texts is not translated.
pub fn refusal(session: &mut Session, texts: &[Input], refused: &Translated) -> Done {
    let (message, text) = untranslated(refused, 1).explained(texts);
    message.show(session, &Source::new(&text.name, &text.bytes));
    Ok(Status::No)
}

/// The object of a part, in as many bytes as it needs.
pub fn object(common: &[u8], part: &[u8]) -> Result<Vec<u8>, Translated> {
    let mut room = FIRST_ROOM;
    loop {
        let mut object = vec![0; room];
        let translated = Library.part(common, part, &mut object);
        match translated.number {
            0 => {
                object.truncate(2 * translated.words as usize);
                return Ok(object);
            }
            SHORT if room < MOST_ROOM => room *= 2,
            _ => return Err(translated),
        }
    }
}

impl Answered {
    fn answer(&self) -> Answer {
        let figure = match (self.linked.figure_number, self.linked.figure) {
            (TOO_LONG, _) => Figure::TooLong,
            (_, 0) => Figure::None,
            (_, most) => Figure::Most(most),
        };
        Answer {
            number: self.linked.number,
            start: self.linked.start as usize,
            len: self.linked.len as usize,
            table: self.table.clone(),
            finishing: self.linked.finishing == 1,
            figure,
        }
    }

    /// The fault in words, and the text that it stands in.
    fn explained<'a>(&self, texts: &'a [Input]) -> (Message, &'a Input) {
        let text = &texts[self.linked.text as usize];
        let answer = self.answer();
        let Answer { number, start, len, .. } = answer;
        let told =
            |(sentence, notes): (String, Vec<String>)| Message { level: Level::Fault(number), start, len, sentence, notes };
        let message = match (number, self.translated) {
            (UNLIKE, _) => told(unlike(texts, text, start, len)),
            (TWICE, _) => told(twice(texts, self.linked.text as usize, start, len)),
            (9, true) => told(("the rules of all parts together pass a limit here".to_string(), vec![LIMITS.to_string()])),
            (20, true) => told(("the table of all parts has more than 4,096 words".to_string(), Vec::new())),
            _ => translation(&texts[0], text, &answer),
        };
        (message, text)
    }
}

const LIMITS: &str = "128 rules and 512 names, those that operators stand for among them";

/// A fault of one text: that of the common part as it stands, that of a part between what the common part has for it.
fn translation(first: &Input, text: &Input, answer: &Answer) -> Message {
    let Ok(common) = common(&first.bytes) else { return explain(&Source::new(&text.name, &text.bytes), answer) };
    let front = common.sections;
    let own = words(&text.bytes);
    let last = own.iter().rev().find(|word| word.sort != Sort::End).filter(|word| word.sort == Sort::Sign("end"));
    let own_end = last.map_or(text.bytes.len(), |word| word.start);
    let list = listed(first, front);
    let stubs: String = list.iter().map(|(rule, of, _)| format!("{rule} >> {of}: {{ }};\n")).collect();
    let lines: Vec<usize> = list.iter().map(|(.., line)| *line).collect();
    let whole = [&first.bytes[..front], &text.bytes[..own_end], stubs.as_bytes(), b"end"].concat();
    let frame = Frame { name: &first.name, front, end: front + own_end, listed: &lines };
    let start = front + answer.start.min(own_end);
    let mut message = explain(&Source::framed(&text.name, &whole, frame), &Answer { start, ..answer.clone() });
    message.start = answer.start;
    message
}

/// The rules that a common part lists, each with its type and its line.
fn listed(common: &Input, front: usize) -> Vec<(String, String, usize)> {
    let spelt = |word: &Word| String::from_utf8_lossy(&common.bytes[word.start..word.start + word.len]).into_owned();
    let words: Vec<Word> = words(&common.bytes).into_iter().filter(|word| word.start > front).collect();
    let line = |name: &Word| place(&common.bytes, name.start).line;
    words.chunks_exact(4).map(|part| (spelt(&part[0]), spelt(&part[2]), line(&part[0]))).collect()
}

/// The names of a text's rules, each with its place and its type.
fn rules(text: &Input) -> Vec<(Vec<u8>, usize, Option<Vec<u8>>)> {
    let source = Source::new(&text.name, &text.bytes);
    let bodies = source.outline.tree.bodies.iter();
    let rule = |body: &reference::processor::Body| {
        let of = body.of.map(|of| source.spelling(of).to_vec());
        (source.spelling(body.name).to_vec(), source.word(body.name).start, of)
    };
    bodies.map(rule).collect()
}

fn unlike(texts: &[Input], text: &Input, start: usize, len: usize) -> (String, Vec<String>) {
    let name = &text.bytes[start..start + len];
    let shown = quoted(name);
    let Some((_, _, of)) = rules(text).into_iter().find(|(_, at, _)| *at == start) else {
        let all: Vec<Vec<u8>> = texts[1..].iter().flat_map(rules).map(|(name, ..)| name).collect();
        let near = nearest_of(all.iter().map(Vec::as_slice), name);
        let note = if near.is_empty() { Vec::new() } else { vec![format!("nearly alike: {}", either(&near, "and"))] };
        return (format!("{shown} is called, and no part has a rule of that name"), note);
    };
    let listed = common(&texts[0].bytes).ok().and_then(|common| common.list.get(name).cloned());
    let common = &texts[0].name;
    let sentence = match (listed, of) {
        (Some(of), None) => format!("{common} says that {shown} returns a {}, and here it has no type", quoted(&of)),
        (None, Some(of)) => format!("{shown} returns a {}, which {common} does not say", quoted(&of)),
        (Some(first), Some(of)) => {
            format!("{common} says that {shown} returns a {}, and here it is {}", quoted(&first), quoted(&of))
        }
        (None, None) => format!("{shown} is not what {common} says"),
    };
    (sentence, vec![format!("the rules with a type are listed in {common}, behind `rules`")])
}

fn twice(texts: &[Input], number: usize, start: usize, len: usize) -> (String, Vec<String>) {
    let name = &texts[number].bytes[start..start + len];
    let parts = texts[1..number].iter();
    let earlier = parts.flat_map(|part| rules(part).into_iter().map(move |rule| (part, rule)));
    let found = earlier.into_iter().find(|(_, (other, ..))| other == name);
    let note = found.map(|(part, (_, at, _))| format!("it stands in {} line {}", part.name, place(&part.bytes, at).line));
    (format!("{} is already a rule of another part", quoted(name)), note.into_iter().collect())
}
