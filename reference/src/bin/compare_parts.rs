//! Compares the library's translation of parts and its linker with those of this crate, which puts the parts' texts together.
//!
//! compare_parts [--exact] [--trace] [seeds [first seed]]
//!
//! Built without the library's entries (the features `lib` and `parts`), this crate stands on both sides.
#![forbid(unsafe_code)]

use std::process::ExitCode;

use reference::chains;
use reference::choosers;
use reference::faults::{self, entries, operators};
use reference::ffi;
use reference::files::{self, FORM, Files, words};
use reference::harness::{self, Compares, Group, Lent, Tally};
use reference::limits;
use reference::parts::split::{self, Crowd, Split, SplitWords};
use reference::parts::worked::{COMMON, LINKS, PARTS, RULES, example};
use reference::parts::{self, Linked, MAX_PARTS, Parts, TWICE, Translated, UNLIKE};
use reference::precedence::{self, MOST_NAMES, MOST_RULES};
use reference::processor::parts::{Called, Fault, PartRule, common as read_common, translate};
use reference::processor::{MAX_TABLE, MAX_TEXT};
use reference::programs;
use reference::quiet::{GREATEST, Measurer, TOO_LONG};
use reference::random::Rng;
use reference::side::Reference;
use reference::texts::{self, Seed};

const SEEDS: u64 = 300;
/// Lent bytes for the largest table.
const LARGEST: usize = 2 * MAX_TABLE;
/// The bytes of a table file are at most so many.
const FILE: usize = 8_264;
/// What is lent is too short.
const SHORT: u16 = 20;
/// The first rule has a type.
const TYPED: u16 = 5;
const LIMIT: u16 = 9;
/// The place of the limit of a table's words among the limits.
const TABLE_WORDS: usize = 2;

struct Harness {
    other: &'static dyn Parts,
    measurer: &'static dyn Measurer,
    files: &'static dyn Files,
    exact: bool,
    tally: Tally,
}

/// A text, escaped so that it can be read, cut where it is long.
fn cut(text: &[u8]) -> String {
    format!("\"{}\" ({} bytes)", text[..text.len().min(1_200)].escape_ascii(), text.len())
}

/// A common part and parts.
fn shown(common: &[u8], texts: &[&[u8]]) -> String {
    let parts: String = (1..).zip(texts).map(|(number, text)| format!("\n  {number}: {}", cut(text))).collect();
    format!("  common: {}{parts}", cut(common))
}

/// The lent words that were written, if those behind them are zero, an odd last byte is as it was, and so is all around.
fn written(lent: &Lent, count: u64) -> Option<Vec<u8>> {
    let mut wanted = lent.before().to_vec();
    let bytes = lent.back()?;
    let whole = words(bytes.get(..2 * usize::try_from(count).ok()?)?);
    files::fill(&mut wanted, &whole);
    (wanted == bytes).then(|| bytes[..2 * whole.len()].to_vec())
}

/// Bytes enough for any object of these texts: no word of a text makes more than four words a byte.
fn roomy(common: &[u8], text: &[u8]) -> usize {
    common.len() + 8 * text.len() + 128
}

/// The refusal of an object or a table that is too long, at the end of its text.
fn too_short(text: usize, bytes: &[u8]) -> Fault {
    Fault { number: SHORT, text, start: bytes.len(), len: 0 }
}

impl Harness {
    /// Compares the translation of a part where so many bytes are lent; what is answered, and the object if there is one.
    fn part_in(&mut self, rng: &mut Rng, common: &[u8], text: &[u8], size: usize) -> (Translated, Option<Vec<u8>>) {
        let read = [common, text].map(|bytes| Lent::new(rng, bytes, self.exact));
        let mut lent = Lent::random(rng, size, self.exact);
        let done = self.other.part(read[0].bytes(), read[1].bytes(), lent.bytes_mut());
        let own = parts::part(common, text);
        let object = written(&lent, done.words);
        let right = match (&own, &object) {
            (_, None) => false,
            (Err(fault), _) => done == Translated::refused(*fault),
            (Ok(_), _) if done.number == SHORT => done == Translated::refused(too_short(1, text)),
            (Ok(own), Some(bytes)) => {
                let wanted = if ffi::parts().is_some() { own.words() } else { parts::own_words(own, text) };
                done == Translated { words: done.words, ..Translated::default() } && words(bytes) == wanted
            }
        };
        self.tally.expect(right && read.iter().all(Lent::kept), || {
            let own = own.as_ref().map(|_| "an object").map_err(|fault| *fault);
            format!("  {size} bytes lent\n  rust:  {own:?}\n  other: {done:?}\n{}", shown(common, &[text]))
        });
        let sort = if done.number == 0 { String::new() } else { format!(" text {}", done.text) };
        self.tally.met(format!("part {}{sort}", done.number));
        (done, object.filter(|_| done.number == 0))
    }

    /// The same with bytes enough.
    fn part(&mut self, rng: &mut Rng, common: &[u8], text: &[u8]) -> Option<Vec<u8>> {
        let size = roomy(common, text) + rng.below(3);
        let (done, object) = self.part_in(rng, common, text, size);
        self.tally.expect(done.number != SHORT, || format!("  {done:?} in {size} bytes\n{}", shown(common, &[text])));
        object
    }

    /// The objects of all parts, if each has one.
    fn objects(&mut self, rng: &mut Rng, split: &Split) -> Option<Vec<Vec<u8>>> {
        let all: Vec<Option<Vec<u8>>> = split.parts.iter().map(|text| self.part(rng, &split.common, text)).collect();
        all.into_iter().collect()
    }

    /// Compares linking where so many bytes are lent.
    fn link_in(&mut self, rng: &mut Rng, split: &Split, objects: &[Vec<u8>], size: usize) -> (Linked, Vec<u8>) {
        let objects = objects.concat();
        let read = [&split.common, &objects].map(|bytes| Lent::new(rng, bytes, self.exact));
        let mut lent = Lent::random(rng, size, self.exact);
        let theirs = self.other.link(read[0].bytes(), read[1].bytes(), lent.bytes_mut());
        let mut table = lent.before().to_vec();
        let (done, words) = match parts::link(&split.common, &split.texts(), size / 2) {
            Ok((words, measured)) => (Linked::accepted(&measured), words),
            Err(fault) => (Linked::refused(fault), Vec::new()),
        };
        files::fill(&mut table, &words);
        let right = done == theirs && lent.is(&table) && read.iter().all(Lent::kept);
        self.tally.expect(right, || {
            let differ = if lent.is(&table) { "" } else { "; the lent bytes differ" };
            let texts = shown(&split.common, &split.texts());
            format!("  {size} bytes lent\n  rust:  {done:?}\n  other: {theirs:?}{differ}\n{texts}")
        });
        self.tally.met(format!("link {}", done.number));
        table.truncate(2 * words.len());
        (done, table)
    }

    /// Compares linking with bytes enough, and the answer with that of the one text.
    fn link(&mut self, rng: &mut Rng, split: &Split, objects: &[Vec<u8>]) -> Linked {
        let size = LARGEST + rng.below(9);
        let (done, table) = self.link_in(rng, split, objects, size);
        if let Some(kind) = kind(split, &done) {
            self.tally.met(kind);
        }
        if done.number == 0 {
            self.tally.met(format!("finishing {}", done.finishing));
            self.tally.met(format!("figure number {}", done.figure_number));
            self.one_text(split, &done, &table);
        }
        done
    }

    /// The words, the verdict and the figure are those of the one text.
    fn one_text(&mut self, split: &Split, done: &Linked, table: &[u8]) {
        let Some(one) = parts::one_text(&split.common, &split.texts()) else { return };
        if one.len() > MAX_TEXT {
            self.tally.met("whole too long for one text");
            return;
        }
        let mut bytes = vec![0xEE; LARGEST];
        let told = self.measurer.measure(&one, &mut bytes);
        bytes.truncate(2 * told.processed.words as usize);
        let same = told.processed.number == 0 && Linked::accepted(&told) == *done && bytes == table;
        self.tally.expect(same, || format!("  linked {done:?}\n  as one {told:?}\n  {}", cut(&one)));
        self.tally.met("whole as one text");
    }
}

/// What a refusal of linking is for.
fn kind(split: &Split, done: &Linked) -> Option<&'static str> {
    match (done.number, done.text as usize) {
        (LIMIT, 0) if split.parts.is_empty() => Some("9 for no part"),
        (LIMIT, 0) if split.parts.len() > MAX_PARTS => Some("9 for over 16"),
        (LIMIT, text) => past(split, text, done.start as usize),
        (UNLIKE, text) => unlike(split, text, done.start as usize),
        _ => None,
    }
}

/// The rules of a part of a split.
fn rules_of(split: &Split, text: usize) -> Option<Vec<PartRule>> {
    Some(translate(&split.common, split.parts.get(text.checked_sub(1)?)?).ok()?.rules)
}

/// What a 9 at a word of a part is for: rules that are made, or a rule's own name.
fn past(split: &Split, text: usize, start: usize) -> Option<&'static str> {
    let before: usize = (1..text).filter_map(|text| rules_of(split, text)).map(|rules| rules.len()).sum();
    match rules_of(split, text)?.iter().position(|rule| rule.name.start == start) {
        None => Some("9 at a ^"),
        Some(index) if before + index == MOST_RULES => Some("9 for rules"),
        Some(_) => Some("9 for names"),
    }
}

/// What a 49 is for: a use of a rule, or a rule's own name.
fn unlike(split: &Split, text: usize, start: usize) -> Option<&'static str> {
    let (list, rules) = (read_common(&split.common).ok()?.list, rules_of(split, text)?);
    if let Some(rule) = rules.iter().find(|rule| rule.name.start == start) {
        return Some(match (list.contains_key(&rule.name.spelling), &rule.of) {
            (true, None) => "49 for a listed rule without a type",
            (true, Some(_)) => "49 for another type",
            (false, _) => "49 for a type that is not listed",
        });
    }
    let mut called = rules.iter().flat_map(|rule| &rule.called);
    Some(match called.find(|called| called.rule().start == start)? {
        Called::Call(_) => "49 for a call",
        Called::Selector(_) => "49 for a choice",
        Called::Operand(..) => "49 for an operand",
    })
}

/// An accepted program's text.
fn good_text(seed: &mut Seed) -> Vec<u8> {
    match seed.below(12) {
        0 => {
            let bytes = seed.within(1_024, 6_000);
            programs::typical(seed, bytes).text
        }
        1 | 2 => choosers::text(&choosers::program(seed)).into_bytes(),
        3 => {
            let figure = u128::from(GREATEST) - 2 + seed.below(5) as u128;
            chains::chain(seed, figure)
        }
        4..=7 => {
            let size = 3 + seed.below(50);
            precedence::good(seed, size).join(&b' ')
        }
        _ => {
            let size = 6 + seed.below(80);
            texts::good(seed, size).join(&b' ')
        }
    }
}

fn good_split(seed: &mut Seed, most: usize) -> Split {
    let text = good_text(seed);
    SplitWords::of(seed, &text, most).joined(seed)
}

/// Good programs, split at random; then the parts in another order, one left out, one once more.
fn good(h: &mut Harness, rng: &mut Rng) {
    let mut seed = Seed::new(rng.draw());
    let split = good_split(&mut seed, MAX_PARTS);
    let objects = h.objects(rng, &split);
    h.tally.expect(objects.is_some(), || format!("  good parts are refused\n{}", shown(&split.common, &split.texts())));
    let Some(objects) = objects else { return };
    let done = h.link(rng, &split, &objects);
    h.tally.expect(done.number == 0, || format!("  good parts are not linked: {done:?}"));
    h.tally.met(format!("{} parts", split.parts.len()));
    let mut order: Vec<usize> = (0..split.parts.len()).collect();
    let (from, to) = (rng.below(order.len()), rng.below(order.len()));
    order.swap(from, to);
    match rng.below(3) {
        0 => {}
        1 => _ = order.remove(from),
        _ => order.push(to),
    }
    some(h, rng, &split, &objects, &order);
}

/// Links some of the parts, in that order.
fn some(h: &mut Harness, rng: &mut Rng, split: &Split, objects: &[Vec<u8>], order: &[usize]) -> Linked {
    let parts = order.iter().map(|i| split.parts[*i].clone()).collect();
    let objects: Vec<Vec<u8>> = order.iter().map(|i| objects[*i].clone()).collect();
    h.link(rng, &Split { common: split.common.clone(), parts }, &objects)
}

/// Parts with rules that are missing, in two parts, or not what the list says, in any number up to 17.
fn drawn(h: &mut Harness, rng: &mut Rng) {
    let mut seed = Seed::new(rng.draw());
    let odd = seed.within(2, 8);
    let split = split::drawn(&mut seed, odd);
    let Some(objects) = h.objects(rng, &split) else { return };
    let done = h.link(rng, &split, &objects);
    h.tally.met(format!("{} parts", split.parts.len()));
    // What is lent changes nothing of a refusal but 20.
    let (small, _) = h.link_in(rng, &split, &objects, 2);
    let same = if done.number == 0 { small.number == SHORT || done.words <= 1 } else { small == done };
    h.tally.expect(same, || format!("  {small:?} in two bytes, {done:?} in many"));
}

/// No part, and each number of parts around the greatest.
fn counts(h: &mut Harness, rng: &mut Rng) {
    let common = b"rules end".to_vec();
    for count in [0, 1, MAX_PARTS - 1, MAX_PARTS, MAX_PARTS + 1, MAX_PARTS + 2, 40] {
        let parts = (0..count).map(|i| format!("rules N{i}: @N{}; end", (i + 1) % count).into_bytes()).collect();
        let split = Split { common: common.clone(), parts };
        let Some(objects) = h.objects(rng, &split) else { return };
        let done = h.link(rng, &split, &objects);
        let right = (1..=MAX_PARTS).contains(&count);
        h.tally.expect((done.number == 0) == right, || format!("  {done:?} for {count} parts"));
    }
}

/// The worked examples of the readings, each text behind something that is no word.
fn worked_examples(h: &mut Harness, rng: &mut Rng) {
    let before = rng.pick::<&[u8]>(&[b"", b"\n", b" \t", b"% rules end\n", b"%'\r\n   "]);
    let whole: Vec<(u16, String)> = RULES.iter().map(|(number, rules)| (*number, format!("rules {rules} end"))).collect();
    let with_rules = whole.iter().map(|(number, text)| (*number, COMMON, &text[..]));
    for (number, common, text) in PARTS.iter().copied().chain(with_rules) {
        let (texts, fault) = example(number, &[common, text], before);
        h.part(rng, &texts[0], &texts[1]);
        let found = parts::part(&texts[0], &texts[1]).err();
        h.tally.expect(found == fault, || format!("  {found:?}, not {fault:?}\n{}", shown(&texts[0], &[&texts[1]])));
    }
    for (number, texts) in LINKS {
        let (mut parts, fault) = example(*number, texts, before);
        let split = Split { common: parts.remove(0), parts };
        // A common part at fault has no objects.
        let objects = h.objects(rng, &split).unwrap_or_default();
        let done = h.link(rng, &split, &objects);
        let wanted = fault.map_or(Linked { number: 0, text: 0, start: 0, len: 0, ..done }, Linked::refused);
        h.tally.expect(done == wanted, || format!("  {done:?}, not {wanted:?}\n{}", shown(&split.common, &split.texts())));
    }
}

/// A program with a fault planted, or one damaged, split into parts.
fn faulty_words(seed: &mut Seed) -> SplitWords {
    let text = match seed.below(6) {
        0 | 1 => {
            let sort = seed.below(faults::SORTS);
            faults::plant(seed, sort).text
        }
        2 => {
            let sort = seed.below(operators::SORTS);
            operators::plant(seed, sort).text
        }
        3 => {
            let sorts = entries::Sort::all();
            let sort = *seed.of(&sorts);
            entries::plant(seed, &sort).text
        }
        _ => good_text(seed),
    };
    let mut words = SplitWords::of(seed, &text, 3);
    if seed.one_in(2) {
        let at = seed.below(words.parts.len() + 2);
        let changed = words.parts.get_mut(at).unwrap_or(&mut words.common);
        if seed.one_in(2) { texts::mutate(seed, changed) } else { precedence::mutate(seed, changed) }
    }
    words
}

/// Texts with faults of all sorts, in the common part and in parts.
fn faulty(h: &mut Harness, rng: &mut Rng) {
    let mut seed = Seed::new(rng.draw());
    let mut split = faulty_words(&mut seed).joined(&mut seed);
    if seed.one_in(8) {
        let at = seed.below(split.parts.len() + 1);
        texts::damage(&mut seed, split.parts.get_mut(at).unwrap_or(&mut split.common));
    }
    if let Some(objects) = h.objects(rng, &split) {
        h.link(rng, &split, &objects);
    }
    // The common part with whatever objects: its own faults come before theirs.
    let done = common_at_fault(h, rng, &split.common);
    h.tally.met(format!("common part {}", done.number));
}

/// Links something that is no object: the common part's own fault, or 40.
fn common_at_fault(h: &mut Harness, rng: &mut Rng, common: &[u8]) -> Linked {
    let fault = read_common(common).err().unwrap_or(Fault { number: FORM, text: 1, start: 0, len: 0 });
    let done = any_objects(h, rng, common, &[0]);
    h.tally.expect(done == Linked::refused(fault), || format!("  {done:?}, not {fault:?}\n{}", shown(common, &[])));
    done
}

/// Small texts with all that a list, calls and operators may have.
const SMALL: [(&str, &str); 3] = [
    (
        "input:p q;output:x;type t:y n;mechanism m:f;operators E:p 1 left x;rules R>>t;S>>t;end",
        "rules M:@N[@R|y:|n:^E@M]{>};R>>t:>>y;end",
    ),
    ("type t:v;type u:w;rules A>>t;end", "rules A>>u:[@A|v:>>w|*:>>w];B:@A1@B;end"),
    ("rules end", "rules M:@end1;N>>t:;M:;end"),
];

/// Each byte of a small common part or part in turn left out, put in twice, replaced, and the text ended before it.
fn each_byte(h: &mut Harness, rng: &mut Rng) {
    let (common, text) = rng.pick(&SMALL);
    let (common, text) = (common.as_bytes(), text.as_bytes());
    for at in 0..common.len() + text.len() {
        let byte = rng.pick(b"'%_$\n\0^+>>:;;|aRMt019\xff=(),.#@?[]{}");
        let bit = rng.below(8);
        // One of the six ways.
        let way = rng.below(6);
        if at < common.len() {
            h.part(rng, &texts::damaged_at(common, at, byte, bit)[way], text);
        } else {
            h.part(rng, common, &texts::damaged_at(text, at - common.len(), byte, bit)[way]);
        }
    }
}

/// Parts that together have rules and names below, at and past their limits.
fn crowds(h: &mut Harness, rng: &mut Rng) {
    let Crowd { split, rules, names } = split::crowded(&mut Seed::new(rng.draw()));
    let Some(objects) = h.objects(rng, &split) else { return };
    let done = h.link(rng, &split, &objects);
    let number = if rules > MOST_RULES || names > MOST_NAMES { LIMIT } else { 0 };
    h.tally.expect(done.number == number, || format!("  {done:?} for {rules} rules and {names} names"));
    for (name, amount, most) in [("rules", rules, MOST_RULES), ("names", names, MOST_NAMES)] {
        let side = (amount as i64 - most as i64).clamp(-1, 1);
        h.tally.met(format!("{name} of the whole {side}"));
    }
}

/// Programs below, at and past the other limits, and with rules made for operators.
fn around_limits(h: &mut Harness, rng: &mut Rng) {
    let mut seed = Seed::new(rng.draw());
    let split = if seed.one_in(2) {
        let text = precedence::crowd(&mut seed).text;
        SplitWords::of(&mut seed, &text, 8).joined(&mut seed)
    } else {
        // All but the bytes of a text; as often as all others the words of a table.
        let limit = if seed.one_in(2) { TABLE_WORDS } else { seed.below(limits::LIMITS.len() - 1) };
        let samples = limits::samples(&mut seed, limit);
        let text = &seed.of(&samples).text;
        SplitWords::of(&mut seed, text, 6).joined(&mut seed)
    };
    if let Some(objects) = h.objects(rng, &split) {
        let done = h.link(rng, &split, &objects);
        h.tally.met(format!("limits: link {}", done.number));
    }
}

/// A text filled up to so many bytes, or as it is where it is longer.
fn filled(rng: &mut Rng, mut text: Vec<u8>, bytes: usize) -> Vec<u8> {
    let filler = rng.pick::<&[u8]>(&[b"   ", b"%x\n", b"\r\n\t"]);
    let more = bytes.saturating_sub(text.len() + 1);
    text.push(b'\n');
    text.extend(filler.iter().cycle().take(more));
    text
}

/// Texts below, at and past the greatest length, and wholes past it.
fn long_texts(h: &mut Harness, rng: &mut Rng) {
    let mut seed = Seed::new(rng.draw());
    let mut split = good_split(&mut seed, 4);
    for bytes in [MAX_TEXT - 1, MAX_TEXT, MAX_TEXT + 1] {
        let (common, text) = (split.common.clone(), split.parts[0].clone());
        let [long_common, long_text] = [&common, &text].map(|bytes_of| filled(rng, bytes_of.clone(), bytes));
        h.part(rng, &long_common, &text);
        h.part(rng, &common, &long_text);
        h.part(rng, &long_common, &long_text);
        h.tally.met(format!("bytes {bytes}"));
    }
    // In the middle of the rules, so that the one text is as long.
    for part in &mut split.parts {
        let at = 5 + part.iter().position(|byte| *byte == b'r').unwrap_or(0);
        let gap = filled(rng, Vec::new(), 20_000);
        part.splice(at..at, gap.into_iter().chain([b'\n']));
    }
    if let Some(objects) = h.objects(rng, &split) {
        h.link(rng, &split, &objects);
    }
}

/// Every lent size around the right one, for an object and for a table.
fn lent_sizes(h: &mut Harness, rng: &mut Rng) {
    let mut seed = Seed::new(rng.draw());
    let split = good_split(&mut seed, 3);
    let Some(objects) = h.objects(rng, &split) else { return };
    let right = objects[0].len();
    for size in (0..9).map(|i| right + i - 4).chain([0, 1, 14, right / 2]) {
        let (done, object) = h.part_in(rng, &split.common, &split.parts[0], size);
        let same = if size / 2 * 2 < right { done.number == SHORT } else { object.as_ref() == Some(&objects[0]) };
        h.tally.expect(same, || format!("  {done:?} for {right} bytes in {size}"));
    }
    let (done, _) = h.link_in(rng, &split, &objects, LARGEST);
    let right = 2 * done.words as usize;
    for size in (0..9).map(|i| (right + i).saturating_sub(4)).chain([0, 1, right / 2, LARGEST + 7]) {
        let (done, _) = h.link_in(rng, &split, &objects, size);
        let number = if size / 2 * 2 < right { SHORT } else { 0 };
        h.tally.expect(done.number == number, || format!("  {done:?} for {right} bytes in {size}"));
    }
}

/// Links any bytes: 40, a number of linking, or a table that is taken; with a refusal nothing but zeros is left.
fn any_objects(h: &mut Harness, rng: &mut Rng, common: &[u8], objects: &[u8]) -> Linked {
    let read = [common, objects].map(|bytes| Lent::new(rng, bytes, h.exact));
    let mut lent = Lent::random(rng, LARGEST, h.exact);
    let done = h.other.link(read[0].bytes(), read[1].bytes(), lent.bytes_mut());
    let table = written(&lent, done.words);
    let refusal = Linked { words: 0, finishing: 0, figure: 0, figure_number: 0, ..done };
    let sane = match done.number {
        0 => (done.text, done.start, done.len) == (0, 0, 0) && done.words > 0,
        FORM => done == Linked { number: FORM, text: done.text, ..Linked::default() },
        _ => done == refusal,
    };
    let sane = sane && table.is_some() && read.iter().all(Lent::kept);
    h.tally.expect(sane, || format!("  {done:?} for {} bytes of objects\n{}", objects.len(), shown(common, &[])));
    if let Some(table) = table.filter(|_| done.number == 0) {
        taken(h, &table, done.finishing);
    }
    done
}

/// A table and its verdict are written as a file, and the file is loaded.
fn taken(h: &mut Harness, table: &[u8], finishing: u64) {
    let mut file = vec![0; FILE];
    let file_words = h.files.write(table, finishing, &mut file);
    file.truncate(2 * file_words.words as usize);
    let loaded = h.files.load(&file, &mut [0; LARGEST]);
    let right = (file_words.number, loaded.number) == (0, 0) && loaded.verdict == finishing;
    h.tally.expect(right, || format!("  {file_words:?}, {loaded:?} for the linked table {:?}", words(table)));
}

/// Objects, the first byte of each, and the common part that they were made of.
fn small_objects(h: &mut Harness, rng: &mut Rng) -> Option<(Split, Vec<Vec<u8>>)> {
    let mut seed = Seed::new(rng.draw());
    let split = split::drawn(&mut seed, 1_000);
    let split = Split { common: split.common, parts: split.parts.into_iter().take(3).collect() };
    let objects = h.objects(rng, &split)?;
    Some((split, objects))
}

/// Each word of objects changed once, in every fourth seed.
fn each_word(h: &mut Harness, rng: &mut Rng) {
    if !h.tally.seeds_before().is_multiple_of(4) {
        return;
    }
    let Some((split, objects)) = small_objects(h, rng) else { return };
    for (number, object) in (1..).zip(&objects) {
        for at in (0..object.len()).step_by(2) {
            let word = u16::from_be_bytes([object[at], object[at + 1]]);
            let mut changed = objects.clone();
            changed[number - 1][at..at + 2].copy_from_slice(&another(rng, word).to_be_bytes());
            let done = any_objects(h, rng, &split.common, &changed.concat());
            let right = match done.number {
                FORM => done.text == number as u64,
                other => OF_LINKING.contains(&other),
            };
            h.tally.expect(right, || format!("  {done:?} where word {} of object {number} was changed", at / 2));
            h.tally.met(format!("a word changed: {}", done.number));
        }
    }
}

/// The numbers that linking sound objects may answer.
const OF_LINKING: [u16; 6] = [0, TYPED, LIMIT, SHORT, UNLIKE, TWICE];

/// Another word: with a bit changed, the next ones, and those that are often counts and first cells.
fn another(rng: &mut Rng, word: u16) -> u16 {
    let bit = word ^ 1 << rng.below(16);
    let other = rng.pick(&[bit, bit, word.wrapping_add(1), word.wrapping_sub(1), 0, 1, 8, u16::MAX]);
    if other == word { bit } else { other }
}

/// Objects cut, with bytes more, and of another common part: 40, with the number of the first that is none.
fn no_objects(h: &mut Harness, rng: &mut Rng) {
    let Some((split, objects)) = small_objects(h, rng) else { return };
    let all = objects.concat();
    let mut wants = |h: &mut Harness, what: &str, common: &[u8], objects: &[u8], number: usize| {
        let done = any_objects(h, rng, common, objects);
        let wanted = Linked { number: FORM, text: number as u64, ..Linked::default() };
        h.tally.expect(done == wanted, || format!("  {done:?}, not {wanted:?}: {what}\n{}", shown(common, &[])));
        h.tally.met(format!("40: {what}"));
    };
    let count = objects.len();
    wants(h, "an odd byte more", &split.common, &[&all[..], &[0]].concat(), count + 1);
    wants(h, "a word more", &split.common, &[&all[..], &[0, 0]].concat(), count + 1);
    wants(h, "a byte less", &split.common, &all[..all.len() - 1], count);
    wants(h, "a word less", &split.common, &all[..all.len() - 2], count);
    let longer = [&split.common[..], b" "].concat();
    wants(h, "another common part", &longer, &all, 1);
    let last = object_of(h, &longer, &split.parts[count - 1]);
    let mixed = [&objects[..count - 1].concat()[..], &last].concat();
    wants(h, "one object of another common part", &split.common, &mixed, count);
    // 40 comes before 9: as many objects as are too many, the last of them cut.
    let many = objects[0].repeat(MAX_PARTS + 1);
    wants(h, "before 9", &split.common, &many[..many.len() - 2], MAX_PARTS + 1);
}

/// The object of a part, without comparing it.
fn object_of(h: &Harness, common: &[u8], text: &[u8]) -> Vec<u8> {
    let mut object = vec![0; roomy(common, text)];
    let done = h.other.part(common, text, &mut object);
    object.truncate(2 * done.words as usize);
    object
}

impl Compares for Harness {
    type Source = Rng;

    const GROUPS: &'static [Group<Harness>] = &[
        ("good programs in parts", good, 8),
        ("parts drawn rule by rule", drawn, 12),
        ("numbers of parts", counts, 1),
        ("worked examples", worked_examples, 1),
        ("texts with faults", faulty, 30),
        ("each byte damaged", each_byte, 1),
        ("limits of the whole", crowds, 2),
        ("other limits", around_limits, 4),
        ("long texts", long_texts, 1),
        ("lent sizes", lent_sizes, 2),
        ("each word of objects changed", each_word, 1),
        ("no objects", no_objects, 2),
    ];

    fn tally(&mut self) -> &mut Tally {
        &mut self.tally
    }

    fn report(&mut self, least: u64) {
        self.tally.demand_numbers(least, "part", &[0]);
        self.tally.demand(least, [1, 2, 3, 4, 5, 9, 45].map(|number| format!("part {number} text 0")));
        self.tally.demand(least, [1, 2, 3, 4, 5, 6, 7, 8, 9, 20].map(|number| format!("part {number} text 1")));
        self.tally.demand_numbers(least, "link", &[0, 5, 9, 20, 49, 50]);
        self.tally.demand_numbers(least, "common part", &[1, 2, 3, 4, 5, 9, 40, 45]);
        self.tally.demand(least, ["49 for a call", "49 for a choice", "49 for an operand"]);
        self.tally
            .demand(least, ["49 for a listed rule without a type", "49 for another type", "49 for a type that is not listed"]);
        self.tally.demand(least, ["9 for no part", "9 for over 16", "9 for rules", "9 for names", "9 at a ^"]);
        let sides = ["rules", "names"].iter().flat_map(|name| [-1, 0, 1].map(|side| format!("{name} of the whole {side}")));
        self.tally.demand(least, sides);
        self.tally.demand(least, [1, 2, 3, 4, 15, 16, 17].map(|parts| format!("{parts} parts")));
        self.tally.demand(least, ["finishing 0", "finishing 1", "figure number 0"]);
        self.tally.demand(least, [format!("figure number {TOO_LONG}")]);
        self.tally.demand(least, ["whole as one text", "whole too long for one text"]);
        self.tally.demand_numbers(least, "limits: link", &[0, 9, 20]);
        self.tally.demand(least, [MAX_TEXT - 1, MAX_TEXT, MAX_TEXT + 1].map(|bytes| format!("bytes {bytes}")));
        self.tally.demand(least, ["a word changed: 40"]);
        let cuts = ["an odd byte more", "a word more", "a byte less", "a word less", "another common part"];
        self.tally.demand(least, cuts.map(|what| format!("40: {what}")));
        self.tally.demand(least, ["40: one object of another common part", "40: before 9"]);
    }
}

fn main() -> ExitCode {
    harness::main("compare_parts", SEEDS, |exact| {
        let h = Harness {
            other: ffi::parts().unwrap_or(&Reference),
            measurer: ffi::measurer().unwrap_or(&Reference),
            files: ffi::files().unwrap_or(&Reference),
            exact,
            tally: Tally::default(),
        };
        println!("rust against {}, one texts of {}", h.other.name(), h.measurer.name());
        h
    })
}
