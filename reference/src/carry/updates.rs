//! Updates: a program and one that takes its place, from a seed.

use crate::limits::{self, LIMITS};
use crate::processor::marks::marks;
use crate::processor::parts::spellings;
use crate::processor::{MAX_TEXT, resolve};
use crate::sums::Section;
use crate::texts::{Seed, Words, join};
use crate::{choosers, precedence, programs, texts};

/// A program's words: its sections, and its rules, each from its name to its semicolon.
#[derive(Clone, PartialEq, Eq, Debug)]
pub struct Parted {
    pub sections: Words,
    pub rules: Vec<Words>,
}

impl Parted {
    /// Of an accepted text.
    pub fn of(text: &[u8]) -> Parted {
        let mut sections = spellings(text);
        let at = sections.iter().position(|word| word == b"rules").unwrap_or(sections.len());
        let behind = sections.split_off(at);
        let rules = behind.get(1..behind.len() - 1).unwrap_or(&[]).split_inclusive(|word| word == b";");
        Parted { sections, rules: rules.map(<[_]>::to_vec).collect() }
    }

    pub fn words(&self) -> Words {
        let rules = self.rules.concat();
        [&self.sections[..], &[b"rules".to_vec()], &rules, &[b"end".to_vec()]].concat()
    }

    /// The type of a rule, if it has one.
    fn of_type(&self, rule: usize) -> Option<&[u8]> {
        let words = &self.rules[rule];
        (words[1] == b">>").then(|| &words[2][..])
    }

    /// Puts another name where a rule is called.
    fn call_instead(&mut self, name: &[u8], other: &[u8]) {
        for rule in &mut self.rules {
            for at in 1..rule.len() {
                if rule[at - 1] == b"@" && rule[at] == name {
                    rule[at] = other.to_vec();
                }
            }
        }
    }

    /// Another rule of the same type, if there is one.
    fn alike(&self, seed: &mut Seed, rule: usize) -> Option<usize> {
        let others = (0..self.rules.len()).filter(|other| *other != rule && self.of_type(*other) == self.of_type(rule));
        let others: Vec<usize> = others.collect();
        (!others.is_empty()).then(|| *seed.of(&others))
    }

    /// The first rule must be a procedure rule.
    fn put_procedure_first(&mut self, seed: &mut Seed) {
        let procedures: Vec<usize> = (0..self.rules.len()).filter(|rule| self.of_type(*rule).is_none()).collect();
        let first = *seed.of(&procedures);
        let rule = self.rules.remove(first);
        self.rules.insert(0, rule);
    }

    /// A place for a rule; the first is left where it is.
    fn place(&self, seed: &mut Seed) -> usize {
        seed.within(1, self.rules.len())
    }

    /// The places of the numbers in the sections: values, and levels of operators.
    fn numbers(&self) -> Vec<usize> {
        let digit = |at: &usize| self.sections[*at][0].is_ascii_digit();
        (0..self.sections.len()).filter(digit).collect()
    }

    /// The words that name a section of operators.
    fn operators(&self) -> Vec<Vec<u8>> {
        let heads = (0..self.sections.len()).filter(|at| *at == 0 || self.sections[at - 1] == b";");
        heads.filter(|at| self.sections[*at] == b"operators").map(|at| self.sections[at + 1].clone()).collect()
    }
}

/// One way to change a program; false where it cannot be changed so.
pub type Edit = fn(&mut Seed, &mut Parted) -> bool;

/// The ways that leave the sections as they are.
pub const RULE_EDITS: [(&str, Edit); 11] = [
    ("identical", |_, _| true),
    ("respelled", respell),
    ("reordered", reorder),
    ("inserted", insert),
    ("removed", remove),
    ("changed", change),
    ("words exchanged", exchange_words),
    ("renamed", rename),
    ("exchanged", exchange),
    ("called instead", call_another),
    ("another pair first", another_pair),
];

/// The ways that change the sections.
pub const SECTION_EDITS: [(&str, Edit); 6] = [
    ("a zero more", zero),
    ("another level", level),
    ("a value written", value),
    ("a mechanism renamed", mechanism),
    ("a section more", section),
    ("sections exchanged", swap_sections),
];

const SPELLINGS: [(&[u8], &[u8]); 5] = [(b"{", b"do"), (b"}", b"od"), (b"[", b"if"), (b"]", b"fi"), (b"|", b"!")];

/// Other spellings here and there.
fn respell(seed: &mut Seed, parted: &mut Parted) -> bool {
    for word in parted.rules.iter_mut().flatten() {
        for (one, other) in SPELLINGS {
            if (word == one || word == other) && seed.one_in(2) {
                *word = if word == one { other.to_vec() } else { one.to_vec() };
                break;
            }
        }
    }
    true
}

fn reorder(seed: &mut Seed, parted: &mut Parted) -> bool {
    for i in (1..parted.rules.len()).rev() {
        parted.rules.swap(i, seed.below(i + 1));
    }
    parted.put_procedure_first(seed);
    parted.rules.len() > 1
}

/// New rules, some of them with the actions of another, and now and then one before all.
fn insert(seed: &mut Seed, parted: &mut Parted) -> bool {
    for i in 0..seed.within(1, 3) {
        let mut rule = match seed.below(3) {
            0 => split("New : ;"),
            1 => split("New : ? @ New ;"),
            _ => seed.of(&parted.rules).clone(),
        };
        rule[0] = format!("New{i}").into_bytes();
        if rule[3..].starts_with(&[b"@".to_vec(), b"New".to_vec()]) {
            rule[4] = rule[0].clone();
        }
        let before = rule[1] == b":" && seed.one_in(3);
        let at = if before { 0 } else { parted.place(seed) };
        parted.rules.insert(at, rule);
    }
    true
}

fn split(part: &str) -> Words {
    part.split_whitespace().map(|word| word.as_bytes().to_vec()).collect()
}

/// A rule goes, and what called it calls another one.
fn remove(seed: &mut Seed, parted: &mut Parted) -> bool {
    let gone = seed.below(parted.rules.len());
    let Some(other) = parted.alike(seed, gone) else { return false };
    let (name, other) = (parted.rules[gone][0].clone(), parted.rules[other][0].clone());
    parted.rules.remove(gone);
    parted.call_instead(&name, &other);
    parted.put_procedure_first(seed);
    true
}

/// A word of a rule's actions changed, left out or put in, so that the text is accepted still.
fn change(seed: &mut Seed, parted: &mut Parted) -> bool {
    let words: Words = parted.rules.concat();
    try_edits(seed, parted, |seed, rule, at| match seed.below(4) {
        0 => rule.insert(at, b"?".to_vec()),
        1 => _ = rule.remove(at),
        2 => rule.insert(at, seed.of(&words).clone()),
        _ => rule[at] = seed.of(&words).clone(),
    })
}

/// A word of a rule's actions exchanged with the next, so that the text is accepted still: `{ a b }` becomes `a { b }`, which differs in a
/// distance alone.
fn exchange_words(seed: &mut Seed, parted: &mut Parted) -> bool {
    let brackets: Vec<&[u8]> = SPELLINGS[..2].iter().flat_map(|(one, other)| [*one, *other]).collect();
    try_edits(seed, parted, |seed, rule, at| {
        let all = 2..rule.len() - 1;
        let some: Vec<usize> = all.filter(|at| (at - 1..at + 2).any(|near| brackets.contains(&&rule[near][..]))).collect();
        let at = if some.is_empty() || seed.one_in(4) { at } else { *seed.of(&some) };
        rule.swap(at - 1, at);
    })
}

/// Edits a rule at a word until the text is another and is accepted; false where that does not happen soon.
fn try_edits(seed: &mut Seed, parted: &mut Parted, mut edit: impl FnMut(&mut Seed, &mut Words, usize)) -> bool {
    for _ in 0..20 {
        let mut other = parted.clone();
        let at = seed.below(other.rules.len());
        let rule = &mut other.rules[at];
        let at = seed.within(2, rule.len() - 1);
        edit(seed, rule, at);
        if other != *parted && resolve(&other.words().join(&b' ')).is_ok() {
            *parted = other;
            return true;
        }
    }
    false
}

/// A rule has another name, everywhere.
fn rename(seed: &mut Seed, parted: &mut Parted) -> bool {
    let rule = seed.below(parted.rules.len());
    let name = std::mem::replace(&mut parted.rules[rule][0], b"Another".to_vec());
    parted.call_instead(&name, b"Another");
    true
}

/// Two rules of one type have each other's names: another rule stands where the called one stood.
fn exchange(seed: &mut Seed, parted: &mut Parted) -> bool {
    let rule = seed.below(parted.rules.len());
    let Some(other) = parted.alike(seed, rule) else { return false };
    if seed.one_in(2) {
        // Each with its actions.
        parted.rules.swap(rule, other);
    } else {
        let name = parted.rules[rule][0].clone();
        parted.rules[rule][0] = parted.rules[other][0].clone();
        parted.rules[other][0] = name;
    }
    true
}

/// Calls of one rule become calls of another.
fn call_another(seed: &mut Seed, parted: &mut Parted) -> bool {
    let rule = seed.below(parted.rules.len());
    let Some(other) = parted.alike(seed, rule) else { return false };
    let (name, other) = (parted.rules[rule][0].clone(), parted.rules[other][0].clone());
    parted.call_instead(&name, &other);
    true
}

/// A rule before all others that uses operators: their rules are made in another order.
fn another_pair(seed: &mut Seed, parted: &mut Parted) -> bool {
    let sections = parted.operators();
    if sections.is_empty() {
        return false;
    }
    let procedures: Vec<usize> = (0..parted.rules.len()).filter(|rule| parted.of_type(*rule).is_none()).collect();
    let mut rule = split("New : ^ E @ P ;");
    rule[3] = seed.of(&sections).clone();
    rule[5] = parted.rules[*seed.of(&procedures)][0].clone();
    parted.rules.insert(0, rule);
    true
}

/// `07` for `7`.
fn zero(seed: &mut Seed, parted: &mut Parted) -> bool {
    let numbers = parted.numbers();
    if !numbers.is_empty() {
        parted.sections[*seed.of(&numbers)].insert(0, b'0');
    }
    !numbers.is_empty()
}

/// An operator at another level.
fn level(seed: &mut Seed, parted: &mut Parted) -> bool {
    let side = |at: &usize| [&b"left"[..], b"right"].contains(&&parted.sections[at + 1][..]);
    let levels: Vec<usize> = parted.numbers().into_iter().filter(side).collect();
    if levels.is_empty() {
        return false;
    }
    let (at, other) = (*seed.of(&levels), seed.within(1, precedence::HIGHEST).to_string().into_bytes());
    let same = parted.sections[at] == other;
    parted.sections[at] = other;
    !same
}

/// `a = 0` for the first `a` of all.
fn value(_: &mut Seed, parted: &mut Parted) -> bool {
    let Some(head) = parted.sections.iter().position(|word| word == b":") else { return false };
    let tokens = [&b"input"[..], b"output", b"error"].contains(&&parted.sections[head - 1][..]);
    let behind = head + 2 + usize::from(parted.sections[head + 2][0] == b'\'');
    if !tokens || parted.sections[behind] == b"=" {
        return false;
    }
    parted.sections.splice(behind..behind, [b"=".to_vec(), b"0".to_vec()]);
    true
}

fn mechanism(_: &mut Seed, parted: &mut Parted) -> bool {
    let at = parted.sections.iter().position(|word| word == b"mechanism");
    if let Some(at) = at {
        parted.sections[at + 1].push(b'x');
    }
    at.is_some()
}

/// A section more, before the others or behind them.
fn section(seed: &mut Seed, parted: &mut Parted) -> bool {
    let at = if seed.one_in(2) { 0 } else { parted.sections.len() };
    let section = split(*seed.of(&["type NewType : v ;", "error : newError ;", "mechanism m : newOperation ;"]));
    parted.sections.splice(at..at, section);
    true
}

fn swap_sections(seed: &mut Seed, parted: &mut Parted) -> bool {
    let mut sections: Vec<Words> = parted.sections.split_inclusive(|word| word == b";").map(<[_]>::to_vec).collect();
    let (one, other) = (seed.below(sections.len().max(1)), seed.below(sections.len().max(1)));
    if one == other || sections[one] == sections[other] {
        return false;
    }
    sections.swap(one, other);
    parted.sections = sections.concat();
    true
}

/// Programs whose walks come to many places: deep calls, operators in brackets, every kind of choice and operation, and 8 as the number of
/// everything, so that many words look like a call.
const RICH: [&str; 6] = [
    "input: a b; output: o p; rules M: { [ | a: @N | *: > ] } .p; N: [ | a: @N .o | b: .p | *: ] .o; K: ; L: ? @M; end",
    "input: n plus times up open close; output: add mul pow num = 7; operators E: plus 1 left add times 2 left mul up 3 right pow; \
     operators F: plus 09 right add; rules M: ^E @P .num [ | close: ^F @P | *: ]; P: [ | n: .num | open: ^E @P close ]; \
     Q: ^F @P; R: ^E @Q; end",
    programs::CHOICES,
    "input: a b c = 7; output: o; error: e; type t: v w; mechanism m: u u1(t) c1>>t d(t)>>t; \
     rules M: { a [ | b: u1(w) | c: @N ] [@C | v: | w: > ] } @K; N: [d(v) | v: @N | w: [c1 | v: b ] ]; \
     K: { [ | a: b .o | *: #e > ] }; C>>t: [ | a: { u [c1 | v: >> v | *: >> w ] } | b: >> w | c: u1(v) >> v ]; end",
    "input: a b; output: o; type t: y n; rules M: { [@R | y: .o | n: > ] } a; R>>t: [ | a: [@S | y: >> y | n: >> n ] | *: >> n ]; \
     S>>t: [ | b: [@R | y: >> n | n: >> y ] | a: >> y | *: >> n ]; N: @M @N2; N2: { [ | a: > ] }; end",
    "input: a = 8 b c; output: o = 8 p = 1; error: e = 8 f = 1; type t: v = 8 w = 1; mechanism m: u(t) d(t)>>t; rules M: { [ | a: .o .p | b: \
     @N > | *: #e #f > ] a b } @K; N: u(v) [d(v) | v: .o @K | w: a .p ] u(v) u(w); K: [@C | v: a c | w: #e .o ]; C>>t: [ | a: >> v | b, \
     c: a >> w | *: >> v ]; end",
];

/// An accepted program's text.
pub fn old_text(seed: &mut Seed) -> Vec<u8> {
    match seed.below(18) {
        0 => {
            let bytes = seed.within(1_024, 3_000);
            programs::typical(seed, bytes).text
        }
        1 | 2 => choosers::text(&choosers::program(seed)).into_bytes(),
        3..=6 => {
            let size = 3 + seed.below(40);
            precedence::good(seed, size).join(&b' ')
        }
        7..=10 => {
            let size = 6 + seed.below(60);
            texts::good(seed, size).join(&b' ')
        }
        11 | 12 => Section::new(seed).text(seed).into_bytes(),
        _ => seed.of(&RICH).as_bytes().to_vec(),
    }
}

/// The place of the limit of a table's words among the limits.
const TABLE_WORDS: usize = 2;

/// An accepted program's text that is long, has a large table, or as many rules, names or labels as there may be.
pub fn large_text(seed: &mut Seed) -> Vec<u8> {
    loop {
        let text = match seed.below(5) {
            0 => {
                let bytes = seed.within(8_000, MAX_TEXT);
                programs::typical(seed, bytes).text
            }
            1 => choosers::text(&choosers::large(seed, true)).into_bytes(),
            2 => precedence::crowd(seed).text,
            sort => {
                let limit = if sort == 3 { TABLE_WORDS } else { seed.below(LIMITS.len()) };
                limits::samples(seed, limit).swap_remove(1).text
            }
        };
        if marks(&text).is_ok() {
            return text;
        }
    }
}

/// An accepted program, and what was done to it to make the new one, which may be refused.
#[derive(Clone, Debug)]
pub struct Update {
    pub old: Vec<u8>,
    pub new: Vec<u8>,
    pub edits: Vec<&'static str>,
}

impl Update {
    /// By one of these ways, or now and then by two; with other blanks and comments, but for programs that are to be identical.
    pub fn new(seed: &mut Seed, edits: &[(&'static str, Edit)]) -> Update {
        let old = old_text(seed);
        Update::of(seed, old, edits)
    }

    /// The same of that program.
    pub fn of(seed: &mut Seed, old: Vec<u8>, edits: &[(&'static str, Edit)]) -> Update {
        let mut parted = Parted::of(&old);
        let mut done = Vec::new();
        for _ in 0..if seed.one_in(6) { 2 } else { 1 } {
            let mut tries = 0;
            while tries < 8 {
                let (name, edit) = *seed.of(edits);
                if edit(seed, &mut parted) {
                    done.push(name);
                    break;
                }
                tries += 1;
            }
        }
        let new = if done == ["identical"] { old.clone() } else { join(seed, &parted.words()) };
        Update { old, new, edits: done }
    }
}

/// A text filled up with blanks or a comment to more bytes than a text may have.
pub fn over_long(seed: &mut Seed, text: &[u8]) -> Vec<u8> {
    let length = MAX_TEXT + seed.within(1, 3);
    let mut text = [text, if seed.one_in(2) { b"%" } else { b" " }].concat();
    let fill = text[text.len() - 1];
    text.resize(length.max(text.len()), fill);
    text
}

/// A text with one rule more, whose words are too many for a table.
pub fn over_large(text: &[u8]) -> Vec<u8> {
    let mut parted = Parted::of(text);
    parted.rules.push([split("Large :"), vec![b"?".to_vec(); 4_096], split(";")].concat());
    parted.words().join(&b' ')
}

#[cfg(test)]
mod tests {
    use super::*;
    use crate::carry::{Carried, Carrying, SECTIONS};
    use std::collections::BTreeMap;

    #[test]
    fn programs_are_accepted_and_most_updates_are() {
        let mut met: BTreeMap<&str, [u64; 3]> = BTreeMap::new();
        for n in 0..1_200 {
            let mut seed = Seed::new(n);
            let sections = n % 3 == 0;
            let update = Update::new(&mut seed, if sections { &SECTION_EDITS } else { &RULE_EDITS });
            assert!(resolve(&update.old).is_ok(), "{n}: {}", update.old.escape_ascii());
            let at = match Carrying::between(&update.old, &update.new) {
                Ok(_) => 0,
                Err(Carried { number: SECTIONS, .. }) => 1,
                Err(_) => 2,
            };
            if let [edit] = update.edits[..] {
                assert!(at == 2 || (at == 1) == sections, "{n}: {edit}");
                met.entry(edit).or_default()[at] += 1;
            }
        }
        for (edit, _) in RULE_EDITS {
            assert!(met[edit][0] > 10, "{edit}: {met:?}");
        }
        for (edit, _) in SECTION_EDITS {
            assert!(met[edit][1] > 10, "{edit}: {met:?}");
        }
    }
}
