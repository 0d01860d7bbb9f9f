//! A second processor: from a program's text to its table and its verdict, in separate passes over the whole text.
//!
//! 1. `words` cuts the text
//! 2. `Parser` makes a tree and finds the first of the numbers 1, 2 and 9
//! 3. `Names` finds all of the numbers 3 to 8 and 45 and takes the least by place, then rank
//! 4. `operators` writes the rules of operators under precedence out as text, which is read once more
//! 5. `assemble` writes the words and patches the distances afterwards
//! 6. `verdict::finishing` searches the program's quiet paths

pub mod marks;
mod operators;
pub mod parts;

pub use operators::uses;

use crate::quiet::{Figure, figure};
use crate::verdict::finishing;
use std::collections::{HashMap, HashSet};

pub const MAX_TEXT: usize = 32_768;
pub const MAX_TABLE: usize = 4_096;
pub const MAX_DEPTH: usize = 32;
pub const MAX_LABELS: usize = 64;
pub const MAX_RULES: usize = 128;
pub const MAX_NAMES: usize = 512;
pub const MAX_KIND: usize = 256;
pub const MAX_BYTES: usize = 32;
pub const MAX_VALUE: u128 = 65_535;
/// The levels of operators.
pub const LEVELS: std::ops::RangeInclusive<u16> = 1..=15;

/// What a text is answered with.
#[derive(Clone, PartialEq, Eq, Debug)]
pub enum Answer {
    Accepted { table: Vec<u16>, finishing: bool },
    Refused { number: u16, start: usize, len: usize },
}

/// The answer to a text where a buffer of so many words is lent.
pub fn process(text: &[u8], room_words: usize) -> Answer {
    process_with_starts(text, room_words).0
}

/// The same with the locations of the first words of an accepted program's rules.
pub fn process_with_starts(text: &[u8], room_words: usize) -> (Answer, Vec<usize>) {
    answer(resolve(text), text.len(), room_words)
}

/// The same for a text of any length.
pub fn process_long(text: &[u8], room_words: usize) -> (Answer, Vec<usize>) {
    answer(resolve_any(text), text.len(), room_words)
}

/// The answer to a text of so many bytes that was resolved.
fn answer(resolved: Result<Program, (u16, usize, usize)>, text_len: usize, room_words: usize) -> (Answer, Vec<usize>) {
    let refused = |(number, start, len)| (Answer::Refused { number, start, len }, Vec::new());
    match resolved {
        Err(fault) => refused(fault),
        Ok(program) => {
            let (words, starts) = assemble(&program);
            if words.len() > room_words || words.len() > MAX_TABLE {
                return refused((20, text_len, 0));
            }
            (Answer::Accepted { table: narrow(&words), finishing: finishing(&program) }, starts)
        }
    }
}

/// The words of a program whose table is not too long, and the locations of the rules' first ones.
pub fn table(program: &Program) -> (Vec<u16>, Vec<usize>) {
    let (words, starts) = assemble(program);
    (narrow(&words), starts)
}

fn narrow(words: &[usize]) -> Vec<u16> {
    words.iter().map(|word| u16::try_from(*word).expect("a distance in a small table")).collect()
}

/// Where a rule stands: its name in the text, and the location of its first word. The name of a rule made for operators is the first use of its section
/// and its operand rule.
#[derive(Clone, Copy, PartialEq, Eq, Debug)]
pub struct Place {
    pub start: usize,
    pub len: usize,
    pub location: usize,
}

/// The rules of a text in their order, and those made for its operators, or the number that it is refused with where the largest table is lent.
pub fn places(text: &[u8]) -> Result<Vec<Place>, u16> {
    if let Answer::Refused { number, .. } = process(text, MAX_TABLE) {
        return Err(number);
    }
    let program = resolve(text).map_err(|(number, ..)| number)?;
    let words = words(text);
    let mut parser = Parser::new(text, &words);
    parser.program().map_err(|Stop(number, _)| number)?;
    let own = parser.tree.bodies.iter().map(|body| (body.name, body.name));
    let made = operators::first_uses(text, &words, &parser.tree);
    let parts = own.chain(made.iter().map(|(used, _)| (used.sign, used.rule)));
    let place = |((first, last), location): ((At, At), usize)| {
        let (start, end) = (words[first].start, words[last].start + words[last].len);
        Place { start, len: end - start, location }
    };
    Ok(parts.zip(assemble(&program).1).map(place).collect())
}

/// The lent bytes after the call.
pub fn lent(answer: &Answer, bytes: &mut [u8]) {
    let table: &[u16] = match answer {
        Answer::Accepted { table, .. } => table,
        Answer::Refused { .. } => &[],
    };
    for (i, pair) in bytes.chunks_exact_mut(2).enumerate() {
        pair.copy_from_slice(&table.get(i).copied().unwrap_or(0).to_be_bytes());
    }
}

/// The line of a place in the text, from 1.
pub fn line(text: &[u8], start: usize) -> usize {
    1 + text[..start].iter().filter(|byte| **byte == b'\n').count()
}

/// What the lister prints.
pub fn listing(text: &[u8]) -> String {
    match process(text, MAX_TABLE) {
        Answer::Refused { number, start, .. } => format!("refused {number} line {}\n", line(text, start)),
        Answer::Accepted { table, finishing } => {
            let verdict = if finishing { "yes" } else { "no" };
            let mut out = format!("table {} finishing {verdict}\n", table.len());
            if let Ok(Figure::Most(most)) = resolve(text).map(|program| figure(&program)) {
                out.push_str(&format!("{most}\n"));
            }
            for (i, word) in table.iter().enumerate() {
                out.push_str(&format!("{} {word}\n", i + 1));
            }
            out
        }
    }
}

// ---------------------------------------------------------------- words

/// The sort of a word; of a sign or reserved word, its first spelling.
#[derive(Clone, Copy, PartialEq, Eq, Debug)]
pub enum Sort {
    Name,
    Number,
    Quoted,
    Sign(&'static str),
    Bad,
    /// Behind the last word.
    End,
}

#[derive(Clone, Copy, PartialEq, Eq, Debug)]
pub struct Word {
    pub sort: Sort,
    pub start: usize,
    pub len: usize,
}

const RESERVED: [(&str, &str); 11] = [
    ("do", "{"),
    ("od", "}"),
    ("if", "["),
    ("fi", "]"),
    ("input", "input"),
    ("output", "output"),
    ("error", "error"),
    ("type", "type"),
    ("mechanism", "mechanism"),
    ("rules", "rules"),
    ("end", "end"),
];

/// Longer ones first.
const SIGNS: [(&str, &str); 20] = [
    (">>", ">>"),
    (">", ">"),
    (":", ":"),
    (";", ";"),
    (",", ","),
    ("=", "="),
    ("(", "("),
    (")", ")"),
    ("[", "["),
    ("]", "]"),
    ("{", "{"),
    ("}", "}"),
    ("|", "|"),
    ("!", "|"),
    ("*", "*"),
    ("?", "?"),
    (".", "."),
    ("#", "#"),
    ("@", "@"),
    ("^", "^"),
];

pub fn words(text: &[u8]) -> Vec<Word> {
    let run = |from: usize, good: &dyn Fn(u8) -> bool| text[from..].iter().take_while(|byte| good(**byte)).count();
    let mut out = Vec::new();
    let mut at = 0;
    while let Some(&byte) = text.get(at) {
        let (sort, len) = match byte {
            b' ' | b'\t' | b'\r' | b'\n' => {
                at += 1;
                continue;
            }
            b'%' => {
                at += run(at, &|b| b != b'\n');
                continue;
            }
            b'A'..=b'Z' | b'a'..=b'z' => {
                let len = run(at, &|b| b.is_ascii_alphanumeric() || b == b'_');
                let spelling = &text[at..at + len];
                let reserved = RESERVED.iter().find(|(word, _)| word.as_bytes() == spelling);
                (reserved.map_or(Sort::Name, |(_, first)| Sort::Sign(first)), len)
            }
            b'0'..=b'9' => (Sort::Number, run(at, &|b| b.is_ascii_digit())),
            b'\'' => {
                let inside = run(at + 1, &|b| b != b'\'' && b != b'\n');
                let closed = text.get(at + 1 + inside) == Some(&b'\'');
                if closed && (1..=MAX_BYTES).contains(&inside) { (Sort::Quoted, inside + 2) } else { (Sort::Bad, 1) }
            }
            _ => {
                let sign = SIGNS.iter().find(|(sign, _)| text[at..].starts_with(sign.as_bytes()));
                sign.map_or((Sort::Bad, 1), |(sign, first)| (Sort::Sign(first), sign.len()))
            }
        };
        out.push(Word { sort, start: at, len });
        at += len;
    }
    out.push(Word { sort: Sort::End, start: text.len(), len: 0 });
    out
}

// ---------------------------------------------------------------- the tree; a `usize` is a word's index

pub type At = usize;

#[derive(Clone, Copy, PartialEq, Eq, Debug)]
pub enum Head {
    Tokens { input: bool, output: bool },
    Errors,
    Type(At),
    Mechanism,
}

#[derive(Debug)]
pub struct Section {
    pub head: Head,
    pub entries: Vec<Entry>,
}

/// An entry, perhaps broken off.
#[derive(Debug, Default)]
pub struct Entry {
    pub name: At,
    pub string: Option<At>,
    pub equals: bool,
    pub number: Option<At>,
    pub opened: bool,
    pub parameter: Option<At>,
    pub closed: bool,
    pub arrow: bool,
    pub result: Option<At>,
}

/// The four kinds of operations.
#[derive(Clone, Copy, PartialEq, Eq, Debug)]
pub struct Kind {
    pub chooses: bool,
    pub with: bool,
}

impl Entry {
    /// The operation's kind, if that is settled.
    pub fn kind(&self) -> Option<Kind> {
        (self.opened == self.closed).then_some(Kind { chooses: self.arrow, with: self.opened })
    }
}

/// A section of operators, from its first word to its last.
#[derive(Debug)]
pub struct Operators {
    pub name: At,
    pub entries: Vec<Operator>,
    pub from: At,
    pub to: At,
}

#[derive(Debug)]
pub struct Operator {
    pub input: At,
    pub level: u16,
    pub left: bool,
    pub output: At,
}

/// `^NAME @rule`.
#[derive(Clone, Copy, Debug)]
pub struct Use {
    pub sign: At,
    pub section: At,
    pub rule: At,
}

#[derive(Debug)]
pub struct Body {
    pub name: At,
    pub of: Option<At>,
    pub nodes: Vec<Node>,
    pub end: At,
}

#[derive(Debug)]
pub enum Node {
    Bare { word: At, given: Option<(At, At)> },
    Any,
    Emit(At),
    Signal(At),
    Cycle(Vec<Node>),
    Exit(At),
    Choice { by: Selector, alternatives: Vec<Alternative> },
    Call(At),
    Operators(Use),
    Return { word: At, value: Option<At> },
}

#[derive(Debug)]
pub enum Selector {
    Token,
    Rule(At),
    Operation { word: At, given: Option<(At, At)> },
}

#[derive(Debug)]
pub struct Alternative {
    pub otherwise: bool,
    pub labels: Vec<At>,
    pub nodes: Vec<Node>,
}

#[derive(Debug, Default)]
pub struct Tree {
    pub sections: Vec<Section>,
    pub operators: Vec<Operators>,
    /// Of a common part: how many names its sections declare; the names of its choice rules, and their types.
    pub declared: usize,
    pub list: Vec<(At, At)>,
    pub bodies: Vec<Body>,
}

/// The word at which reading stops, with its number.
struct Stop(u16, At);

type Read<T> = Result<T, Stop>;

struct Parser<'a> {
    text: &'a [u8],
    words: &'a [Word],
    at: At,
    tree: Tree,
    /// Words past a limit.
    over: Vec<At>,
    names: usize,
    rules: usize,
}

impl<'a> Parser<'a> {
    fn new(text: &'a [u8], words: &'a [Word]) -> Parser<'a> {
        Parser { text, words, at: 0, tree: Tree::default(), over: Vec::new(), names: 0, rules: 0 }
    }

    fn sort(&self) -> Sort {
        self.words[self.at].sort
    }

    fn stop<T>(&self) -> Read<T> {
        Err(Stop(if self.sort() == Sort::Bad { 1 } else { 2 }, self.at))
    }

    fn is(&self, sign: &str) -> bool {
        matches!(self.sort(), Sort::Sign(first) if first == sign)
    }

    /// Whether the word is a name of that spelling.
    fn spelt(&self, name: &str) -> bool {
        let word = self.words[self.at];
        word.sort == Sort::Name && &self.text[word.start..word.start + word.len] == name.as_bytes()
    }

    fn take(&mut self) -> At {
        self.at += 1;
        self.at - 1
    }

    fn takes(&mut self, sign: &str) -> bool {
        let is = self.is(sign);
        self.at += usize::from(is);
        is
    }

    fn must(&mut self, sign: &str) -> Read<()> {
        if self.takes(sign) { Ok(()) } else { self.stop() }
    }

    fn name(&mut self) -> Read<At> {
        if self.sort() != Sort::Name {
            return self.stop();
        }
        let at = self.take();
        if self.words[at].len > MAX_BYTES {
            self.over.push(at);
        }
        Ok(at)
    }

    /// A name that declares something.
    fn declared(&mut self) -> Read<At> {
        let at = self.name()?;
        self.names += 1;
        if self.names > MAX_NAMES {
            self.over.push(at);
        }
        Ok(at)
    }

    fn reference(&mut self) -> Read<At> {
        if self.sort() == Sort::Quoted { Ok(self.take()) } else { self.name() }
    }

    fn is_reference(&self) -> bool {
        matches!(self.sort(), Sort::Name | Sort::Quoted)
    }

    fn program(&mut self) -> Read<()> {
        while !self.takes("rules") {
            self.section()?;
        }
        self.rules()
    }

    /// One rule or more, `end`, and no word behind it.
    fn rules(&mut self) -> Read<()> {
        loop {
            self.rule()?;
            if self.takes("end") {
                return self.ends();
            }
        }
    }

    fn ends(&mut self) -> Read<()> {
        if self.sort() == Sort::End { Ok(()) } else { self.stop() }
    }

    fn section(&mut self) -> Read<()> {
        if self.spelt("operators") {
            return self.operators();
        }
        let head = if self.takes("input") {
            Head::Tokens { input: true, output: self.takes("output") }
        } else if self.takes("output") {
            Head::Tokens { input: false, output: true }
        } else if self.takes("error") {
            Head::Errors
        } else if self.takes("type") {
            Head::Type(self.declared()?)
        } else if self.takes("mechanism") {
            self.name()?;
            Head::Mechanism
        } else {
            return self.stop();
        };
        self.must(":")?;
        self.tree.sections.push(Section { head, entries: Vec::new() });
        loop {
            let mut entry = Entry { name: self.declared()?, ..Entry::default() };
            let read = self.entry(head, &mut entry);
            self.tree.sections.last_mut().expect("pushed above").entries.push(entry);
            read?;
            if self.takes(";") {
                return Ok(());
            }
        }
    }

    fn operators(&mut self) -> Read<()> {
        let from = self.take();
        let name = self.declared()?;
        self.must(":")?;
        let mut entries = Vec::new();
        loop {
            entries.push(self.operator()?);
            if self.is(";") {
                let to = self.take();
                self.tree.operators.push(Operators { name, entries, from, to });
                return Ok(());
            }
        }
    }

    fn operator(&mut self) -> Read<Operator> {
        let input = self.reference()?;
        if self.sort() != Sort::Number {
            return self.stop();
        }
        let at = self.take();
        let level = number(self.text, self.words[at]).filter(|level| LEVELS.contains(level));
        if level.is_none() {
            self.over.push(at);
        }
        let left = self.spelt("left");
        if !left && !self.spelt("right") {
            return self.stop();
        }
        self.take();
        Ok(Operator { input, level: level.unwrap_or(0), left, output: self.reference()? })
    }

    fn entry(&mut self, head: Head, entry: &mut Entry) -> Read<()> {
        if head == Head::Mechanism {
            entry.opened = self.takes("(");
            if entry.opened {
                entry.parameter = Some(self.name()?);
                self.must(")")?;
                entry.closed = true;
            }
            entry.arrow = self.takes(">>");
            if entry.arrow {
                entry.result = Some(self.name()?);
            }
            return Ok(());
        }
        if matches!(head, Head::Tokens { .. }) && self.sort() == Sort::Quoted {
            entry.string = Some(self.take());
        }
        entry.equals = self.takes("=");
        if entry.equals {
            if self.sort() != Sort::Number {
                return self.stop();
            }
            entry.number = Some(self.take());
        }
        Ok(())
    }

    /// A name that declares a rule.
    fn rule_name(&mut self) -> Read<At> {
        let name = self.declared()?;
        self.rules += 1;
        if self.rules > MAX_RULES {
            self.over.push(name);
        }
        Ok(name)
    }

    fn rule(&mut self) -> Read<()> {
        let name = self.rule_name()?;
        let of = if self.takes(">>") { Some(self.name()?) } else { None };
        self.must(":")?;
        let nodes = self.actions(0)?;
        let end = self.at;
        self.must(";")?;
        self.tree.bodies.push(Body { name, of, nodes, end });
        Ok(())
    }

    /// Actions as far as they go.
    fn actions(&mut self, depth: usize) -> Read<Vec<Node>> {
        let mut nodes = Vec::new();
        loop {
            nodes.push(if self.is_reference() {
                let word = self.reference()?;
                Node::Bare { word, given: self.given()? }
            } else if self.takes("?") {
                Node::Any
            } else if self.takes(".") {
                Node::Emit(self.reference()?)
            } else if self.takes("#") {
                Node::Signal(self.reference()?)
            } else if self.takes("@") {
                Node::Call(self.name()?)
            } else if self.is("^") {
                let (sign, section) = (self.take(), self.name()?);
                self.must("@")?;
                Node::Operators(Use { sign, section, rule: self.name()? })
            } else if self.is(">") {
                Node::Exit(self.take())
            } else if self.is(">>") {
                let word = self.take();
                Node::Return { word, value: if self.is_reference() { Some(self.reference()?) } else { None } }
            } else if self.is("{") || self.is("[") {
                if depth == MAX_DEPTH {
                    return Err(Stop(9, self.at));
                }
                if self.takes("{") {
                    let nodes = self.actions(depth + 1)?;
                    self.must("}")?;
                    Node::Cycle(nodes)
                } else {
                    self.take();
                    self.choice(depth + 1)?
                }
            } else {
                return Ok(nodes);
            });
        }
    }

    /// A constant in parentheses, if there is one: the opening sign and the constant.
    fn given(&mut self) -> Read<Option<(At, At)>> {
        if !self.is("(") {
            return Ok(None);
        }
        let open = self.take();
        let constant = self.reference()?;
        self.must(")")?;
        Ok(Some((open, constant)))
    }

    fn choice(&mut self, depth: usize) -> Read<Node> {
        let by = if self.takes("@") {
            Selector::Rule(self.name()?)
        } else if self.sort() == Sort::Name {
            let word = self.name()?;
            Selector::Operation { word, given: self.given()? }
        } else {
            Selector::Token
        };
        let mut alternatives = Vec::new();
        let mut count = 0;
        self.must("|")?;
        loop {
            let otherwise = self.takes("*");
            let mut labels = Vec::new();
            let mut more = !otherwise;
            while more {
                let label = self.reference()?;
                count += 1;
                if count > MAX_LABELS {
                    self.over.push(label);
                }
                labels.push(label);
                more = self.takes(",");
            }
            self.must(":")?;
            alternatives.push(Alternative { otherwise, labels, nodes: self.actions(depth)? });
            if otherwise || !self.is("|") {
                break;
            }
            self.take();
        }
        self.must("]")?;
        Ok(Node::Choice { by, alternatives })
    }
}

/// A number's value, if it is one that fits.
fn number(text: &[u8], word: Word) -> Option<u16> {
    let digits = &text[word.start..word.start + word.len];
    let zeros = digits.iter().take_while(|digit| **digit == b'0').count();
    let digits = &digits[zeros..];
    if digits.len() > 30 {
        return None;
    }
    let value = digits.iter().fold(0u128, |value, digit| value * 10 + u128::from(digit - b'0'));
    (value <= MAX_VALUE).then_some(value as u16)
}

/// The entries' values, by section; of operations, no values. Words past the limits of values and kinds are added to `over`.
fn values(text: &[u8], words: &[Word], sections: &[Section], over: &mut Vec<At>) -> Vec<Vec<Option<u16>>> {
    // The greatest numbers so far of input tokens, output tokens, errors.
    let mut greatest: [Option<u128>; 3] = [None; 3];
    let mut kinds: [usize; 4] = [0; 4];
    let mut all = Vec::new();
    for section in sections {
        let feeds: &[usize] = match section.head {
            Head::Tokens { input: true, output: true } => &[0, 1],
            Head::Tokens { input: true, .. } => &[0],
            Head::Tokens { .. } => &[1],
            Head::Errors => &[2],
            Head::Type(_) | Head::Mechanism => &[],
        };
        let mut next = feeds.iter().filter_map(|class| greatest[*class]).max().map_or(0, |most| most + 1);
        let mut of = Vec::new();
        for entry in &section.entries {
            if section.head == Head::Mechanism {
                if let Some(kind) = entry.kind() {
                    let count = &mut kinds[2 * usize::from(kind.chooses) + usize::from(kind.with)];
                    *count += 1;
                    if *count > MAX_KIND {
                        over.push(entry.name);
                    }
                }
                of.push(None);
                continue;
            }
            if let Some(set) = entry.number {
                match number(text, words[set]) {
                    Some(value) => next = u128::from(value),
                    None => {
                        over.push(set);
                        of.push(None);
                        continue;
                    }
                }
            } else if entry.equals {
                // Broken off before its number.
                of.push(None);
                continue;
            } else if next > MAX_VALUE {
                over.push(entry.name);
            }
            of.push(u16::try_from(next).ok());
            for class in feeds {
                greatest[*class] = greatest[*class].max(Some(next));
            }
            next += 1;
        }
        all.push(of);
    }
    all
}

// ---------------------------------------------------------------- names

/// A program with its names replaced by numbers.
#[derive(Clone, PartialEq, Eq, Debug)]
pub struct Program {
    pub rules: Vec<Rule>,
}

#[derive(Clone, PartialEq, Eq, Debug)]
pub struct Rule {
    pub chooses: bool,
    pub acts: Vec<Act>,
}

#[derive(Clone, PartialEq, Eq, Debug)]
pub enum Act {
    Match(u16),
    Any,
    Emit(u16),
    Signal(u16),
    Cycle(Vec<Act>),
    Exit,
    Choice(Choice),
    Call(usize),
    Return(Option<u16>),
    /// An operation's number, and its parameter.
    Update(u16, Option<u16>),
}

#[derive(Clone, PartialEq, Eq, Debug)]
pub struct Choice {
    pub by: By,
    pub alternatives: Vec<(Vec<u16>, Vec<Act>)>,
    pub otherwise: Option<Vec<Act>>,
}

#[derive(Clone, PartialEq, Eq, Debug)]
pub enum By {
    Token,
    Rule(usize),
    Operation(u16, Option<u16>),
}

/// The numbers of names and strings; a string is kept with its quotes, so that the two never meet.
type Class<'a> = HashMap<&'a [u8], u16>;

#[derive(Clone, Copy, Debug)]
enum Doer<'a> {
    Operation { kind: Kind, number: u16, parameter: Option<&'a [u8]>, result: Option<&'a [u8]> },
    Rule { index: usize, of: Option<&'a [u8]> },
}

struct Names<'a> {
    text: &'a [u8],
    words: &'a [Word],
    /// All names and strings declared anywhere.
    known: HashSet<&'a [u8]>,
    input: Class<'a>,
    output: Class<'a>,
    errors: Class<'a>,
    types: HashMap<&'a [u8], Class<'a>>,
    doers: HashMap<&'a [u8], Doer<'a>>,
    /// Names of sections of operators.
    operators: HashSet<&'a [u8]>,
    /// Where calls go by a list, the types of the choice rules on it; every other rule is then a procedure rule, wherever it stands.
    list: Option<HashMap<&'a [u8], &'a [u8]>>,
    faults: Vec<(At, u16)>,
}

/// The number of a rule that may stand in another text.
const OPEN: usize = 0;

impl<'a> Names<'a> {
    fn new(text: &'a [u8], words: &'a [Word]) -> Names<'a> {
        Names {
            text,
            words,
            known: HashSet::new(),
            input: HashMap::new(),
            output: HashMap::new(),
            errors: HashMap::new(),
            types: HashMap::new(),
            doers: HashMap::new(),
            operators: HashSet::new(),
            list: None,
            faults: Vec::new(),
        }
    }

    fn spelling(&self, at: At) -> &'a [u8] {
        let word = self.words[at];
        &self.text[word.start..word.start + word.len]
    }

    fn fault(&mut self, at: At, number: u16) {
        self.faults.push((at, number));
    }

    /// A word that is not in the class wanted.
    fn missing(&mut self, at: At) {
        let number = if self.known.contains(self.spelling(at)) { 5 } else { 3 };
        self.fault(at, number);
    }

    fn found(&mut self, number: Option<u16>, at: At) -> u16 {
        if number.is_none() {
            self.missing(at);
        }
        number.unwrap_or(0)
    }

    fn declare(&mut self, tree: &Tree, values: &[Vec<Option<u16>>]) {
        // What is known anywhere, and the place of each type's first declaration.
        let mut first_type: HashMap<&[u8], At> = HashMap::new();
        for section in &tree.sections {
            if let Head::Type(name) = section.head {
                first_type.entry(self.spelling(name)).or_insert(name);
                self.known.insert(self.spelling(name));
            }
            for entry in &section.entries {
                self.known.insert(self.spelling(entry.name));
                if let Some(string) = entry.string {
                    self.known.insert(self.spelling(string));
                }
            }
        }
        for section in &tree.operators {
            self.known.insert(self.spelling(section.name));
        }
        for name in tree.bodies.iter().map(|body| body.name).chain(tree.list.iter().map(|(name, _)| *name)) {
            self.known.insert(self.spelling(name));
        }
        // Numbers taken, and places of the operations' names, for those input tokens that follow.
        let mut taken: [HashSet<u16>; 3] = Default::default();
        let mut counts = [0u16; 4];
        for (section, values) in tree.sections.iter().zip(values) {
            let mut own: Class = HashMap::new();
            let mut own_taken: HashSet<u16> = HashSet::new();
            if let Head::Type(name) = section.head
                && first_type[self.spelling(name)] != name
            {
                self.fault(name, 4);
            }
            for (entry, value) in section.entries.iter().zip(values) {
                let name = self.spelling(entry.name);
                let string = entry.string.map(|string| self.spelling(string));
                if section.head == Head::Mechanism {
                    self.operation(entry, &first_type, &mut counts);
                    continue;
                }
                let value = value.expect("checked before");
                let mut twice = false;
                let (mut put, clash): (Vec<(&mut Class, &mut HashSet<u16>)>, bool) = match section.head {
                    Head::Tokens { input, output } => {
                        let [inputs, outputs, _] = &mut taken;
                        let mut put = Vec::new();
                        if input {
                            put.push((&mut self.input, inputs));
                        }
                        if output {
                            put.push((&mut self.output, outputs));
                        }
                        (put, input && self.doers.contains_key(name))
                    }
                    Head::Errors => (vec![(&mut self.errors, &mut taken[2])], false),
                    _ => (vec![(&mut own, &mut own_taken)], false),
                };
                for (class, numbers) in &mut put {
                    twice |= class.contains_key(name) || string.is_some_and(|string| class.contains_key(string));
                    twice |= !numbers.insert(value);
                    for word in [Some(name), string].into_iter().flatten() {
                        class.entry(word).or_insert(value);
                    }
                }
                if twice || clash {
                    self.fault(entry.name, 4);
                }
            }
            if let Head::Type(name) = section.head {
                self.types.entry(self.spelling(name)).or_insert(own);
            }
        }
        tree.list.iter().for_each(|line| self.listed(*line));
        for (index, body) in tree.bodies.iter().enumerate() {
            let name = self.spelling(body.name);
            let of = body.of.map(|of| self.spelling(of));
            if self.doers.contains_key(name) {
                self.fault(body.name, 4);
            }
            self.doers.entry(name).or_insert(Doer::Rule { index, of });
            // Which part is the first is not known where it is translated.
            if index == 0 && of.is_some() && self.list.is_none() {
                self.fault(body.name, 5);
            }
            self.is_type(body.of);
        }
        tree.operators.iter().for_each(|section| self.section_of_operators(section));
    }

    /// A type, where there is one, must be declared.
    fn is_type(&mut self, of: Option<At>) {
        if let Some(of) = of
            && !self.types.contains_key(self.spelling(of))
        {
            self.missing(of);
        }
    }

    /// A line of the list. The rule itself is declared elsewhere.
    fn listed(&mut self, (name, of): (At, At)) {
        let (rule, of_type) = (self.spelling(name), self.spelling(of));
        let list = self.list.get_or_insert_default();
        let twice = list.contains_key(rule);
        list.entry(rule).or_insert(of_type);
        if twice || self.doers.contains_key(rule) {
            self.fault(name, 4);
        }
        self.is_type(Some(of));
    }

    /// Its tokens are looked up in the whole classes: they may be declared behind it.
    fn section_of_operators(&mut self, section: &Operators) {
        if !self.operators.insert(self.spelling(section.name)) {
            self.fault(section.name, 4);
        }
        // Values of tokens and sides of levels so far.
        let mut listed = HashSet::new();
        let mut sides = HashMap::new();
        for Operator { input, level, left, output } in &section.entries {
            let token = self.input.get(self.spelling(*input)).copied();
            let twice = token.is_some_and(|token| !listed.insert(token));
            if twice || sides.entry(*level).or_insert(*left) != left {
                self.fault(*input, 45);
            }
            self.found(token, *input);
            let token = self.output.get(self.spelling(*output)).copied();
            self.found(token, *output);
        }
    }

    fn operation(&mut self, entry: &Entry, first_type: &HashMap<&[u8], At>, counts: &mut [u16; 4]) {
        let name = self.spelling(entry.name);
        if self.doers.contains_key(name) || self.input.contains_key(name) {
            self.fault(entry.name, 4);
        }
        for of in [entry.parameter, entry.result].into_iter().flatten() {
            match first_type.get(self.spelling(of)) {
                Some(at) if *at < of => {}
                Some(_) => self.fault(of, 3),
                None => self.missing(of),
            }
        }
        let kind = entry.kind().expect("a whole entry");
        let index = 2 * usize::from(kind.chooses) + usize::from(kind.with);
        let number = 256 * (index as u16 + 1) + counts[index];
        counts[index] += 1;
        let parameter = entry.parameter.map(|of| self.spelling(of));
        let result = entry.result.map(|of| self.spelling(of));
        self.doers.entry(name).or_insert(Doer::Operation { kind, number, parameter, result });
    }

    fn value_of(&self, of: &[u8], word: &[u8]) -> Option<u16> {
        self.types.get(of).and_then(|class| class.get(word).copied())
    }

    fn bodies(&mut self, tree: &Tree) -> Program {
        let mut rules = Vec::new();
        for body in &tree.bodies {
            let of = body.of.map(|of| self.spelling(of));
            let acts = self.acts(&body.nodes, of, false);
            if of.is_some() && past_all(&body.nodes) {
                self.fault(body.end, 8);
            }
            rules.push(Rule { chooses: of.is_some(), acts });
        }
        Program { rules }
    }

    fn acts(&mut self, nodes: &[Node], of: Option<&'a [u8]>, cycle: bool) -> Vec<Act> {
        nodes.iter().map(|node| self.act(node, of, cycle)).collect()
    }

    fn act(&mut self, node: &Node, of: Option<&'a [u8]>, cycle: bool) -> Act {
        match node {
            Node::Bare { word, given } => self.bare(*word, *given),
            Node::Any => Act::Any,
            Node::Emit(word) => {
                let number = self.output.get(self.spelling(*word)).copied();
                Act::Emit(self.found(number, *word))
            }
            Node::Signal(word) => {
                let number = self.errors.get(self.spelling(*word)).copied();
                Act::Signal(self.found(number, *word))
            }
            Node::Cycle(nodes) => Act::Cycle(self.acts(nodes, of, true)),
            Node::Exit(word) => {
                if !cycle {
                    self.fault(*word, 7);
                }
                Act::Exit
            }
            Node::Choice { by, alternatives } => {
                let (by, class) = self.selector(by);
                let mut out = Vec::new();
                let mut otherwise = None;
                let mut seen = HashSet::new();
                for alternative in alternatives {
                    let mut labels = Vec::new();
                    for label in &alternative.labels {
                        let word = self.spelling(*label);
                        let number = match class {
                            None => self.input.get(word).copied(),
                            Some(of) => self.value_of(of, word),
                        };
                        if number.is_some_and(|number| !seen.insert(number)) {
                            self.fault(*label, 6);
                        }
                        labels.push(self.found(number, *label));
                    }
                    let acts = self.acts(&alternative.nodes, of, cycle);
                    if alternative.otherwise {
                        otherwise = Some(acts);
                    } else {
                        out.push((labels, acts));
                    }
                }
                Act::Choice(Choice { by, alternatives: out, otherwise })
            }
            Node::Call(word) => self.call(*word),
            Node::Operators(Use { section, rule, .. }) => {
                if !self.operators.contains(self.spelling(*section)) {
                    self.missing(*section);
                }
                self.call(*rule)
            }
            Node::Return { word, value } => match (of, value) {
                (None, None) => Act::Return(None),
                (None, Some(value)) => {
                    self.fault(*value, 8);
                    Act::Return(None)
                }
                (Some(_), None) => {
                    self.fault(*word, 8);
                    Act::Return(None)
                }
                (Some(of), Some(value)) => {
                    let number = self.value_of(of, self.spelling(*value));
                    Act::Return(Some(self.found(number, *value)))
                }
            },
        }
    }

    fn call(&mut self, word: At) -> Act {
        match self.rule_called(word) {
            Some((index, None)) => Act::Call(index),
            _ => {
                self.missing(word);
                Act::Any
            }
        }
    }

    /// The rule that a name after `@` stands for, with its type. By a list there is always one, but for an operation's name.
    fn rule_called(&self, word: At) -> Option<(usize, Option<&'a [u8]>)> {
        let name = self.spelling(word);
        match (self.doers.get(name).copied(), &self.list) {
            (Some(Doer::Operation { .. }), _) | (None, None) => None,
            (_, Some(list)) => Some((OPEN, list.get(name).copied())),
            (Some(Doer::Rule { index, of }), None) => Some((index, of)),
        }
    }

    /// A token, or an update operation with its constant.
    fn bare(&mut self, word: At, given: Option<(At, At)>) -> Act {
        let spelling = self.spelling(word);
        if let Some(token) = self.input.get(spelling).copied() {
            if let Some((open, _)) = given {
                self.fault(open, 5);
            }
            return Act::Match(token);
        }
        match self.doers.get(spelling).copied() {
            Some(Doer::Operation { kind: Kind { chooses: false, .. }, number, parameter, .. }) => {
                Act::Update(number, self.constant(word, given, parameter))
            }
            _ => {
                self.missing(word);
                Act::Any
            }
        }
    }

    /// The constant given to an operation with that type of parameter.
    fn constant(&mut self, word: At, given: Option<(At, At)>, parameter: Option<&'a [u8]>) -> Option<u16> {
        match (given, parameter) {
            (None, None) => None,
            (None, Some(_)) => {
                self.fault(word, 5);
                None
            }
            (Some((open, _)), None) => {
                self.fault(open, 5);
                None
            }
            (Some((_, constant)), Some(of)) => {
                let number = self.value_of(of, self.spelling(constant));
                Some(self.found(number, constant))
            }
        }
    }

    /// What the choice goes by, and the type of its labels, or none for tokens.
    fn selector(&mut self, by: &Selector) -> (By, Option<&'a [u8]>) {
        match by {
            Selector::Token => (By::Token, None),
            Selector::Rule(word) => match self.rule_called(*word) {
                Some((index, Some(of))) => (By::Rule(index), Some(of)),
                // A procedure rule, if only by the list.
                Some((_, None)) => {
                    self.fault(*word, 5);
                    (By::Token, None)
                }
                None => {
                    self.missing(*word);
                    (By::Token, None)
                }
            },
            Selector::Operation { word, given } => match self.doers.get(self.spelling(*word)).copied() {
                Some(Doer::Operation { kind: Kind { chooses: true, .. }, number, parameter, result }) => {
                    (By::Operation(number, self.constant(*word, *given, parameter)), result)
                }
                _ => {
                    self.missing(*word);
                    (By::Token, None)
                }
            },
        }
    }
}

/// Whether a list goes past its end.
pub fn past_all(nodes: &[Node]) -> bool {
    nodes.iter().all(|node| match node {
        Node::Exit(_) | Node::Return { .. } => false,
        Node::Cycle(nodes) => left(nodes),
        Node::Choice { alternatives, .. } => alternatives.iter().any(|alternative| past_all(&alternative.nodes)),
        _ => true,
    })
}

/// Whether some `>` here belongs to the cycle around.
pub fn left(nodes: &[Node]) -> bool {
    nodes.iter().any(|node| match node {
        Node::Exit(_) => true,
        Node::Choice { alternatives, .. } => alternatives.iter().any(|alternative| left(&alternative.nodes)),
        _ => false,
    })
}

/// The program, or the number and place of the word at fault.
pub fn resolve(text: &[u8]) -> Result<Program, (u16, usize, usize)> {
    if text.len() > MAX_TEXT {
        return Err((9, text.len(), 0));
    }
    resolve_any(text)
}

/// 45 is ranked just after 4.
fn rank(number: u16) -> u16 {
    if number == 45 { 2 * 4 + 1 } else { 2 * number }
}

/// The first of the numbers 1, 2 and 9: of the words past a limit and the one at which reading stopped.
fn first_early(over: &[At], stop: Option<Stop>) -> Option<(At, u16)> {
    over.iter().map(|at| (*at, 9)).chain(stop.map(|Stop(number, at)| (at, number))).min()
}

/// The first of the numbers 3 to 8 and 45.
fn first_late(faults: &[(At, u16)]) -> Option<(At, u16)> {
    faults.iter().copied().min_by_key(|(at, number)| (*at, rank(*number)))
}

/// The same for a text of any length.
fn resolve_any(text: &[u8]) -> Result<Program, (u16, usize, usize)> {
    let words = words(text);
    let show = |(at, number): (At, u16)| (number, words[at].start, words[at].len);
    let mut parser = Parser::new(text, &words);
    let stop = parser.program().err();
    let Parser { tree, mut over, names: declared, .. } = parser;
    let values = values(text, &words, &tree.sections, &mut over);
    if let Some(fault) = first_early(&over, stop) {
        return Err(show(fault));
    }
    let mut names = Names::new(text, &words);
    names.declare(&tree, &values);
    let program = names.bodies(&tree);
    if let Some(fault) = first_late(&names.faults) {
        return Err(show(fault));
    }
    if tree.operators.is_empty() {
        return Ok(program);
    }
    let written = operators::write_out(text, &words, &tree, declared).map_err(|sign| show((sign, 9)))?;
    Ok(resolve_any(&written).expect("good rules are written out"))
}

/// A text that is resolved with its operators' rules written out, as words with a space between them.
pub fn written_out(text: &[u8]) -> Option<Vec<u8>> {
    resolve(text).ok()?;
    let words = words(text);
    let mut parser = Parser::new(text, &words);
    parser.program().ok()?;
    operators::write_out(text, &words, &parser.tree, parser.names).ok()
}

/// A text as it was read: its words, its tree as far as it goes, and the values of the entries. All of it is there where no word is refused
/// with 1, 2 or 9.
pub struct Outline {
    pub words: Vec<Word>,
    pub tree: Tree,
    pub values: Vec<Vec<Option<u16>>>,
}

pub fn outline(text: &[u8]) -> Outline {
    let words = words(text);
    let mut parser = Parser::new(text, &words);
    _ = parser.program();
    let tree = parser.tree;
    let values = values(text, &words, &tree.sections, &mut Vec::new());
    Outline { words, tree, values }
}

/// The rules made for the operators of an accepted text, in the table's order: the first use of each, and its level.
pub fn made(text: &[u8], outline: &Outline) -> Vec<(Use, u16)> {
    operators::first_uses(text, &outline.words, &outline.tree)
}

/// How many words the table of a program has, be it too long or not.
pub fn table_words(program: &Program) -> usize {
    assemble(program).0.len()
}

// ---------------------------------------------------------------- the table

/// The words, of any size, and the locations of the rules' first ones; the word at location n stands at n - 1.
fn assemble(program: &Program) -> (Vec<usize>, Vec<usize>) {
    let (words, starts, _) = assemble_with_calls(program);
    (words, starts)
}

/// The same, with the locations of the calls' operands and the rules that are called.
fn assemble_with_calls(program: &Program) -> (Vec<usize>, Vec<usize>, Vec<(usize, usize)>) {
    let mut out = Assembly { words: Vec::new(), calls: Vec::new() };
    let mut starts = Vec::new();
    for rule in &program.rules {
        starts.push(out.here());
        out.acts(&rule.acts, &mut Vec::new());
        if !rule.chooses {
            out.words.push(9);
        }
    }
    for (hole, rule) in &out.calls {
        out.words[hole - 1] = starts[*rule];
    }
    (out.words, starts, out.calls)
}

struct Assembly {
    words: Vec<usize>,
    /// Locations to be filled with a rule's start.
    calls: Vec<(usize, usize)>,
}

impl Assembly {
    /// The location of the next word.
    fn here(&self) -> usize {
        self.words.len() + 1
    }

    /// An instruction whose operand is patched later: the operand's location.
    fn hole(&mut self, instruction: usize) -> usize {
        self.words.extend([instruction, 0]);
        self.words.len()
    }

    /// The distance at a hole leads to the next word.
    fn patch(&mut self, hole: usize) {
        self.words[hole - 1] = self.here() - hole;
    }

    fn back(&mut self, start: usize) {
        let hole = self.hole(2);
        self.words[hole - 1] = hole - start;
    }

    fn operation(&mut self, number: u16, parameter: Option<u16>) {
        if let Some(parameter) = parameter {
            self.words.extend([13, usize::from(parameter)]);
        }
        self.words.push(usize::from(number));
    }

    /// `exits` takes the operands of jumps out of the cycle around.
    fn acts(&mut self, acts: &[Act], exits: &mut Vec<usize>) {
        for act in acts {
            match act {
                Act::Match(token) => self.words.extend([3, usize::from(*token)]),
                Act::Any => self.words.push(4),
                Act::Emit(token) => self.words.extend([5, usize::from(*token)]),
                Act::Signal(error) => self.words.extend([6, usize::from(*error)]),
                Act::Cycle(acts) => {
                    let start = self.here();
                    let mut own = Vec::new();
                    self.acts(acts, &mut own);
                    self.back(start);
                    own.into_iter().for_each(|hole| self.patch(hole));
                }
                Act::Exit => {
                    let hole = self.hole(1);
                    exits.push(hole);
                }
                Act::Choice(choice) => self.choice(choice, exits),
                Act::Call(rule) => {
                    let hole = self.hole(8);
                    self.calls.push((hole, *rule));
                }
                Act::Return(value) => {
                    if let Some(value) = value {
                        self.words.extend([10, usize::from(*value)]);
                    }
                    self.words.push(9);
                }
                Act::Update(number, parameter) => self.operation(*number, *parameter),
            }
        }
    }

    fn choice(&mut self, choice: &Choice, exits: &mut Vec<usize>) {
        let instruction = match &choice.by {
            By::Token => 7,
            By::Rule(rule) => {
                let hole = self.hole(8);
                self.calls.push((hole, *rule));
                11
            }
            By::Operation(number, parameter) => {
                self.operation(*number, *parameter);
                11
            }
        };
        let to_table = self.hole(instruction);
        let mut entries = Vec::new();
        let mut ends = Vec::new();
        for (labels, acts) in &choice.alternatives {
            let start = self.here();
            entries.extend(labels.iter().map(|label| (usize::from(*label), start)));
            self.acts(acts, exits);
            ends.push(self.hole(1));
        }
        self.patch(to_table);
        self.words.push(entries.len());
        for (label, start) in &entries {
            self.words.push(*label);
            self.words.push(self.here() - start);
        }
        match &choice.otherwise {
            Some(acts) => self.acts(acts, exits),
            None if choice.by == By::Token => {
                let (label, start) = entries[0];
                self.words.extend([3, label]);
                self.back(start);
            }
            None => self.words.push(12),
        }
        ends.into_iter().for_each(|hole| self.patch(hole));
    }
}

/// What tests of processors state.
#[cfg(test)]
mod asserts {
    use super::{Answer, MAX_TABLE, process};

    #[track_caller]
    pub fn accepted(text: &str, table: &[u16], finishing: bool) {
        assert_eq!(process(text.as_bytes(), MAX_TABLE), Answer::Accepted { table: table.to_vec(), finishing }, "{text}");
    }

    /// `~` marks the word shown and is taken out.
    #[track_caller]
    pub fn refused(number: u16, marked: &str, len: usize) {
        let start = marked.find('~').expect("a mark");
        let text = marked.replacen('~', "", 1);
        assert_eq!(process(text.as_bytes(), MAX_TABLE), Answer::Refused { number, start, len }, "{text}");
    }
}

#[cfg(test)]
mod tests {
    use super::asserts::{accepted, refused};
    use super::*;

    #[track_caller]
    fn verdict(rules: &str, finishing: bool) {
        let text = format!("input: a b; type t: v w; mechanism m: f c>>t; rules {rules} end");
        match process(text.as_bytes(), MAX_TABLE) {
            Answer::Accepted { finishing: found, .. } => assert_eq!(found, finishing, "{rules}"),
            other => panic!("{rules}: {other:?}"),
        }
    }

    #[test]
    fn the_papers_cases() {
        accepted("rules M: ; end", &[9], true);
        let p2 = "input: a b blank illegalChar; error: badChar = 10; rules S: {[ | blank: | illegalChar: #badChar | *: > ]}; end";
        accepted(p2, &[7, 7, 1, 12, 6, 10, 1, 8, 2, 2, 8, 3, 8, 1, 3, 2, 16, 9], true);
        accepted("rules M: { } ; end", &[2, 1, 9], false);
        accepted("rules M: { > } ; end", &[1, 3, 2, 3, 9], true);
        accepted("input: a; rules M: a; end", &[3, 0, 9], true);
        accepted("input: a b; rules M: [ | b: ]; end", &[7, 3, 1, 8, 1, 1, 4, 3, 1, 2, 8, 9], true);
        accepted("rules M: @M; end", &[8, 1, 9], false);
        refused(7, "rules M: ~> ; end", 1);
    }

    #[test]
    fn the_rules_places() {
        let text = b"type t: v; rules M: [@N | v: ] ; % N:\n N >> t : >> v; L_1: ? ; end";
        let place = |start, len, location| Place { start, len, location };
        assert_eq!(places(text), Ok(vec![place(17, 1, 1), place(39, 1, 12), place(54, 3, 15)]));
        assert_eq!(places(b"rules M: ; end"), Ok(vec![place(6, 1, 1)]));
        let text = b"input: p q; output: x; operators E: p 1 left x q 2 left x; rules M: ^ E@M ^E @N; N: ^E @M; end";
        let wanted = [(65, 1, 1), (81, 1, 6), (68, 5, 9), (68, 5, 27), (74, 5, 45), (74, 5, 63)];
        assert_eq!(places(text), Ok(wanted.map(|(start, len, location)| place(start, len, location)).to_vec()));
        assert_eq!(places(b"rules M: > ; end"), Err(7));
        assert_eq!(places(b"rules M: "), Err(2));
        let long = format!("rules M: {}; end", "?".repeat(4_096));
        assert_eq!(places(long.as_bytes()), Err(20));
    }

    #[test]
    fn the_lister() {
        assert_eq!(listing(b"rules M: ; end"), "table 1 finishing yes\n1\n1 9\n");
        assert_eq!(listing(b"rules M: > ; end"), "refused 7 line 1\n");
        assert_eq!(listing(b"rules M:\n;\n"), "refused 2 line 3\n");
        assert_eq!(listing(b"rules M: { } ; end"), "table 3 finishing no\n1 2\n2 1\n3 9\n");
    }

    #[test]
    fn readings() {
        // R1
        refused(5, "input: a 'x'; rules M: #~'x'; end", 3);
        refused(3, "input: a 'x'; rules M: #~'y'; end", 3);
        refused(5, "input: a 'x'; type t: v; mechanism m: f(t); rules M: f(~'x'); end", 3);
        refused(5, "input: a 'x'; type t: v; rules M: ; N>>t: >> ~'x'; end", 3);
        // R2
        refused(2, "input: a 'x'; rules M: @~'x'; end", 3);
        refused(2, "input: a 'x'; rules M: [~'x' |*:]; end", 3);
        refused(2, "input: a 'x'; rules M: [@~'x' |*:]; end", 3);
        refused(2, "mechanism m: f(~'x'); rules M: ; end", 3);
        refused(2, "mechanism m: f>>~'x'; rules M: ; end", 3);
        refused(2, "rules M>>~'x': ; end", 3);
        // R3
        refused(5, "input: a 'x'; type t: v; rules M: 'x'~(v); end", 1);
        refused(5, "input: a 'x'; type t: v; rules M: a~(v); end", 1);
        refused(2, "rules M: @M~(v); end", 1);
        refused(2, "output: o; rules M: .o~(v); end", 1);
        refused(2, "error: o; rules M: #o~(v); end", 1);
        refused(2, "type t: v; rules M: ; N>>t: >> v~(v); end", 1);
        refused(2, "type t: v; rules M: [@N~(v)|*:]; N>>t: >> v; end", 1);
        // R4
        refused(8, "rules M: >> ~zz; end", 2);
        refused(8, "input: a; rules M: >> ~a; end", 1);
        refused(8, "rules M: >> ~'q'; end", 3);
        // R5
        refused(4, "input: a 'x' ~b 'x'; rules M: ; end", 1);
        // R6
        refused(5, "input: a; rules M: [@N | ~a: ]; N >> u: >> z; end", 1);
        refused(3, "input: a; rules M: [@N | ~z: ]; N >> u: >> z; end", 1);
        refused(3, "input: a; rules M: [@N | *: ]; N >> ~u: >> z; end", 1);
        // R9, without the numbers of operations
        refused(9, "input: a = 65535 ~b $", 1);
        refused(9, "input: a = 65535 ~b '' $", 1);
        refused(1, "input: a = 65535 b = ~$", 1);
        refused(2, "input: a = 65535 b = ~;", 1);
        refused(9, "input: a = 65535 b = ~65536;", 5);
        refused(9, "input: a = 65535; input: ~b", 1);
        refused(9, "input: a = 65535; input output: ~b", 1);
        refused(2, "input: a = 65535; output: b~", 0);
        // R10
        refused(5, "mechanism m: f; rules M: @~f; f: ; end", 1);
        refused(4, "mechanism m: f; rules M: f; ~f: ; end", 1);
        // R11
        refused(3, "mechanism m: f(~t); type t: v; rules M: ; end", 1);
        refused(3, "input: t; mechanism m: f(~t); type t: v; rules M: ; end", 1);
        refused(5, "input: t; mechanism m: f(~t); rules M: ; end", 1);
        refused(5, "mechanism m: f>>~t; input: t; rules M: ; end", 1);
        refused(5, "mechanism m: f>>~M; rules M: ; end", 1);
        refused(3, "mechanism m: f>>~m; rules M: ; end", 1);
        // R12
        accepted("input: a 'b' b 'a'; rules M: 'a' a; end", &[3, 1, 3, 0, 9], true);
    }

    #[test]
    fn words_and_order() {
        for bad in ["''", "'", "'a", "'a\n'", "'a%", "'a%\n'", "'123456789012345678901234567890123'"] {
            refused(1, &format!("rules M: ~{bad} ; end"), 1);
        }
        accepted("input: a '12345678901234567890123456789012'; rules M: ; end", &[9], true);
        accepted("input: a '%' b 'c%'; % 'd\nrules M: 'c%' '%'; end", &[3, 1, 3, 0, 9], true);
        accepted("input: a '\r\t\u{0}\u{f6}'; rules M: '\r\t\u{0}\u{f6}'; end", &[3, 0, 9], true);
        for bad in ["\u{0}", "\u{c}", "\u{b}", "_", "+", "-", "/", "<", "&", "\"", "$"] {
            refused(1, &format!("rules M: ~{bad} ; end"), 1);
        }
        refused(1, "rules M: ~\u{f6}; end", 1);
        accepted("%\rx\nrules M: ; end % and so on", &[9], true);
        refused(2, "input: a = 12 ~12b; rules M: ; end", 2);
        accepted("input: a = 12b; rules M: b; end", &[3, 13, 9], true);
        accepted("rules M: {>>>}; end", &[9, 1, 3, 2, 4, 9], true);
        accepted("input: END If do1; rules M: END If do1; end", &[3, 0, 3, 1, 3, 2, 9], true);
        accepted("input: a = 00000000000000000000000000000000000000000065535; rules M: a; end", &[3, 65535, 9], true);
        let long = "a23456789012345678901234567890123";
        refused(9, &format!("input: ~{long}; rules M: ; end"), 33);
        refused(9, &format!("mechanism ~{long}: f; rules M: ; end"), 33);
        refused(2, &format!("~{long}: ; rules M: ; end"), 33);
        refused(2, "input: a ~99999; rules M: ; end", 5);
        refused(9, "input: a = ~99999; rules M: ; end", 5);
        refused(2, "rules M:\n;\n~", 0);
        refused(2, "~", 0);
        let over = "$".repeat(MAX_TEXT + 1);
        assert_eq!(process(over.as_bytes(), MAX_TABLE), Answer::Refused { number: 9, start: MAX_TEXT + 1, len: 0 });
        let full = "$".repeat(MAX_TEXT);
        assert_eq!(process(full.as_bytes(), MAX_TABLE), Answer::Refused { number: 1, start: 0, len: 1 });
        // 1, 2 and 9 before all others.
        refused(2, "input: a a; rules M: ; end ~x", 1);
    }

    #[test]
    fn syntax() {
        for text in ["[ | *: ~| a: ]", "[ | a, ~*: ]", "[ | *~, a: ]", "[ | a, ~: ]", "[ ~]", "[@R ~]", "[ a~: ]"] {
            refused(2, &format!("input: a; rules M: {text}; end"), 1);
        }
        refused(2, "input: ~; rules M: ; end", 1);
        refused(2, "rules ~end", 3);
        refused(2, "output ~input: a;", 5);
        accepted("rules M: [ | *: ]; end", &[7, 1, 0, 9], true);
        refused(2, "input: a = 5 ~'x';", 3);
        refused(2, "error: e ~'x';", 3);
        refused(2, "type t: v ~'x';", 3);
        refused(2, "mechanism m: f ~= 3;", 1);
        refused(2, "type t: v; mechanism m: f >> t ~(t);", 1);
        accepted("type t: v = 7 w; error: e = 3 f; mechanism m: o(t); rules M: #f o(w); end", &[6, 4, 13, 8, 512, 9], true);
        accepted("rules M: if ! *: fi do > od ; end", &[7, 1, 0, 1, 3, 2, 3, 9], true);
    }

    #[test]
    fn names() {
        refused(4, "input output: a; output: ~a; rules M: ; end", 1);
        refused(4, "output: a 'x'; input output: ~b 'x'; rules M: ; end", 1);
        refused(4, "output: a = 5; input: b; input output: ~c = 5; rules M: ; end", 1);
        refused(4, "input: a = 5 b = 4 ~c; rules M: ; end", 1);
        accepted("input: a = 5 b = 1 c; input: d; rules M: a b c d; end", &[3, 5, 3, 1, 3, 2, 3, 6, 9], true);
        accepted("input: a; output: b c; input output: d; rules M: d .d; end", &[3, 2, 5, 2, 9], true);
        refused(4, "input: f; mechanism m: ~f; rules M: ; end", 1);
        refused(4, "mechanism m: f; input: ~f; rules M: ; end", 1);
        accepted("output: f; mechanism m: f; mechanism m: g; rules M: .f f g; end", &[5, 0, 256, 257, 9], true);
        accepted("input: M; rules M: M; end", &[3, 0, 9], true);
        refused(4, "mechanism m: f; type t: v; rules ~f >> t: >> v; end", 1);
        refused(5, "type t: v; rules ~f >> t: >> v; end", 1);
        refused(6, "input: a 'x'; rules M: [ | a: | ~'x': ]; end", 3);
        let many = "a,".repeat(64);
        refused(9, &format!("input: a; rules M: [ | {many}~a: ]; end"), 1);
        refused(8, "type t: v; rules M: ; N >> t: { >> v > } ~; end", 1);
        accepted("type t: v; rules M: ; N >> t: { { > } }; end", &[9, 1, 3, 2, 3, 2, 5], false);
        accepted("type t: v; rules M: ; N >> t: >> v ? ; end", &[9, 10, 0, 9, 4], true);
        refused(8, "type t: v; rules M: ; N >> t: ~; end", 1);
        refused(8, "type t: v; rules M: ; N >> t: ~>>; end", 2);
        refused(4, "type t: v; type ~t: v; rules M: ; end", 1);
        refused(4, "type t: v ~v; rules M: ; end", 1);
        refused(4, "type t: v = 1 w = 0 ~x; rules M: ; end", 1);
        refused(4, "rules M: ; ~M: ; end", 1);
        refused(5, "type t: v; mechanism m: f(t); rules M: ~f; end", 1);
        refused(5, "type t: v; mechanism m: f; rules M: f~(v); end", 1);
        refused(5, "type t: v; mechanism m: f>>t; rules M: ~f; end", 1);
        refused(5, "type t: v; mechanism m: f; rules M: [~f|*:]; end", 1);
        refused(5, "type t: v; mechanism m: f(t)>>t; rules M: [~f|*:]; end", 1);
        refused(5, "type t: v; mechanism m: f>>t; rules M: [f~(v)|*:]; end", 1);
        refused(5, "rules M: [@~M|*:]; end", 1);
        refused(5, "type t: v; rules M: @~N; N>>t: >>v; end", 1);
        refused(5, "rules M: ~M; end", 1);
        refused(3, "rules M: ~x; end", 1);
        refused(5, "output: o; rules M: ~o; end", 1);
    }

    #[test]
    fn tables() {
        // A rule choice without otherwise: the alternatives at 5 and 8, the count at 10, endChoice at 15, N at 17.
        let text = "type t: v w; rules M: [@N | w: ? | v: ]; N >> t: >> w; end";
        accepted(text, &[8, 17, 11, 6, 4, 1, 9, 1, 7, 2, 1, 7, 0, 6, 12, 9, 10, 1, 9], true);
        // All four kinds of operations; a choice operation with a parameter and otherwise.
        let text = "type t: v w; mechanism m: a b(t) c>>t d(t)>>t e; rules M: e b(w) [d(w) | v, w: | *: a]; end";
        accepted(text, &[257, 13, 1, 512, 13, 1, 1024, 11, 3, 1, 7, 2, 0, 4, 1, 6, 256, 9], true);
        // A cycle in an alternative in a cycle: each `>` leaves its own.
        let text = "input: a; rules M: { [ | a: { > } > ] }; end";
        accepted(text, &[7, 9, 1, 3, 2, 3, 1, 12, 1, 8, 1, 0, 10, 3, 0, 2, 14, 2, 18, 9], true);
    }

    #[test]
    fn verdicts() {
        verdict("M: >> { };", false);
        verdict("M: ; N: { };", false);
        verdict("M: >> @M;", true);
        verdict("M: { [ | a: | b: ] };", true);
        verdict("M: { [ | a: | *: ] };", false);
        verdict("M: { [ | a: | *: > ] };", true);
        verdict("M: { { > } };", false);
        verdict("M: { @N }; N: { ? };", true);
        verdict("M: { @N }; N: [ | a: @N | *: ];", false);
        verdict("M: @N; N: @M;", false);
        verdict("M: @N; N: ? @M;", true);
        verdict("M: f @N; N: f @K ? ; K: f @N;", false);
        verdict("M: [@N | v: ]; N >> t: [@N | v: >> v | w: >> w];", false);
        verdict("M: { [@N | v: | w: ?] }; N >> t: >> w;", true);
        verdict("M: { [@N | v: | w: ?] }; N >> t: >> v;", false);
        verdict("M: { [@N | v: ? | w: ?] }; N >> t: >> w;", true);
        verdict("M: { [@N | v: | w: ?] }; N >> t: ? >> w;", true);
        verdict("M: { [c | v: > | w: ] };", false);
        verdict("M: { [c | v: > | w: >> ] };", true);
    }

    #[test]
    fn the_buffer() {
        let text = b"rules M: { } ; end";
        let answer = process(text, 2);
        assert_eq!(answer, Answer::Refused { number: 20, start: 18, len: 0 });
        let mut bytes = [7; 5];
        lent(&answer, &mut bytes);
        assert_eq!(bytes, [0, 0, 0, 0, 7]);
        let answer = process(text, 4);
        let mut bytes = [7; 9];
        lent(&answer, &mut bytes);
        assert_eq!(bytes, [0, 2, 0, 1, 0, 9, 0, 0, 7]);
        // 3 to 8 come before 20.
        assert_eq!(process(b"rules M: > ; end", 0), Answer::Refused { number: 7, start: 9, len: 1 });
    }

    #[test]
    fn limits() {
        let nest = |n: usize| format!("rules M: {} {}; end", "{".repeat(n), "}".repeat(n));
        assert!(matches!(process(nest(32).as_bytes(), 4096), Answer::Accepted { .. }));
        assert_eq!(process(nest(33).as_bytes(), 4096), Answer::Refused { number: 9, start: 9 + 32, len: 1 });
        let words = |n: usize| format!("rules M: {}; end", "?".repeat(n - 1));
        assert!(matches!(process(words(4096).as_bytes(), 5000), Answer::Accepted { .. }));
        let text = words(4097);
        assert_eq!(process(text.as_bytes(), 5000), Answer::Refused { number: 20, start: text.len(), len: 0 });
        let text = format!("input: a; rules M: {}; end", "[|a:]".repeat(6500));
        assert_eq!(process(text.as_bytes(), 70_000), Answer::Refused { number: 20, start: text.len(), len: 0 });
        let list = |stem: &str, n: usize, tail: &str| (0..n).map(|i| format!("{stem}{i}{tail} ")).collect::<String>();
        let rules = |n: usize| format!("rules {}end", list("r", n, ":;"));
        assert!(matches!(process(rules(128).as_bytes(), 4096), Answer::Accepted { .. }));
        refused(9, &format!("rules {}~x $", list("r", 128, ":;")), 1);
        refused(9, &format!("input: {} ~x $", list("a", 512, "")), 1);
        refused(9, &format!("input: {} ; type ~x $", list("a", 512, "")), 1);
        refused(2, &format!("input: {} ; mechanism x ~x $", list("a", 512, "")), 1);
        refused(9, &format!("input: {} ; rules ~x $", list("a", 512, "")), 1);
        // Operations of each kind; R9.
        for (tail, more) in [("", ""), ("(t)", "(t)"), (">>t", ">>t"), ("(t)>>t", "(t)>>t")] {
            let head = format!("type t: v; mechanism m: {}", list("f", 256, tail));
            refused(9, &format!("{head} ~g{more} $"), 1);
            let good = format!("{head}; rules M: ; end");
            assert!(matches!(process(good.as_bytes(), 4096), Answer::Accepted { .. }));
        }
        let head = format!("type t: v; mechanism m: {}", list("f", 256, ""));
        refused(2, &format!("{head} g(~;"), 1);
        refused(2, &format!("{head} g>>~;"), 1);
        refused(9, &format!("{head} g(t) ~h;"), 1);
        let labels = |n: usize| list("a", n, ",").trim_end().trim_end_matches(',').to_string();
        let choice = |n: usize| format!("input: {}; rules M: [ | {}: ]; end", list("a", n, ""), labels(n));
        assert!(matches!(process(choice(64).as_bytes(), 4096), Answer::Accepted { .. }));
        assert!(matches!(process(choice(65).as_bytes(), 4096), Answer::Refused { number: 9, len: 3, .. }));
    }
}
