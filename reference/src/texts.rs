//! Texts of programs from a seed: good ones of every shape and damaged ones.

use crate::processor::{Act, By, Program};
use crate::rules;

/// A linear generator with its high bits mixed down.
#[derive(Clone)]
pub struct Seed(u64);

impl Seed {
    pub fn new(seed: u64) -> Seed {
        let mut seed = Seed(seed.wrapping_mul(0x9E37_79B9_7F4A_7C15) ^ 0x5851_F42D_4C95_7F2D);
        (0..4).for_each(|_| _ = seed.draw());
        seed
    }

    pub fn draw(&mut self) -> u64 {
        self.0 = self.0.wrapping_mul(6_364_136_223_846_793_005).wrapping_add(1_442_695_040_888_963_407);
        let mixed = (self.0 ^ (self.0 >> 29)).wrapping_mul(0xBF58_476D_1CE4_E5B9);
        mixed ^ (mixed >> 32)
    }

    pub fn below(&mut self, bound: usize) -> usize {
        if bound == 0 { 0 } else { (self.draw() % bound as u64) as usize }
    }

    pub fn one_in(&mut self, n: usize) -> bool {
        self.below(n) == 0
    }

    /// A number from `low` to `high`, both included.
    pub fn within(&mut self, low: usize, high: usize) -> usize {
        low + self.below(high - low + 1)
    }

    pub fn of<'a, T>(&mut self, items: &'a [T]) -> &'a T {
        let index = self.below(items.len());
        &items[index]
    }

    pub fn fill(&mut self, bytes: &mut [u8]) {
        for chunk in bytes.chunks_mut(8) {
            chunk.copy_from_slice(&self.draw().to_le_bytes()[..chunk.len()]);
        }
    }
}

pub type Words = Vec<Vec<u8>>;

const NAMES: [&str; 16] = ["a", "b", "c", "d", "e", "f", "g", "x", "y", "t", "u", "M", "N", "R", "a1", "B_"];
const STRINGS: [&str; 9] = ["'a'", "'b'", "'x'", "';'", "'>>'", "'if'", "' '", "'%'", "'% a'"];
pub const VOCABULARY: [&str; 46] = [
    ":",
    ";",
    ",",
    "=",
    "(",
    ")",
    "[",
    "]",
    "{",
    "}",
    "|",
    "*",
    "?",
    ".",
    "#",
    "@",
    ">",
    ">>",
    "do",
    "od",
    "if",
    "fi",
    "!",
    "input",
    "output",
    "error",
    "type",
    "mechanism",
    "rules",
    "end",
    "0",
    "1",
    "2",
    "65535",
    "65536",
    "007",
    "a",
    "b",
    "x",
    "M",
    "zz",
    "'a'",
    "'zz'",
    "%\n",
    "n1234567890123456789012345678901",
    "n12345678901234567890123456789012",
];

struct Token {
    name: String,
    string: Option<String>,
    value: usize,
}

struct Operation {
    name: String,
    parameter: Option<usize>,
    result: Option<usize>,
}

struct Maker<'a> {
    seed: &'a mut Seed,
    words: Words,
    input: Vec<Token>,
    output: Vec<Token>,
    errors: Vec<Token>,
    types: Vec<(String, Vec<String>)>,
    operations: Vec<Operation>,
    rules: Vec<(String, Option<usize>)>,
    fuel: usize,
}

/// A word, now and then in its other spelling.
pub fn spelled(seed: &mut Seed, word: &str) -> Vec<u8> {
    let other = match word {
        "{" => "do",
        "}" => "od",
        "[" => "if",
        "]" => "fi",
        "|" => "!",
        _ => word,
    };
    let word = if seed.one_in(12) { other } else { word };
    word.as_bytes().to_vec()
}

/// The words of a good program; `size` is about the number of its actions.
pub fn good(seed: &mut Seed, size: usize) -> Words {
    let mut maker = Maker {
        seed,
        words: Vec::new(),
        input: Vec::new(),
        output: Vec::new(),
        errors: Vec::new(),
        types: Vec::new(),
        operations: Vec::new(),
        rules: Vec::new(),
        fuel: size,
    };
    let sections = 1 + maker.seed.below(2 + size.min(12) / 2);
    for _ in 0..sections {
        maker.section();
    }
    maker.program();
    maker.words
}

impl Maker<'_> {
    fn put(&mut self, word: &str) {
        let word = spelled(self.seed, word);
        self.words.push(word);
    }

    /// A name that is none of those.
    fn fresh(&mut self, taken: &dyn Fn(&Self, &str) -> bool) -> Option<String> {
        (0..8).find_map(|_| {
            let name = self.seed.of(&NAMES).to_string();
            (!taken(self, &name)).then_some(name)
        })
    }

    fn section(&mut self) {
        let entries = 1 + self.seed.below(3);
        let mark = self.words.len();
        let head = self.seed.below(8);
        let mut made = 0;
        match head {
            0..=3 => {
                let (input, output) = [(true, false), (true, false), (false, true), (true, true)][head];
                if input {
                    self.put("input");
                }
                if output {
                    self.put("output");
                }
                self.put(":");
                let greatest = |tokens: &[Token]| tokens.iter().map(|token| token.value + 1).max().unwrap_or(0);
                let mut next = 0;
                if input {
                    next = greatest(&self.input);
                }
                if output {
                    next = next.max(greatest(&self.output));
                }
                for _ in 0..entries {
                    let Some(name) = self.fresh(&|maker, name| {
                        input && maker.input.iter().any(|token| token.name == name)
                            || output && maker.output.iter().any(|token| token.name == name)
                            || input && maker.operations.iter().any(|operation| operation.name == name)
                    }) else {
                        continue;
                    };
                    let string = self.seed.of(&STRINGS).to_string();
                    let has = |tokens: &[Token]| tokens.iter().any(|token| token.string.as_ref() == Some(&string));
                    let string =
                        (!(input && has(&self.input) || output && has(&self.output)) && self.seed.one_in(3)).then_some(string);
                    self.put(&name.clone());
                    if let Some(string) = &string {
                        self.put(&string.clone());
                    }
                    let used: Vec<usize> = [(input, &self.input), (output, &self.output)]
                        .iter()
                        .filter(|(feeds, _)| *feeds)
                        .flat_map(|(_, tokens)| tokens.iter().map(|token| token.value))
                        .collect();
                    let value = self.value(next, &used);
                    next = value + 1;
                    if input {
                        self.input.push(Token { name: name.clone(), string: string.clone(), value });
                    }
                    if output {
                        self.output.push(Token { name, string, value });
                    }
                    made += 1;
                }
            }
            4 => {
                self.put("error");
                self.put(":");
                let mut next = self.errors.iter().map(|error| error.value + 1).max().unwrap_or(0);
                for _ in 0..entries {
                    let Some(name) = self.fresh(&|maker, name| maker.errors.iter().any(|error| error.name == name)) else {
                        continue;
                    };
                    self.put(&name.clone());
                    let used: Vec<usize> = self.errors.iter().map(|error| error.value).collect();
                    let value = self.value(next, &used);
                    next = value + 1;
                    self.errors.push(Token { name, string: None, value });
                    made += 1;
                }
            }
            5 => {
                let Some(of) = self.fresh(&|maker, name| maker.types.iter().any(|(of, _)| of == name)) else { return };
                self.put("type");
                self.put(&of.clone());
                self.put(":");
                let mut names: Vec<String> = Vec::new();
                let mut used = Vec::new();
                let mut next = 0;
                for _ in 0..entries {
                    let Some(name) = self.fresh(&|_, name| names.iter().any(|other| other == name)) else { continue };
                    self.put(&name.clone());
                    let value = self.value(next, &used);
                    used.push(value);
                    next = value + 1;
                    names.push(name);
                    made += 1;
                }
                if made > 0 {
                    self.types.push((of, names));
                }
            }
            _ => {
                self.put("mechanism");
                let name = self.seed.of(&NAMES).to_string();
                self.put(&name);
                self.put(":");
                for _ in 0..entries {
                    let Some(name) = self.fresh(&|maker, name| {
                        maker.operations.iter().any(|operation| operation.name == name)
                            || maker.input.iter().any(|token| token.name == name)
                    }) else {
                        continue;
                    };
                    self.put(&name.clone());
                    let types = self.types.len();
                    let some = |seed: &mut Seed| (types > 0 && seed.one_in(2)).then(|| seed.below(types));
                    let (parameter, result) = (some(self.seed), some(self.seed));
                    if let Some(of) = parameter {
                        self.put("(");
                        self.put(&self.types[of].0.clone());
                        self.put(")");
                    }
                    if let Some(of) = result {
                        self.put(">>");
                        self.put(&self.types[of].0.clone());
                    }
                    self.operations.push(Operation { name, parameter, result });
                    made += 1;
                }
            }
        }
        if made == 0 {
            self.words.truncate(mark);
        } else {
            self.put(";");
        }
    }

    /// A value that is not used: the next, or one that is set.
    fn value(&mut self, next: usize, used: &[usize]) -> usize {
        if !self.seed.one_in(5) && !used.contains(&next) && next < 65_536 {
            return next;
        }
        let mut value = *self.seed.of(&[0, 1, 2, 3, 5, 9, 40, 65_534, 65_535, 300]);
        while used.contains(&value) {
            value = self.seed.below(1000);
        }
        self.put("=");
        let zeros = if self.seed.one_in(8) { "00" } else { "" };
        self.put(&format!("{zeros}{value}"));
        value
    }

    fn program(&mut self) {
        self.put("rules");
        let count = 1 + self.seed.below(4);
        for i in 0..count {
            let Some(name) = self.fresh(&|maker, name| {
                maker.operations.iter().any(|operation| operation.name == name)
                    || maker.rules.iter().any(|(rule, _)| rule == name)
            }) else {
                if i == 0 {
                    self.rules.push(("First".to_string(), None));
                }
                continue;
            };
            let types = self.types.len();
            let of = (i > 0 && types > 0 && self.seed.one_in(2)).then(|| self.seed.below(types));
            self.rules.push((name, of));
        }
        for (name, of) in self.rules.iter().map(|(name, of)| (name.clone(), *of)).collect::<Vec<_>>() {
            self.put(&name);
            if let Some(of) = of {
                self.put(">>");
                self.put(&self.types[of].0.clone());
            }
            self.put(":");
            self.list(4, false, of);
            if let Some(of) = of {
                match self.seed.below(5) {
                    0 => {
                        self.put("{");
                        self.list(3, false, Some(of));
                        self.put("}");
                    }
                    1 => {
                        // All alternatives return.
                        self.put("[");
                        let alternatives = self.labels(None);
                        for labels in &alternatives {
                            self.alternative(labels);
                            self.list(2, false, Some(of));
                            self.result(of);
                        }
                        if alternatives.is_empty() || self.seed.one_in(2) {
                            self.alternative(&[]);
                            self.list(2, false, Some(of));
                            self.result(of);
                        }
                        self.put("]");
                    }
                    _ => self.result(of),
                }
                if self.seed.one_in(6) {
                    self.list(1, false, Some(of));
                }
            }
            self.put(";");
        }
        self.put("end");
    }

    fn result(&mut self, of: usize) {
        self.put(">>");
        let name = self.seed.of(&self.types[of].1).clone();
        self.put(&name);
    }

    fn token(&mut self, output: bool) -> bool {
        let tokens = if output { &self.output } else { &self.input };
        if tokens.is_empty() {
            return false;
        }
        let token = self.seed.of(tokens);
        let word = token.string.clone().filter(|_| self.seed.one_in(2)).unwrap_or(token.name.clone());
        if output {
            self.put(".");
        }
        self.put(&word);
        true
    }

    fn list(&mut self, depth: usize, cycle: bool, of: Option<usize>) {
        for _ in 0..self.seed.below(4) {
            if self.fuel == 0 {
                return;
            }
            self.fuel -= 1;
            self.action(depth, cycle, of);
        }
    }

    fn action(&mut self, depth: usize, cycle: bool, of: Option<usize>) {
        match self.seed.below(16) {
            0 | 1 if self.token(false) => {}
            2 if self.token(true) => {}
            3 if !self.errors.is_empty() => {
                let name = self.seed.of(&self.errors).name.clone();
                self.put("#");
                self.put(&name);
            }
            4 | 5 => {
                let procedures: Vec<String> =
                    self.rules.iter().filter(|(_, of)| of.is_none()).map(|(name, _)| name.clone()).collect();
                let name = self.seed.of(&procedures).clone();
                self.put("@");
                self.put(&name);
            }
            6 | 7 => {
                let updates: Vec<usize> = (0..self.operations.len()).filter(|i| self.operations[*i].result.is_none()).collect();
                if updates.is_empty() {
                    self.put("?");
                    return;
                }
                let update = *self.seed.of(&updates);
                self.operation(update);
            }
            8 if cycle => self.put(">"),
            9 if self.seed.one_in(3) => match of {
                None => {
                    self.put(">>");
                    // What follows must be no name or string.
                    self.put("?");
                }
                Some(of) => self.result(of),
            },
            10..=12 if depth > 0 => {
                self.put("{");
                self.list(depth - 1, true, of);
                if self.seed.one_in(2) && self.fuel > 0 {
                    self.fuel -= 1;
                    self.choice(depth - 1, true, of);
                }
                self.put("}");
            }
            13..=15 if depth > 0 => self.choice(depth - 1, cycle, of),
            _ => self.put("?"),
        }
    }

    fn operation(&mut self, index: usize) {
        self.put(&self.operations[index].name.clone());
        if let Some(of) = self.operations[index].parameter {
            let constant = self.seed.of(&self.types[of].1).clone();
            self.put("(");
            self.put(&constant);
            self.put(")");
        }
    }

    fn choice(&mut self, depth: usize, cycle: bool, of: Option<usize>) {
        self.put("[");
        let mut by = None;
        match self.seed.below(3) {
            0 => {
                let rules: Vec<(String, usize)> =
                    self.rules.iter().filter_map(|(name, of)| of.map(|of| (name.clone(), of))).collect();
                if !rules.is_empty() {
                    let (name, of) = self.seed.of(&rules).clone();
                    self.put("@");
                    self.put(&name);
                    by = Some(of);
                }
            }
            1 => {
                let choosers: Vec<usize> = (0..self.operations.len()).filter(|i| self.operations[*i].result.is_some()).collect();
                if !choosers.is_empty() {
                    let index = *self.seed.of(&choosers);
                    by = self.operations[index].result;
                    self.operation(index);
                }
            }
            _ => {}
        }
        let alternatives = self.labels(by);
        for labels in &alternatives {
            self.alternative(labels);
            self.list(depth, cycle, of);
        }
        if alternatives.is_empty() || self.seed.one_in(2) {
            self.alternative(&[]);
            self.list(depth, cycle, of);
            if cycle && self.seed.one_in(2) {
                self.put(">");
            }
        }
        self.put("]");
    }

    /// No labels are otherwise.
    fn alternative(&mut self, labels: &[String]) {
        self.put("|");
        for (i, label) in labels.iter().enumerate() {
            if i > 0 {
                self.put(",");
            }
            self.put(label);
        }
        if labels.is_empty() {
            self.put("*");
        }
        self.put(":");
    }

    /// Labels of a type or of the input tokens, in groups.
    fn labels(&mut self, by: Option<usize>) -> Vec<Vec<String>> {
        let mut all: Vec<String> = match by {
            Some(of) => self.types[of].1.clone(),
            None => {
                let tokens = &self.input;
                let seed = &mut self.seed;
                tokens.iter().map(|token| token.string.clone().filter(|_| seed.one_in(2)).unwrap_or(token.name.clone())).collect()
            }
        };
        for i in (1..all.len()).rev() {
            all.swap(i, self.seed.below(i + 1));
        }
        all.truncate(self.seed.below(all.len() + 1));
        let mut groups = Vec::new();
        while !all.is_empty() {
            let keep = self.seed.below(all.len().min(3));
            groups.push(all.split_off(keep));
        }
        groups
    }
}

/// Changes a few words.
pub fn mutate(seed: &mut Seed, words: &mut Words) {
    let named = |word: &Vec<u8>| word.first().is_some_and(|byte| byte.is_ascii_alphabetic() || *byte == b'\'');
    for _ in 0..1 + seed.below(2) {
        if words.is_empty() {
            return;
        }
        let at = seed.below(words.len());
        let other = words[seed.below(words.len())].clone();
        match seed.below(12) {
            0 => _ = words.remove(at),
            1 => words.insert(at, other),
            2 => words.insert(at, seed.of(&VOCABULARY).as_bytes().to_vec()),
            3 => words[at] = seed.of(&VOCABULARY).as_bytes().to_vec(),
            4 => {
                let to = seed.below(words.len());
                words.swap(at, to);
            }
            5 if at + 1 < words.len() => words.swap(at, at + 1),
            6 => {
                // A part once more.
                let to = (at + 1 + seed.below(6)).min(words.len());
                let part: Words = words[at..to].to_vec();
                let place = seed.below(words.len() + 1);
                words.splice(place..place, part);
            }
            _ => {
                // A name or string for another: mostly still a program.
                let names: Vec<usize> = (0..words.len()).filter(|i| named(&words[*i])).collect();
                if names.is_empty() {
                    continue;
                }
                let at = *seed.of(&names);
                words[at] = match seed.below(4) {
                    0 => seed.of(&NAMES).as_bytes().to_vec(),
                    1 => seed.of(&STRINGS).as_bytes().to_vec(),
                    _ => words[*seed.of(&names)].clone(),
                };
            }
        }
    }
}

/// Changes a few bytes.
pub fn damage(seed: &mut Seed, text: &mut Vec<u8>) {
    for _ in 0..1 + seed.below(2) {
        let at = seed.below(text.len() + 1);
        let byte = match seed.below(3) {
            0 => seed.draw() as u8,
            _ => *seed.of(b"'%_$\n\r\t \0\"\\+<>!*:;|aZ09\x0c\xff"),
        };
        match seed.below(4) {
            0 if at < text.len() => _ = text.remove(at),
            1 if at < text.len() => text[at] = byte,
            2 => text.truncate(at),
            _ => text.insert(at, byte),
        }
    }
}

/// The text ended before a byte of it, and the text with that byte left out, put in twice, another put in before it, replaced by the other,
/// and with one of its bits changed.
pub fn damaged_at(text: &[u8], at: usize, other: u8, bit: usize) -> [Vec<u8>; 6] {
    let with = |to: usize, bytes: &[u8]| [&text[..at], bytes, &text[to..]].concat();
    let byte = text[at];
    let flipped = byte ^ (1 << bit);
    [
        text[..at].to_vec(),
        with(at + 1, &[]),
        with(at, &[byte]),
        with(at, &[other]),
        with(at + 1, &[other]),
        with(at + 1, &[flipped]),
    ]
}

/// The words with something between them where that is needed, and now and then where it is not.
pub fn join(seed: &mut Seed, words: &Words) -> Vec<u8> {
    placed(seed, words).0
}

/// Such a text, with the place of each word.
pub fn placed(seed: &mut Seed, words: &Words) -> (Vec<u8>, Vec<usize>) {
    let mut text: Vec<u8> = Vec::new();
    let mut places = Vec::new();
    let loose = 2 + seed.below(30);
    for word in words {
        let last = text.last().copied().unwrap_or(b' ');
        let first = word.first().copied().unwrap_or(b' ');
        let name = |byte: u8| byte.is_ascii_alphanumeric() || byte == b'_';
        if name(last) && name(first) || last == b'>' && first == b'>' || seed.one_in(loose) {
            let gaps = [" ", " ", " ", " ", "\n", "\t", "\r", "%'\n", "% end\r\n", " \n "];
            text.extend_from_slice(seed.of(&gaps).as_bytes());
        }
        places.push(text.len());
        text.extend_from_slice(word);
    }
    if seed.one_in(8) {
        text.extend_from_slice(seed.of(&["\n", " ", "%", "%end"]).as_bytes());
    }
    (text, places)
}

/// A text: good, with words changed, or with bytes changed.
pub fn text(seed: &mut Seed, size: usize) -> Vec<u8> {
    let mut words = good(seed, size);
    let sort = seed.below(10);
    if sort >= 3 {
        mutate(seed, &mut words);
    }
    let mut text = join(seed, &words);
    if sort == 9 {
        damage(seed, &mut text);
    }
    text
}

/// Tokens and answers that lead the rules' own walk on: where it stops for want of one, that one is found or made up.
pub fn lead(seed: &mut Seed, program: &Program) -> (Vec<u16>, Vec<u16>) {
    let mut wanted = Vec::new();
    let mut values = Vec::new();
    for rule in &program.rules {
        mentioned(&rule.acts, &mut wanted, &mut values);
    }
    wanted.push(77);
    values.push(78);
    let mut tokens: Vec<u16> = (0..seed.below(6)).map(|_| *seed.of(&wanted)).collect();
    let mut answers: Vec<u16> = Vec::new();
    for _ in 0..seed.below(30) {
        let end = rules::walk(program, &tokens, &answers, 0, 400);
        let read = end.read as usize;
        match end.reason {
            Some(30) => {
                tokens.truncate(read);
                let mut tries = wanted.clone();
                while !tries.is_empty() {
                    let token = tries.swap_remove(seed.below(tries.len()));
                    tokens.truncate(read);
                    tokens.push(token);
                    if rules::walk(program, &tokens, &answers, 0, 400).read as usize > read {
                        break;
                    }
                }
            }
            Some(31) => tokens.push(*seed.of(&wanted)),
            Some(34) => answers.push(*seed.of(&values)),
            _ => break,
        }
    }
    if seed.one_in(4) {
        tokens.truncate(seed.below(tokens.len() + 1));
    }
    if seed.one_in(4) {
        answers.truncate(seed.below(answers.len() + 1));
    }
    (tokens, answers)
}

/// Tokens and answers: ones that lead on, or any.
pub fn feed(seed: &mut Seed, program: &Program) -> (Vec<u16>, Vec<u16>) {
    let (mut tokens, mut answers) = lead(seed, program);
    if seed.one_in(4) {
        tokens.extend((0..seed.below(20)).map(|_| seed.below(6) as u16));
    }
    if seed.one_in(3) {
        answers.extend((0..seed.below(20)).map(|_| seed.below(5) as u16));
    }
    if seed.one_in(6) && !tokens.is_empty() {
        let at = seed.below(tokens.len());
        tokens[at] = seed.draw() as u16;
    }
    if seed.one_in(3) && !answers.is_empty() {
        let at = seed.below(answers.len());
        answers[at] = seed.draw() as u16;
    }
    if seed.one_in(4) {
        answers.truncate(seed.below(answers.len() + 1));
    }
    (tokens, answers)
}

fn mentioned(acts: &[Act], tokens: &mut Vec<u16>, values: &mut Vec<u16>) {
    for act in acts {
        match act {
            Act::Match(token) => tokens.push(*token),
            Act::Cycle(acts) => mentioned(acts, tokens, values),
            Act::Choice(choice) => {
                for (labels, acts) in &choice.alternatives {
                    if choice.by == By::Token {
                        tokens.extend(labels)
                    } else {
                        values.extend(labels)
                    }
                    mentioned(acts, tokens, values);
                }
                if let Some(acts) = &choice.otherwise {
                    mentioned(acts, tokens, values);
                }
            }
            _ => {}
        }
    }
}

#[cfg(test)]
pub mod tests {
    use super::*;
    use crate::processor::{Answer, MAX_TABLE, process, resolve};
    use crate::walker;
    use std::collections::BTreeMap;

    /// How often texts of a sort are answered with each number where so many words are lent; 100 and 101 are the verdicts.
    pub fn numbers_met(text: fn(&mut Seed, usize) -> Vec<u8>, texts: u64, room_words: usize) -> BTreeMap<u16, usize> {
        let mut met = BTreeMap::new();
        for n in 0..texts {
            let mut seed = Seed::new(n ^ 0xABCD_0000);
            let text = text(&mut seed, 4 + n as usize % 20);
            let number = match process(&text, room_words) {
                Answer::Accepted { finishing, .. } => 100 + u16::from(finishing),
                Answer::Refused { number, start, len } => {
                    assert!(start + len <= text.len() && (len > 0 || start == text.len()));
                    number
                }
            };
            *met.entry(number).or_default() += 1;
        }
        met
    }

    #[test]
    fn good_texts_are_accepted() {
        for n in 0..3_000 {
            let mut seed = Seed::new(n);
            let words = good(&mut seed, 4 + n as usize % 60);
            let text = join(&mut seed, &words);
            let shown = String::from_utf8_lossy(&text);
            assert!(
                matches!(process(&text, MAX_TABLE), Answer::Accepted { .. }),
                "{n}: {shown}\n{:?}",
                process(&text, MAX_TABLE)
            );
        }
    }

    #[test]
    fn every_number_is_met() {
        let met = numbers_met(text, 20_000, 60);
        let numbers: Vec<u16> = met.keys().copied().collect();
        assert_eq!(numbers, [1, 2, 3, 4, 5, 6, 7, 8, 9, 20, 100, 101], "{met:?}");
    }

    /// The rules' own walk and the walker over the table give the same reason, events, tokens read and answers used.
    #[test]
    fn rules_and_tables_walk_alike() {
        let mut met: BTreeMap<u16, usize> = BTreeMap::new();
        let bytes = |words: &[u16]| words.iter().flat_map(|word| word.to_be_bytes()).collect::<Vec<u8>>();
        for n in 0..6_000 {
            let mut seed = Seed::new(n ^ 0x1234_0000);
            let words = good(&mut seed, 6 + n as usize % 80);
            let text = join(&mut seed, &words);
            let Answer::Accepted { table, .. } = process(&text, MAX_TABLE) else { panic!("{n}") };
            let program = resolve(&text).expect("accepted");
            let (tokens, answers) = lead(&mut seed, &program);
            let allowance = if seed.one_in(2) { 0 } else { seed.below(40) as u16 };
            let end = rules::walk(&program, &tokens, &answers, allowance, 1_500);
            let mut events = vec![0; 6 * 1_600];
            let mut walk = walker::Walk::mending(allowance);
            let done = walker::whole(&bytes(&table), &bytes(&tokens), &bytes(&answers), 6_000, &mut walk, &mut events);
            let written = done.written as usize;
            let Some(reason) = end.reason else {
                // Neither stops: events agree as far as both go.
                assert!(matches!(done.number, 35 | 36), "{n}");
                let written = &events[..6 * written.min(end.events.len())];
                assert_eq!(written, &bytes(&end.events.concat())[..written.len()], "{n}");
                *met.entry(99).or_default() += 1;
                continue;
            };
            assert_eq!(
                (done.number, walk.read, walk.used, walk.allowance),
                (reason, end.read, end.used, end.allowance),
                "{n}: {}",
                String::from_utf8_lossy(&text)
            );
            assert_eq!(written, end.events.len(), "{n}");
            assert_eq!(events[..6 * written], bytes(&end.events.concat()), "{n}");
            *met.entry(reason).or_default() += 1;
        }
        let reasons: Vec<u16> = met.keys().copied().collect();
        assert_eq!(reasons, [0, 30, 31, 32, 33, 34, 99], "{met:?}");
    }

    /// A program that is finishing stops.
    #[test]
    fn finishing_programs_stop() {
        for n in 0..8_000 {
            let mut seed = Seed::new(n ^ 0x7777_0000);
            let words = good(&mut seed, 6 + n as usize % 20);
            let text = join(&mut seed, &words);
            let Answer::Accepted { finishing, .. } = process(&text, MAX_TABLE) else { panic!("{n}") };
            if !finishing {
                continue;
            }
            let program = resolve(&text).expect("accepted");
            let (tokens, answers) = lead(&mut seed, &program);
            let allowance = if seed.one_in(2) { 0 } else { seed.below(40) as u16 };
            let end = rules::walk(&program, &tokens, &answers, allowance, 100_000);
            assert!(end.reason.is_some(), "{n}: {}", String::from_utf8_lossy(&text));
        }
    }
}
