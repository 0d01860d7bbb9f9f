//! Texts of programs with operators under precedence, from a seed: good ones, damaged ones, and ones around the limits.

use crate::processor::{Answer, MAX_TABLE, process};
use crate::texts::{self, Seed, Words, spelled};
use std::collections::BTreeSet;

/// Names that are free everywhere but in one place each.
pub const FREE: [&str; 3] = ["operators", "left", "right"];
/// The limits that rules made can pass.
pub const MOST_RULES: usize = 128;
pub const MOST_NAMES: usize = 512;
pub const MOST_LABELS: usize = 64;
/// The highest level.
pub const HIGHEST: usize = 15;

/// Words for damage.
const VOCABULARY: [&str; 20] = [
    "^",
    "^",
    "@",
    "operators",
    "left",
    "right",
    "'left'",
    "0",
    "1",
    "15",
    "16",
    "015",
    "65536",
    ":",
    ";",
    ",",
    "kE",
    "k0",
    "K0",
    "'k0'",
];

fn split(part: &str) -> impl Iterator<Item = &str> {
    part.split_whitespace()
}

fn put(seed: &mut Seed, words: &mut Words, at: usize, part: &str) {
    let part: Words = split(part).map(|word| spelled(seed, word)).collect();
    words.splice(at..at, part);
}

fn rules_at(words: &Words) -> usize {
    words.iter().position(|word| word == b"rules").unwrap_or(0)
}

/// Puts a section before any other, or before `rules`.
pub fn put_section(seed: &mut Seed, words: &mut Words, section: &str) {
    let places: Vec<usize> = (0..=rules_at(words)).filter(|at| *at == 0 || words[at - 1] == b";").collect();
    let at = *seed.of(&places);
    put(seed, words, at, section);
}

/// Puts a rule behind any other but the first.
fn put_rule(seed: &mut Seed, words: &mut Words, rule: &str) {
    let places: Vec<usize> = (rules_at(words) + 2..words.len()).filter(|at| words[at - 1] == b";").collect();
    let at = *seed.of(&places);
    put(seed, words, at, rule);
}

/// Puts `^section @rule` at the start or the end of any list of actions.
pub fn put_use(seed: &mut Seed, words: &mut Words, section: &str, rule: &str) {
    let ends: [&[u8]; 5] = [b"}", b"od", b"]", b"fi", b";"];
    let fits = |at: &usize| words[at - 1] == b":" || ends.contains(&&words[*at][..]);
    let places: Vec<usize> = (rules_at(words) + 2..words.len()).filter(fits).collect();
    let at = *seed.of(&places);
    put(seed, words, at, &format!("^ {section} @ {rule}"));
}

/// A token's name, and whether it has a string.
type Token = (String, bool);

/// A token by its name, or by its string if it has one.
fn token(seed: &mut Seed, (name, string): &Token) -> String {
    if *string && seed.one_in(2) { format!("'{name}'") } else { name.clone() }
}

/// Names with and without a string, the free names among them.
fn tokens(seed: &mut Seed, count: usize) -> Vec<Token> {
    let mut out: Vec<Token> = Vec::new();
    for i in 0..count {
        let name = match FREE.get(i) {
            Some(name) if seed.one_in(2) => name.to_string(),
            _ => format!("k{i}"),
        };
        out.push((name, seed.one_in(3)));
    }
    for i in (1..count).rev() {
        out.swap(i, seed.below(i + 1));
    }
    out
}

fn declared(head: &str, tokens: &[Token]) -> String {
    let entry = |(name, string): &Token| if *string { format!("{name} '{name}'") } else { name.clone() };
    format!("{head} : {} ;", tokens.iter().map(entry).collect::<Vec<String>>().join(" "))
}

/// The entries of a section: tokens at levels of one side each.
fn entries(seed: &mut Seed, inputs: &[Token], outputs: &[Token]) -> String {
    let sort = seed.below(4);
    let sides: Vec<bool> = (0..=HIGHEST).map(|_| seed.one_in(2)).collect();
    let (first, few) = (seed.within(1, HIGHEST), seed.within(1, 4));
    let count = if sort == 0 { inputs.len() } else { seed.within(1, inputs.len()) };
    let mut out = String::new();
    for (i, input) in inputs[..count].iter().enumerate() {
        let level = match sort {
            // All of them, from above or below.
            0 if sides[0] => 1 + i % HIGHEST,
            0 => HIGHEST - i % HIGHEST,
            1 => first,
            2 => 1 + (first + 5 * seed.below(few)) % HIGHEST,
            _ => seed.within(1, HIGHEST),
        };
        let side = if sides[level] { "left" } else { "right" };
        let zeros = if seed.one_in(12) { "00" } else { "" };
        let (input, output) = (token(seed, input), seed.of(outputs).clone());
        out.push_str(&format!("{input} {zeros}{level} {side} {} ", token(seed, &output)));
    }
    out
}

/// A good program of about so many actions, with its tokens, its operand rules, and no section of operators yet.
fn plain(seed: &mut Seed, size: usize) -> (Words, [Vec<Token>; 2], Vec<String>) {
    loop {
        let mut words = texts::good(seed, size);
        let counts = [seed.within(1, 20), seed.within(1, 5)];
        let [inputs, outputs] = counts.map(|count| tokens(seed, count));
        let heads = if seed.one_in(4) { ["input", "input output"] } else { ["input", "output"] };
        let outputs: Vec<Token> = outputs.into_iter().map(|(name, string)| (format!("{name}o"), string)).collect();
        let outputs = if heads[1] == "output" && seed.one_in(2) { tokens(seed, outputs.len()) } else { outputs };
        put_section(seed, &mut words, &declared(heads[0], &inputs));
        put_section(seed, &mut words, &declared(heads[1], &outputs));
        let mut operands = vec![String::from_utf8_lossy(&words[rules_at(&words) + 1]).into_owned()];
        for name in ["K0", "left", "operators"].into_iter().take(seed.below(4)) {
            let body = *seed.of(&["", "?", "[ | * : ? ]", "{ > }"]);
            put_rule(seed, &mut words, &format!("{name} : {body} ;"));
            operands.push(name.to_string());
        }
        if matches!(process(&words.join(&b' '), MAX_TABLE), Answer::Accepted { .. }) {
            return (words, [inputs, outputs], operands);
        }
    }
}

/// The words of a good program with sections of operators anywhere among the others, and with uses of them, or none.
pub fn good(seed: &mut Seed, size: usize) -> Words {
    let (mut words, [inputs, outputs], operands) = plain(seed, size);
    let mut names: Vec<&str> = vec!["kE", "left", "right", "operators", "K0", "k0", "M", "t", "a", "input1"];
    let mut sections = Vec::new();
    for _ in 0..seed.below(4) {
        let name = names.swap_remove(seed.below(names.len()));
        let (first, second) = inputs.split_at(seed.below(inputs.len()));
        let rotated = [second, first].concat();
        let entries = entries(seed, &rotated, &outputs);
        put_section(seed, &mut words, &format!("operators {name} : {entries} ;"));
        sections.push(name);
    }
    // At most 15 rules are made for each use.
    for _ in 0..if sections.is_empty() { 0 } else { seed.below(8) } {
        let (section, operand) = (*seed.of(&sections), seed.of(&operands).clone());
        put_use(seed, &mut words, section, &operand);
    }
    words
}

/// Changes a few words, among them levels, sides and names of sections.
pub fn mutate(seed: &mut Seed, words: &mut Words) {
    let is_side = |word: &[u8]| word == b"left" || word == b"right";
    let side = |at: &usize| *at > 0 && is_side(&words[*at]) && words[at - 1].iter().all(u8::is_ascii_digit);
    let sides: Vec<usize> = (0..words.len()).filter(side).collect();
    let uses: Vec<usize> = (0..words.len().saturating_sub(3)).filter(|at| words[*at] == b"^").collect();
    let at = seed.below(words.len());
    match seed.below(10) {
        0 | 1 if !sides.is_empty() => {
            let at = *seed.of(&sides);
            words[at] = if words[at] == b"left" { b"right".to_vec() } else { b"left".to_vec() };
        }
        2 | 3 if !sides.is_empty() => {
            let at = *seed.of(&sides) - 1;
            let level = if seed.one_in(6) { *seed.of(&[0, 16, 17]) } else { seed.within(1, HIGHEST) };
            words[at] = level.to_string().into_bytes();
        }
        4 if sides.len() > 1 => {
            // A token once more, by its name or string.
            let (from, to) = (*seed.of(&sides) - 2, *seed.of(&sides) - 2);
            words[to] = words[from].clone();
        }
        5 if !uses.is_empty() => {
            // Another section, or another operand rule.
            let (to, part) = (*seed.of(&uses), 1 + 2 * seed.below(2));
            words[to + part] = words[*seed.of(&uses) + 1 + 2 * seed.below(2)].clone();
        }
        6 => words[at] = seed.of(&VOCABULARY).as_bytes().to_vec(),
        7 => words.insert(at, seed.of(&VOCABULARY).as_bytes().to_vec()),
        8 => _ = words.remove(at),
        _ => texts::mutate(seed, words),
    }
}

/// A text with operators: good, with words changed, or with bytes changed.
pub fn text(seed: &mut Seed, size: usize) -> Vec<u8> {
    let mut words = good(seed, size);
    let sort = seed.below(10);
    for _ in 0..if sort < 2 { 0 } else { seed.within(1, 2) } {
        mutate(seed, &mut words);
    }
    let mut text = texts::join(seed, &words);
    if sort == 9 {
        texts::damage(seed, &mut text);
    }
    text
}

/// Names and strings of all classes, and of none.
const ANY: [&str; 16] = ["zz", "'zz'", "x", "'y'", "M", "C", "E", "F", "m", "f", "t", "p", "'p'", "q", "r", "left"];

/// One of the good words, or now and then one of the others.
fn word<'a>(seed: &mut Seed, odd: usize, good: &[&'a str], other: &[&'a str]) -> &'a str {
    let words = if seed.one_in(odd) { other } else { good };
    words[seed.below(words.len())]
}

/// Sections and uses whose words are drawn one by one, most of them good where they stand: the first fault is one of many.
pub fn drawn(seed: &mut Seed) -> Vec<u8> {
    let odd = 6 + seed.below(90);
    let mut out = String::from("input: p 'p' q r 'r' s; output: x y 'y'; type t: v; mechanism m: f g(t); ");
    for section in ["E", "F"] {
        out.push_str(&format!("operators {} : ", word(seed, odd, &[section], &["E", "p", "M", "operators", ";"])));
        for token in ["p", "q", "'r'", "s"].iter().take(seed.within(1, 4)) {
            let input = word(seed, odd, &[token], &ANY);
            let level = word(seed, odd, &["1", "2", "3", "4", "05", "6", "15"], &["0", "16", "65536", "left", "x"]);
            let side = word(seed, odd, &["left", "left", "left", "right"], &["Left", "'left'", "x", "1", "operators"]);
            out.push_str(&format!("{input} {level} {side} {} ", word(seed, odd, &["x", "y", "'y'"], &ANY)));
        }
        out.push_str(word(seed, odd, &["; "], &[", ", "= 1; ", ""]));
    }
    out.push_str("rules M: ");
    for _ in 0..seed.below(4) {
        let (sign, at) = (word(seed, odd, &["^"], &["@", "", ">", "^ ^"]), word(seed, odd, &["@"], &["", ".", "^"]));
        let (section, rule) = (word(seed, odd, &["E", "F"], &ANY), word(seed, odd, &["M", "N"], &ANY));
        let behind = word(seed, odd, &["", "?", "{ > }"], &["(v)", ">", ">> v", "; N: "]);
        out.push_str(&format!("{sign} {section} {at} {rule} {behind} "));
    }
    out.push_str("; N: ; C>>t: >>v; end");
    out.into_bytes()
}

/// A program around the limits that rules made can pass.
pub struct Crowd {
    pub text: Vec<u8>,
    /// The place of the `^` whose rules pass a limit.
    pub past: Option<usize>,
    /// Rules and names, with those made by all uses, and the most operators of a level that is used.
    pub rules: usize,
    pub names: usize,
    pub labels: usize,
}

/// What a crowd is made from.
struct Plan {
    /// The levels of each section, and the operators of each level.
    sections: Vec<Vec<(usize, usize)>>,
    /// A section and one of two operand rules each.
    uses: Vec<(usize, usize)>,
    rules: usize,
    tokens: usize,
}

/// So many that with those made they are below, at or past a limit.
fn near(seed: &mut Seed, most: usize, made: usize) -> usize {
    let all = if seed.one_in(3) { most - 30 } else { seed.within(most - 2, most + 1) };
    all.saturating_sub(made)
}

impl Plan {
    /// Rules, names and operators of a level for themselves.
    fn new(seed: &mut Seed) -> Plan {
        let sections: Vec<Vec<(usize, usize)>> = (0..seed.within(1, 5)).map(|_| levels(seed)).collect();
        let uses: Vec<(usize, usize)> = (0..seed.within(1, 9)).map(|_| (seed.below(sections.len()), seed.below(2))).collect();
        let pairs: BTreeSet<&(usize, usize)> = uses.iter().collect();
        let made = pairs.iter().map(|(section, _)| sections[*section].len()).sum();
        let wanted = sections.iter().map(|levels| levels.iter().map(|(_, count)| count).sum()).max().unwrap_or(1);
        let rules = near(seed, MOST_RULES, made).clamp(3, MOST_RULES);
        let mut plan = Plan { sections, uses, rules, tokens: 0 };
        let beside = plan.names();
        plan.tokens = near(seed, MOST_NAMES, made + beside).clamp(wanted, MOST_NAMES - beside);
        plan
    }

    /// The names of the text: tokens, an output token, sections, rules.
    fn names(&self) -> usize {
        self.tokens + 1 + self.sections.len() + self.rules
    }

    fn head(&self, seed: &mut Seed) -> String {
        let mut text = format!("input: {}; output: x; ", (0..self.tokens).map(|i| format!("k{i} ")).collect::<String>());
        for (i, levels) in self.sections.iter().enumerate() {
            text.push_str(&format!("operators E{i}: {}; ", listed(seed, levels)));
        }
        text
    }
}

/// A program with rules, names and labels below, at or past their limits, each for itself.
pub fn crowd(seed: &mut Seed) -> Crowd {
    let plan = Plan::new(seed);
    let mut text = plan.head(seed) + "rules M: ";
    let (mut rules, mut names, mut labels, mut past) = (plan.rules, plan.names(), 0, None);
    let mut seen: BTreeSet<&(usize, usize)> = BTreeSet::new();
    let (split, mut left) = (seed.below(plan.uses.len()), plan.rules - 2);
    for (i, used) in plan.uses.iter().enumerate() {
        let levels = &plan.sections[used.0];
        if seen.insert(used) {
            rules += levels.len();
            names += levels.len();
            labels = levels.iter().map(|(_, count)| *count).max().unwrap_or(0).max(labels);
        }
        if past.is_none() && (rules > MOST_RULES || names > MOST_NAMES || labels > MOST_LABELS) {
            past = Some(text.len());
        }
        text.push_str(&format!("^E{} @{} {}", used.0, ["N", "M"][used.1], seed.of(&["", "? ", "{ > } "])));
        if i == split {
            // The others stand in another rule.
            text.push_str("; L: ");
            left -= 1;
        }
    }
    text.push_str(&format!("; N: ; {} end", (0..left).map(|i| format!("r{i}: ; ")).collect::<String>()));
    Crowd { text: text.into_bytes(), past, rules, names, labels }
}

/// Levels with their operators, now and then as many as fit in one.
fn levels(seed: &mut Seed) -> Vec<(usize, usize)> {
    let all: Vec<usize> = (1..=HIGHEST).filter(|_| seed.one_in(2)).collect();
    let all = if all.is_empty() || seed.one_in(3) { (1..=HIGHEST).collect() } else { all };
    let crowded = seed.below(4 * all.len());
    let count = |(i, level): (usize, &usize)| (*level, if i == crowded { seed.within(62, 67) } else { seed.within(1, 3) });
    all.iter().enumerate().map(count).collect()
}

fn listed(seed: &mut Seed, levels: &[(usize, usize)]) -> String {
    let mut next = 0;
    let mut out = String::new();
    for (level, count) in levels {
        let side = *seed.of(&["left", "right"]);
        for _ in 0..*count {
            out.push_str(&format!("k{next} {level} {side} x "));
            next += 1;
        }
    }
    out
}

#[cfg(test)]
mod tests {
    use super::*;
    use crate::processor::written_out;
    use crate::texts::tests::numbers_met;
    use std::collections::BTreeMap;

    #[test]
    fn good_texts_are_accepted() {
        let mut used = 0;
        for n in 0..1_000 {
            let mut seed = Seed::new(n);
            let words = good(&mut seed, 4 + n as usize % 60);
            let text = texts::join(&mut seed, &words);
            let answer = process(&text, MAX_TABLE);
            assert!(matches!(answer, Answer::Accepted { .. }), "{n}: {}\n{answer:?}", String::from_utf8_lossy(&text));
            let written = written_out(&text).expect("accepted");
            assert_eq!(process(&written, MAX_TABLE), answer, "{n}: {}", String::from_utf8_lossy(&text));
            used += usize::from(text.contains(&b'^'));
        }
        assert!(used > 500, "{used}");
    }

    #[test]
    fn every_number_is_met() {
        let met = numbers_met(text, 4_000, 150);
        // 6 to 8 are rare here, and planted elsewhere.
        let numbers: Vec<u16> = met.keys().copied().filter(|number| !(6..=8).contains(number)).collect();
        assert_eq!(numbers, [1, 2, 3, 4, 5, 9, 20, 45, 100, 101], "{met:?}");
    }

    #[test]
    fn crowds_are_what_they_say() {
        let mut met: BTreeMap<(bool, bool, bool), usize> = BTreeMap::new();
        for n in 0..600 {
            let Crowd { text, past, rules, names, labels } = crowd(&mut Seed::new(n));
            let answer = process(&text, 70_000);
            let shown = String::from_utf8_lossy(&text);
            match (past, answer) {
                (Some(past), Answer::Refused { number: 9, start, len: 1 }) if start == past => {}
                (None, Answer::Accepted { .. } | Answer::Refused { number: 20, .. }) => {}
                (past, answer) => panic!("{n}: {past:?}, {answer:?}, {rules} rules, {names} names, {labels} labels\n{shown}"),
            }
            *met.entry((rules > MOST_RULES, names > MOST_NAMES, labels > MOST_LABELS)).or_default() += 1;
        }
        assert_eq!(met.len(), 8, "{met:?}");
    }
}
