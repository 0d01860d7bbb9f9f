//! Programs in parts, from a seed: those of the other generators, split, and small ones whose rules are drawn one by one.

use super::MAX_PARTS;
use crate::processor::parts::spellings;
use crate::texts::{Seed, Words, join};

/// A common part and parts.
#[derive(Clone, Debug)]
pub struct Split {
    pub common: Vec<u8>,
    pub parts: Vec<Vec<u8>>,
}

/// The same as words.
#[derive(Clone, Debug)]
pub struct SplitWords {
    pub common: Words,
    pub parts: Vec<Words>,
}

impl SplitWords {
    /// A text, with or without faults, split at its rules into at most so many parts. What stands behind the last semicolon stays
    /// behind it.
    pub fn of(seed: &mut Seed, text: &[u8], most: usize) -> SplitWords {
        let mut common = spellings(text);
        let at = common.iter().position(|word| word == b"rules").unwrap_or(common.len());
        let mut rules: Vec<Words> = Vec::new();
        let behind = common.split_off(at);
        for rule in behind.get(1..).unwrap_or(&[]).split_inclusive(|word| word == b";") {
            rules.push(rule.to_vec());
        }
        let ended = rules.last().is_some_and(|rule| rule.ends_with(&[b";".to_vec()]));
        let last = if ended { Vec::new() } else { rules.pop().unwrap_or_default() };
        common.push(b"rules".to_vec());
        common.extend(lines(seed, &rules));
        common.push(b"end".to_vec());
        let pieces = seed.within(1, most);
        let mut parts: Vec<Words> = partition(seed, &rules, pieces).into_iter().map(|rules| part(rules.concat())).collect();
        let parts_last = parts.last_mut().expect("a part");
        parts_last.pop();
        parts_last.extend(last);
        SplitWords { common, parts }
    }

    /// The texts, with something between the words here and there.
    pub fn joined(&self, seed: &mut Seed) -> Split {
        Split { common: join(seed, &self.common), parts: self.parts.iter().map(|part| join(seed, part)).collect() }
    }
}

impl Split {
    pub fn texts(&self) -> Vec<&[u8]> {
        self.parts.iter().map(Vec::as_slice).collect()
    }
}

fn part(rules: Words) -> Words {
    [vec![b"rules".to_vec()], rules, vec![b"end".to_vec()]].concat()
}

/// A line for each rule with a type, in any order.
fn lines(seed: &mut Seed, rules: &[Words]) -> Words {
    let typed = rules.iter().filter(|rule| rule.len() > 3 && rule[1] == b">>");
    let mut lines: Vec<Words> = typed.map(|rule| [&rule[..3], &[b";".to_vec()]].concat()).collect();
    shuffle(seed, &mut lines);
    lines.concat()
}

fn shuffle<T>(seed: &mut Seed, items: &mut [T]) {
    for i in (1..items.len()).rev() {
        items.swap(i, seed.below(i + 1));
    }
}

/// Items in so many pieces, none of them empty, or in as many as there can be; no items are one piece.
fn partition<T: Clone>(seed: &mut Seed, items: &[T], pieces: usize) -> Vec<Vec<T>> {
    let mut cuts: Vec<usize> = (1..items.len()).collect();
    shuffle(seed, &mut cuts);
    cuts.truncate(pieces - 1);
    cuts.sort_unstable();
    let ends = cuts.iter().copied().chain([items.len()]);
    let starts = [0].into_iter().chain(cuts.iter().copied());
    starts.zip(ends).map(|(from, to)| items[from..to].to_vec()).collect()
}

/// What the rules that are drawn refer to.
const SECTIONS: &str = "input: a b 'b'; output: o 'o'; error: e; type t: y n; type u: z; mechanism m: f g(t) c>>t;
    operators E: a 1 left o; operators F: 'b' 2 right 'o' a 3 left o;";
/// The types, with the labels of choices by them, and their values.
const TYPES: [(&str, &str, &str); 2] = [("t", "| y: | n: ?", "y"), ("u", "| z: .o", "z")];

/// Rules that are drawn: what the list says of each, as an index into the types.
struct Drawn<'a> {
    seed: &'a mut Seed,
    list: Vec<Option<usize>>,
    /// Once in so many a rule is not as it is to be.
    odd: usize,
}

/// Small parts, up to 17, each of which can be translated. Once in so many times a rule is in no part, in two, or of another sort or
/// type than the list says.
pub fn drawn(seed: &mut Seed, odd: usize) -> Split {
    let many = seed.one_in(4);
    let count = if many { seed.within(MAX_PARTS, MAX_PARTS + 4) } else { seed.within(1, 12) };
    let list = (0..count).map(|i| (i > 0 && seed.one_in(3)).then(|| seed.below(TYPES.len()))).collect();
    let mut drawn = Drawn { seed, list, odd };
    let rules = drawn.rules();
    let seed = drawn.seed;
    let pieces = if many { seed.within(MAX_PARTS - 1, MAX_PARTS + 1) } else { seed.within(1, 4) };
    let mut parts = partition(seed, &rules, pieces);
    if parts.len() > 1 && seed.one_in(odd) {
        // A rule once more, in another part.
        let (from, to) = (seed.below(parts.len()), seed.below(parts.len() - 1));
        let again = seed.of(&parts[from]).clone();
        let to = if to < from { to } else { to + 1 };
        let at = seed.below(parts[to].len() + 1);
        parts[to].insert(at, again);
    }
    if seed.one_in(odd) {
        shuffle(seed, &mut parts);
    }
    let lines: String = (0..).zip(&drawn.list).filter_map(|(i, of)| Some(format!("N{i} >> {}; ", TYPES[(*of)?].0))).collect();
    let text = |rules: &Vec<String>| format!("rules {}end", rules.concat()).into_bytes();
    Split { common: format!("{SECTIONS} rules {lines}end").into_bytes(), parts: parts.iter().map(text).collect() }
}

impl Drawn<'_> {
    /// The rules in order, or in any; there is one at least.
    fn rules(&mut self) -> Vec<String> {
        let missing = if self.seed.one_in(self.odd) { self.seed.within(1, self.list.len()) } else { self.list.len() };
        let numbers: Vec<usize> = (0..self.list.len()).filter(|i| *i != missing).collect();
        numbers.into_iter().map(|i| self.rule(i)).collect()
    }

    fn rule(&mut self, number: usize) -> String {
        let mut of = self.list[number];
        if self.seed.one_in(8 * self.odd) {
            of = *self.seed.of(&[None, Some(0), Some(1)]);
        }
        let (head, end) = match of {
            None => (String::new(), String::new()),
            Some(of) => (format!(" >> {}", TYPES[of].0), format!(" >> {}", TYPES[of].2)),
        };
        let actions: String = (0..self.seed.below(4)).map(|_| self.action()).collect();
        format!("N{number}{head}: {actions}{end}; ")
    }

    fn action(&mut self) -> String {
        let number = self.seed.below(self.list.len());
        let call = match self.list[number] {
            Some(of) if self.seed.one_in(2) => format!("[@N{number} {}]", TYPES[of].1),
            Some(_) => format!("[@N{number} | *: ]"),
            None => match self.seed.below(6) {
                0 => format!("^E @N{number}"),
                1 => format!("^F @N{number}"),
                _ => format!("@N{number}"),
            },
        };
        match self.seed.below(8) {
            0 => format!("{{ ? {call} > }} "),
            1 => format!("[ | a: {call} | 'b': f | *: g(n) ] "),
            2 => format!("[c | y: {call} | *: #e ] "),
            3 => "? ".to_string(),
            _ => format!("{call} "),
        }
    }
}

/// Many small rules in parts, and how many they and the names are.
pub struct Crowd {
    pub split: Split,
    pub rules: usize,
    pub names: usize,
}

/// Around 128 rules, around 512 names, or both.
pub fn crowded(seed: &mut Seed) -> Crowd {
    let rules = if seed.one_in(2) { seed.within(126, 131) } else { seed.within(2, 60) };
    // Beside the tokens and the rules: a type with its value.
    let tokens = if seed.one_in(2) { 1 } else { seed.within(509, 514) - rules - 2 };
    let typed: Vec<bool> = (0..rules).map(|i| i > 0 && seed.one_in(9)).collect();
    let mut all = Vec::new();
    for (i, typed) in typed.iter().enumerate() {
        let actions = *seed.of(&["", "?", "@r0", "k0 @r0"]);
        all.push(if *typed { format!("r{i} >> t: >> v; ") } else { format!("r{i}: {actions}; ") });
    }
    let lines: String = (0..).zip(&typed).filter(|(_, typed)| **typed).map(|(i, _)| format!("r{i} >> t; ")).collect();
    let tokens_text: String = (0..tokens).map(|i| format!("k{i} ")).collect();
    let pieces = seed.within(2, MAX_PARTS);
    let parts = partition(seed, &all, pieces);
    let text = |rules: &Vec<String>| format!("rules {}end", rules.concat()).into_bytes();
    let common = format!("input: {tokens_text}; type t: v; rules {lines}end").into_bytes();
    Crowd { split: Split { common, parts: parts.iter().map(text).collect() }, rules, names: tokens + 2 + rules }
}

#[cfg(test)]
mod tests {
    use super::*;
    use crate::parts::{link, one_text, part};
    use crate::precedence;
    use crate::processor::{MAX_TABLE, process};
    use crate::texts;
    use std::collections::BTreeMap;

    /// The number that linking answers; every part can be translated.
    fn number(split: &Split, n: u64) -> u16 {
        for text in &split.parts {
            let fault = part(&split.common, text).err();
            assert_eq!(fault, None, "{n}: {}\n{}", split.common.escape_ascii(), text.escape_ascii());
        }
        link(&split.common, &split.texts(), MAX_TABLE).map_or_else(|fault| fault.number, |_| 0)
    }

    #[test]
    fn good_programs_in_parts() {
        let mut most = 0;
        for n in 0..400 {
            let mut seed = Seed::new(n);
            let size = 4 + n as usize % 60;
            let words = if n % 2 == 0 { texts::good(&mut seed, size) } else { precedence::good(&mut seed, size) };
            let text = words.join(&b' ');
            let split = SplitWords::of(&mut seed, &text, MAX_PARTS).joined(&mut seed);
            assert_eq!(number(&split, n), 0, "{n}: {}", text.escape_ascii());
            let one = one_text(&split.common, &split.texts()).expect("good parts");
            assert_eq!(process(&one, MAX_TABLE), process(&text, MAX_TABLE), "{n}: {}", text.escape_ascii());
            most = most.max(split.parts.len());
        }
        assert!(most > 5, "{most}");
    }

    #[test]
    fn every_number_of_linking_is_met() {
        let mut met: BTreeMap<u16, usize> = BTreeMap::new();
        for n in 0..1_000 {
            let odd = 2 + n as usize % 7;
            *met.entry(number(&drawn(&mut Seed::new(n), odd), n)).or_default() += 1;
        }
        assert_eq!(met.keys().copied().collect::<Vec<u16>>(), [0, 5, 9, 49, 50], "{met:?}");
        assert!(met.values().all(|times| *times > 10), "{met:?}");
    }

    #[test]
    fn crowds_are_around_the_limits() {
        let mut met: BTreeMap<u16, usize> = BTreeMap::new();
        for n in 0..40 {
            let Crowd { split, .. } = crowded(&mut Seed::new(n));
            let number = if split.parts.iter().all(|text| part(&split.common, text).is_ok()) { number(&split, n) } else { 99 };
            *met.entry(number).or_default() += 1;
        }
        // A part may pass a limit by itself.
        assert!(met[&0] > 5 && met[&9] > 5, "{met:?}");
    }
}
