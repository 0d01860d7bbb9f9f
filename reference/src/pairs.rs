//! Entries and rules that pass two limits or more at once, and ones that pass a limit beside a word that is at fault by itself.
//!
//! The product of everything that an entry can have, and every two things that a rule can have: so every pair is there. What each text is
//! refused with is known beforehand, by "1, 2, 9 by the first word in the text", as long as nothing else is planted in it.

use crate::faults::LONG;
use crate::texts::{Seed, VOCABULARY, Words, placed, spelled};

/// A limit that is passed; its name is all that there is.
pub type Limit = &'static str;

const NAME_BYTES: Limit = "bytes of an entry's name";
const NEXT_BYTES: Limit = "bytes of the next entry's name";
const TYPE_BYTES: Limit = "bytes of a type's own name";
const MECHANISM_BYTES: Limit = "bytes of a mechanism's name";
const NAMES: Limit = "names";
const UPDATES: Limit = "updates";
const UPDATES_WITH: Limit = "updates with a parameter";
const CHOICES: Limit = "choice operations";
const CHOICES_WITH: Limit = "choice operations with a parameter";
const COUNTED: Limit = "value counted";
const SET: Limit = "value set";
const STRING_BYTES: Limit = "bytes of a string";
const PARAMETER_BYTES: Limit = "bytes of the parameter's type";
const RESULT_BYTES: Limit = "bytes of the type after >>";
const RULES: Limit = "rules";
const RULE_BYTES: Limit = "bytes of a rule's name";
const OF_BYTES: Limit = "bytes of a rule's type";
const DEPTH: Limit = "depth";
const LABELS: Limit = "labels";
const WORDS: Limit = "table words";

/// The kinds of operations, in the order of their numbers.
const KINDS: [Limit; 4] = [UPDATES, UPDATES_WITH, CHOICES, CHOICES_WITH];

/// Limits that can be passed together: by a head and its first entry, by one entry, by one rule (besides those of `PARTS`).
const OF_A_TYPE: [Limit; 3] = [TYPE_BYTES, NAMES, NAME_BYTES];
const OF_A_MECHANISM: [Limit; 3] = [MECHANISM_BYTES, NAMES, NAME_BYTES];
const OF_A_TOKEN: [Limit; 6] = [NAME_BYTES, NAMES, COUNTED, SET, STRING_BYTES, NEXT_BYTES];
const OF_AN_OPERATION: [Limit; 10] =
    [NAME_BYTES, NAMES, UPDATES, UPDATES_WITH, CHOICES, CHOICES_WITH, PARAMETER_BYTES, RESULT_BYTES, STRING_BYTES, NEXT_BYTES];
const OF_A_RULE: [Limit; 5] = [RULE_BYTES, NAMES, RULES, OF_BYTES, WORDS];

/// Pairs that no entry can pass both of.
const APART: [(Limit, Limit); 11] = [
    (COUNTED, SET),
    (UPDATES, UPDATES_WITH),
    (UPDATES, CHOICES),
    (UPDATES, CHOICES_WITH),
    (UPDATES_WITH, CHOICES),
    (UPDATES_WITH, CHOICES_WITH),
    (CHOICES, CHOICES_WITH),
    (UPDATES, PARAMETER_BYTES),
    (CHOICES, PARAMETER_BYTES),
    (UPDATES, RESULT_BYTES),
    (UPDATES_WITH, RESULT_BYTES),
];

/// A limit and actions that pass it at the word behind `^`. STRING is one of 33 bytes, so that word is no word: 1.
const PARTS: [(Limit, &str); 15] = [
    (DEPTH, "DEEP ^{ } DEEP"),
    (LABELS, "[ | MANY , ^a : ]"),
    ("bytes of a label", "[ | a , ^LONG : ]"),
    ("bytes of a label's string", "[ | a , ^STRING : ]"),
    ("bytes of a match", "^LONG"),
    ("bytes of a match's string", "^STRING"),
    ("bytes of an output token", ". ^LONG"),
    ("bytes of an error", "# ^LONG"),
    ("bytes of a called rule", "@ ^LONG"),
    ("bytes of a constant", "f ( ^LONG )"),
    ("bytes of a constant's string", "f ( ^STRING )"),
    ("bytes of a value", ">> ^LONG"),
    ("bytes of a selector's operation", "[ ^LONG | * : ]"),
    ("bytes of a selector's rule", "[ @ ^LONG | * : ]"),
    ("bytes of a selector's constant", "[ f ( ^LONG ) | * : ]"),
];

/// Actions with a place for others, before and behind the word that passes a limit. DEEP leaves no room, NEARLY room for one more.
const AROUND: [(Limit, &str); 4] = [
    (DEPTH, "NEARLY HERE { ^{ } } NEARLY"),
    (DEPTH, "NEARLY { ^{ } } HERE NEARLY"),
    (LABELS, "[ | a : HERE | MOST , ^a : ]"),
    (LABELS, "[ | MANY , ^a : HERE ]"),
];

/// Both in one choice 32 deep; the second word marked passes the other limit.
const DEEP_LABELS: [([Limit; 2], &str); 3] = [
    ([DEPTH, LABELS], "NEARLY [ | a : ^{ } | MOST , ^a : ] NEARLY"),
    ([LABELS, DEPTH], "NEARLY [ | MANY , ^a : ^{ } ] NEARLY"),
    ([LABELS, DEPTH], "NEARLY [ | MANY : | ^a : ^[ | * : ] ] NEARLY"),
];

/// A word at fault by itself beside the word that passes a limit, or a text that is too long.
pub const BESIDE: [&str; 9] = [
    "no word before",
    "no word after",
    "long string before",
    "long string after",
    "wrong word before",
    "wrong word after",
    "end before",
    "end after",
    "long text",
];
const LONG_TEXT: usize = 8;

/// The most bytes of a text.
const TEXT: usize = 32_768;

/// A string of 33 bytes.
const STRING: &str = "'s23456789012345678901234567890123'";

/// A program with an entry or a rule that passes limits.
#[derive(Clone, Default)]
pub struct Case {
    /// What stands before the words.
    before: String,
    words: Words,
    /// The limits passed, each at a word; that of the table at none, far behind.
    passed: Vec<(usize, Limit)>,
    /// The words between which others are planted.
    from: usize,
    to: usize,
}

/// A text, with what it has.
pub struct Sample {
    pub text: Vec<u8>,
    /// Number and part, if they are known.
    pub planted: Option<(u16, usize, usize)>,
    pub passed: Vec<Limit>,
    /// Limits, each with a sort of `BESIDE`.
    pub beside: Vec<(Limit, usize)>,
}

impl Case {
    fn add(&mut self, words: &str) {
        for word in words.split_whitespace() {
            self.words.push(word.as_bytes().to_vec());
        }
    }

    /// One word, which passes these limits.
    fn pass(&mut self, word: &str, limits: &[Limit]) {
        self.passed.extend(limits.iter().map(|limit| (self.words.len(), *limit)));
        self.add(word);
    }

    /// Actions of `PARTS`; the words marked pass the limits in turn.
    fn part(&mut self, part: &str, limits: &[Limit]) {
        let mut limits = limits.iter();
        let mut closing = false;
        for word in part.split_whitespace() {
            let bare = word.trim_start_matches('^');
            if bare.len() < word.len() {
                self.passed.extend(limits.next().map(|limit| (self.words.len(), *limit)));
            }
            match bare {
                "DEEP" | "NEARLY" => {
                    let count = if bare == "DEEP" { 32 } else { 31 };
                    self.add(&if closing { "} " } else { "{ " }.repeat(count));
                    closing = true;
                }
                "MANY" | "MOST" => self.add(&labels(if bare == "MANY" { 64 } else { 63 })),
                "LONG" => self.add(LONG),
                "STRING" => self.add(STRING),
                _ => self.add(bare),
            }
        }
    }

    /// The words from here on are in no entry or rule.
    fn ends(mut self, words: &str) -> Case {
        self.to = self.words.len();
        self.add(words);
        self
    }

    /// The text of some words, with their places.
    fn text(&self, seed: &mut Seed, words: &[Vec<u8>]) -> (Vec<u8>, Vec<usize>, Words) {
        let words: Words = words.iter().map(|word| spelled(seed, &String::from_utf8_lossy(word))).collect();
        let (rest, mut places) = placed(seed, &words);
        let text = [self.before.as_bytes(), b" ", &rest].concat();
        places.iter_mut().for_each(|place| *place += self.before.len() + 1);
        (text, places, words)
    }

    /// The case by itself: the first of the words at fault is shown.
    pub fn plain(&self, seed: &mut Seed) -> Sample {
        let (text, places, words) = self.text(seed, &self.words);
        let first = self.passed.iter().filter(|(_, limit)| *limit != WORDS).min_by_key(|(at, _)| *at);
        let planted = first.map(|(at, _)| {
            let word = &words[*at];
            if word.starts_with(b"'") { (1, places[*at], 1) } else { (9, places[*at], word.len()) }
        });
        let planted = planted.or_else(|| self.limits().contains(&WORDS).then_some((20, text.len(), 0)));
        Sample { text, planted, passed: self.limits(), beside: vec![] }
    }

    /// The limits that it passes.
    pub fn limits(&self) -> Vec<Limit> {
        self.passed.iter().map(|(_, limit)| *limit).collect()
    }

    /// The case with a word planted at each place in turn, or cut there, or too long.
    pub fn beside(&self, seed: &mut Seed) -> Vec<Sample> {
        let mut samples = Vec::new();
        for at in self.places() {
            for (sort, word) in ["$", STRING, "rules", "", *seed.of(&VOCABULARY)].into_iter().enumerate() {
                let mut words = self.words.clone();
                if word.is_empty() {
                    words.truncate(at);
                } else {
                    words.insert(at, word.as_bytes().to_vec());
                }
                let (text, _, _) = self.text(seed, &words);
                let near = self.passed.iter().filter(|(place, _)| sort < 4 && (*place == at || place + 1 == at));
                let beside = near.map(|(place, limit)| (*limit, 2 * sort + usize::from(*place < at))).collect();
                samples.push(Sample { text, planted: None, passed: vec![], beside });
            }
        }
        samples.extend(self.padded(seed));
        samples
    }

    /// The case with one limit passed, filled up to the most bytes of a text and to one more.
    fn padded(&self, seed: &mut Seed) -> Vec<Sample> {
        let [(_, limit)] = self.passed[..] else { return vec![] };
        let Sample { mut text, planted, .. } = self.plain(seed);
        // A comment may stand at the end.
        text.push(b'\n');
        text.resize(TEXT, b' ');
        let planted = if limit == WORDS { Some((20, TEXT, 0)) } else { planted };
        let longest = Sample { text: text.clone(), planted, passed: vec![], beside: vec![] };
        text.push(b' ');
        let too_long = Sample { text, planted: Some((9, TEXT + 1, 0)), passed: vec![], beside: vec![(limit, LONG_TEXT)] };
        vec![longest, too_long]
    }

    /// The places of the part, from its first word to the one behind it; of a long part, those beside the words that pass limits.
    fn places(&self) -> Vec<usize> {
        let near = |at: &usize| self.passed.iter().any(|(place, _)| place == at || place + 1 == *at);
        let long = self.to - self.from > 20;
        (self.from..=self.to).filter(|at| !long || near(at) || *at < self.from + 4).collect()
    }
}

/// So many labels, the commas between them.
fn labels(count: usize) -> String {
    (1..=count).map(|i| format!("a{i}")).collect::<Vec<_>>().join(" , ")
}

/// A type of so many names, its own among them.
fn filler(names: usize) -> String {
    let members: String = (1..names).map(|i| format!(" v{i}")).collect();
    format!("type q :{members} ;")
}

/// Where 512 names are to stand before, of which so many are there already: a type of the rest.
fn filled(names_full: bool, there: usize) -> String {
    if names_full { filler(512 - there) } else { String::new() }
}

/// A name, and the limits that it passes as a name of that sort.
fn named(long: bool, bytes: Limit, names_full: bool, short: &'static str) -> (&'static str, Vec<Limit>) {
    let mut limits = Vec::new();
    limits.extend(long.then_some(bytes));
    limits.extend(names_full.then_some(NAMES));
    (if long { LONG } else { short }, limits)
}

const BOTH: [bool; 2] = [false, true];

/// What follows an entry: nothing, an entry, one with a long name, or no word.
const NEXT: [(&str, Option<Limit>); 4] = [("", None), ("y", None), (LONG, Some(NEXT_BYTES)), (STRING, Some(STRING_BYTES))];

/// The end of such an entry's program; `also` is a limit that a next entry passes besides.
fn follow(mut case: Case, (word, limit): (&str, Option<Limit>), also: Option<Limit>) -> Case {
    let also = also.filter(|_| matches!(word, "y" | LONG));
    case.pass(word, &[limit.as_slice(), also.as_slice()].concat());
    case.ends("; rules M : ; end")
}

/// The name in a head, and the first entry. A type's name is one of the 512, a mechanism's is not.
fn heads(cases: &mut Vec<Case>) {
    for (names_full, (is_type, (long, long_entry))) in cross(&BOTH, &cross(&BOTH, &cross(&BOTH, &BOTH))) {
        let mut case = Case { before: filled(names_full, 0), ..Case::default() };
        case.add(if is_type { "type" } else { "mechanism" });
        let (bytes, counts) = if is_type { (TYPE_BYTES, names_full) } else { (MECHANISM_BYTES, false) };
        let (word, limits) = named(long, bytes, counts, "t");
        case.pass(word, &limits);
        case.add(":");
        let (word, limits) = named(long_entry, NAME_BYTES, names_full, "x");
        case.pass(word, &limits);
        cases.push(case.ends("; rules M : ; end"));
    }
}

/// Entries of tokens, errors and types.
fn token_entries(cases: &mut Vec<Case>) {
    let heads = ["input", "output", "input output", "error", "type t"];
    let strings = [None, Some("'s'"), Some(STRING)];
    let numbers = [None, Some("7"), Some("65536")];
    // What stands behind the entry before: nothing, or the greatest value, in this section or in one before it.
    let counts = ["", "= 65535", "= 65535 ; HEAD :"];
    let entries = cross(&cross(&strings, &numbers), &cross(&counts, &NEXT));
    for ((head, (long, names_full)), ((string, number), (count, next))) in cross(&cross(&heads, &cross(&BOTH, &BOTH)), &entries) {
        // Errors and types have no strings; types count from 0.
        if string.is_some() && !head.ends_with("put") || head == "type t" && count.ends_with(':') {
            continue;
        }
        let there = 1 + usize::from(head == "type t");
        let mut case = Case { before: filled(names_full, there), ..Case::default() };
        case.add(&format!("{head} : z {count}").replace("HEAD", head));
        case.from = case.words.len();
        let (word, mut limits) = named(long, NAME_BYTES, names_full, "x");
        // Behind a word that is none, `=` is not seen.
        limits.extend((!count.is_empty() && (number.is_none() || string == Some(STRING))).then_some(COUNTED));
        case.pass(word, &limits);
        if let Some(string) = string {
            case.pass(string, (string == STRING).then_some(STRING_BYTES).as_slice());
        }
        if let Some(number) = number {
            case.add("=");
            case.pass(number, (number == "65536").then_some(SET).as_slice());
        }
        cases.push(follow(case, next, None));
    }
}

/// Entries of operations, after 256 of one kind or of none.
fn operation_entries(cases: &mut Vec<Case>) {
    let types = [None, Some("t"), Some(LONG), Some(STRING)];
    let full = [None, Some(0), Some(1), Some(2), Some(3)];
    let entries = cross(&types, &cross(&types, &NEXT));
    for ((full, (long, names_full)), (parameter, (result, next))) in cross(&cross(&full, &cross(&BOTH, &BOTH)), &entries) {
        let tails = ["", "(t)", ">>t", "(t)>>t"];
        let before: String = full.map_or(String::new(), |kind| (0..256).map(|i| format!("f{i}{} ", tails[kind])).collect());
        let there = 2 + if full.is_some() { 256 } else { 0 };
        let before = format!("type t: u; {} mechanism m: {}", filled(names_full, there), before);
        let mut case = Case { before, ..Case::default() };
        let (word, mut limits) = named(long, NAME_BYTES, names_full, "g");
        let kind = usize::from(parameter.is_some()) + 2 * usize::from(result.is_some());
        // A parameter that is no word leaves the kind open.
        let past = full == Some(kind) && parameter != Some(STRING);
        limits.extend(past.then_some(KINDS[kind]));
        case.pass(word, &limits);
        let limit = |word: &str, bytes: Limit| match word {
            LONG => Some(bytes),
            STRING => Some(STRING_BYTES),
            _ => None,
        };
        if let Some(word) = parameter {
            case.add("(");
            case.pass(word, limit(word, PARAMETER_BYTES).as_slice());
            case.add(")");
        }
        if let Some(word) = result {
            case.add(">>");
            case.pass(word, limit(word, RESULT_BYTES).as_slice());
        }
        cases.push(follow(case, next, (full == Some(0)).then_some(UPDATES)));
    }
}

/// A rule up to its colon, after 128 rules or 512 names or not, with or without a type.
fn rule_head(long: bool, names_full: bool, rules_full: bool, of: Option<&str>) -> Case {
    let rules = if rules_full { 128 } else { 1 };
    let names = filled(names_full, rules + 4);
    let rules: String = (0..rules).map(|i| format!(" r{i}:;")).collect();
    let before = format!("{names} input: a; type t: u; mechanism m: f(t); rules{rules}");
    let mut case = Case { before, ..Case::default() };
    let (word, mut limits) = named(long, RULE_BYTES, names_full, "R");
    limits.extend(rules_full.then_some(RULES));
    case.pass(word, &limits);
    if let Some(of) = of {
        case.add(">>");
        let limit = match of {
            LONG => Some(OF_BYTES),
            STRING => Some(STRING_BYTES),
            _ => None,
        };
        case.pass(of, limit.as_slice());
    }
    case.add(":");
    case
}

/// Rules: each head by itself and with each part.
fn rule_heads(cases: &mut Vec<Case>) {
    let types = [None, Some("t"), Some(LONG), Some(STRING)];
    for ((long, names_full), (rules_full, of)) in cross(&cross(&BOTH, &BOTH), &cross(&BOTH, &types)) {
        let head = rule_head(long, names_full, rules_full, of);
        cases.push(head.clone().ends("; end"));
        for (limit, part) in PARTS {
            cases.push(with_part(&head, part, &[limit]).ends("; end"));
        }
        let case = with_long_table(&head);
        // A choice rule that goes past itself would be 8 otherwise.
        if of.is_none() || case.passed.len() > 1 {
            cases.push(case.ends("; end"));
        }
    }
}

/// Rules: every two parts one after the other, and every part in each place of another.
fn rule_parts(cases: &mut Vec<Case>) {
    let head = rule_head(false, false, false, None);
    for (one, first) in PARTS {
        let case = with_part(&head, first, &[one]);
        cases.extend(PARTS.map(|(two, second)| with_part(&case, second, &[two]).ends("; end")));
        cases.push(with_long_table(&case).ends("; end"));
    }
    for (outer, around) in AROUND {
        for (inner, part) in PARTS.iter().filter(|(inner, _)| *inner != outer && *inner != DEPTH) {
            let marked_first = around.find('^') < around.find("HERE");
            let limits = if marked_first { [outer, inner] } else { [inner, outer] };
            cases.push(with_part(&head, &around.replace("HERE", part), &limits).ends("; end"));
        }
    }
    cases.extend(DEEP_LABELS.map(|(limits, part)| with_part(&head, part, &limits).ends("; end")));
}

fn with_part(case: &Case, part: &str, limits: &[Limit]) -> Case {
    let mut case = case.clone();
    case.part(part, limits);
    case
}

/// With more words than a table has.
fn with_long_table(case: &Case) -> Case {
    let mut case = case.clone();
    case.passed.push((usize::MAX - 1, WORDS));
    case.add(&"? ".repeat(4_096));
    case
}

/// All cases.
pub fn cases() -> Vec<Case> {
    let mut cases = Vec::new();
    heads(&mut cases);
    token_entries(&mut cases);
    operation_entries(&mut cases);
    rule_heads(&mut cases);
    rule_parts(&mut cases);
    cases
}

/// The pairs that the cases must have, each with its lesser name first.
pub fn wanted() -> Vec<(Limit, Limit)> {
    let of_a_rule: Vec<Limit> = OF_A_RULE.into_iter().chain(PARTS.map(|(limit, _)| limit)).collect();
    let lists: [&[Limit]; 5] = [&OF_A_TYPE, &OF_A_MECHANISM, &OF_A_TOKEN, &OF_AN_OPERATION, &of_a_rule];
    let mut pairs: Vec<(Limit, Limit)> = lists.into_iter().flat_map(pairs).collect();
    pairs.retain(|pair| !APART.iter().any(|(a, b)| ordered(a, b) == *pair));
    pairs.sort_unstable();
    pairs.dedup();
    pairs
}

/// The limits, each with each sort of `BESIDE` that it must be met with; 20 has no word that others could stand beside.
pub fn wanted_beside() -> Vec<(Limit, usize)> {
    let mut limits: Vec<Limit> = wanted().into_iter().flat_map(|(a, b)| [a, b]).collect();
    limits.sort_unstable();
    limits.dedup();
    let sorts = |limit: Limit| (0..BESIDE.len()).filter(move |sort| limit != WORDS || *sort == LONG_TEXT);
    limits.into_iter().flat_map(|limit| sorts(limit).map(move |sort| (limit, sort))).collect()
}

/// Every two of the limits.
pub fn pairs(limits: &[Limit]) -> Vec<(Limit, Limit)> {
    let each = |(i, a): (usize, &Limit)| limits[i + 1..].iter().map(|b| ordered(a, b)).collect::<Vec<_>>();
    limits.iter().enumerate().flat_map(each).collect()
}

fn ordered(a: Limit, b: Limit) -> (Limit, Limit) {
    if a <= b { (a, b) } else { (b, a) }
}

/// Every two of one item each.
fn cross<A: Copy, B: Copy>(a: &[A], b: &[B]) -> Vec<(A, B)> {
    a.iter().flat_map(|a| b.iter().map(|b| (*a, *b))).collect()
}

#[cfg(test)]
mod tests {
    use super::*;
    use crate::processor::{Answer, process};

    /// The second processor shows what was planted.
    #[test]
    fn the_first_word_past_a_limit_is_shown() {
        let mut seed = Seed::new(1);
        for case in cases() {
            let Sample { text, planted, passed, .. } = case.plain(&mut seed);
            let answer = match process(&text, 4_096) {
                Answer::Accepted { .. } => (0, 0, 0),
                Answer::Refused { number, start, len } => (number, start, len),
            };
            let part = String::from_utf8_lossy(&text[case.before.len()..]).chars().take(300).collect::<String>();
            match planted {
                Some(planted) => assert_eq!(answer, planted, "{passed:?}: {part}"),
                None => assert!(!matches!(answer.0, 1 | 2 | 9 | 20), "{answer:?}: {part}"),
            }
        }
    }

    /// 256 operations `f(t)`, then `g(LONG)`: both words have 9, and `g` stands first.
    #[test]
    fn the_operation_stands_before_its_type() {
        let operations: String = (0..256).map(|i| format!("f{i}(t) ")).collect();
        let text = format!("type t: u; mechanism m: {operations} g({LONG}); rules M: ; end");
        let start = text.find("g(").unwrap_or(0);
        assert_eq!(process(text.as_bytes(), 4_096), Answer::Refused { number: 9, start, len: 1 });
    }
}
