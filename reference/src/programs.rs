//! Good programs of a given size, laid out as an author would, and ones that make a processor work hard.

use crate::texts::Seed;

/// A program's name, and its text.
pub struct Text {
    pub name: &'static str,
    pub text: Vec<u8>,
}

/// What hard programs are full of.
pub const HARD: [&str; 14] = [
    "names",
    "long names",
    "nesting",
    "labels",
    "calls",
    "cycles",
    "names, 20",
    "chosen",
    "chosen, 20",
    "strings, 20",
    "values",
    "value ring",
    "value chain",
    "calls back",
];

/// The sorts with names of four bytes, matched as often as the text has room for: any names, and ones chosen to be in one chain of the
/// library's index. The one behind has chosen strings as well.
pub const PLAIN: usize = 6;
pub const CHOSEN: usize = 8;

/// The sizes of the texts that are timed.
pub const SIZES: [usize; 3] = [1_024, 8_192, 32_768];

/// The texts that are timed, in all sizes: a typical one and each hard sort.
pub fn timed() -> Vec<[Text; 3]> {
    let typical = SIZES.map(|size| typical(&mut Seed::new(7), size));
    let hard = (0..HARD.len()).map(|sort| SIZES.map(|size| hard(sort, size)));
    std::iter::once(typical).chain(hard).collect()
}

/// An update with its constant, inside as many choices as may be: resolving it needs the most stack.
pub fn deep_update() -> Vec<u8> {
    let (open, close) = ("[ | *: ".repeat(32), "]".repeat(32));
    format!("type T: v; mechanism m: f(T); rules M: {open}f(v){close}; end").into_bytes()
}

/// A hard program of about so many bytes. Those with 20 pass the table's limit and are refused with it where they have more than 8 KB.
pub fn hard(sort: usize, bytes: usize) -> Text {
    let text = match sort {
        0 => names(bytes, (bytes / 2_700).max(2), 2_000),
        1 => names(bytes, 28, 2_000),
        2 => nesting(bytes),
        3 => labels(bytes),
        4 => calls(bytes),
        5 => cycles(bytes),
        PLAIN => names(bytes, 2, usize::MAX),
        7 => chosen(bytes, false, 2_000),
        CHOSEN => chosen(bytes, false, usize::MAX),
        9 => chosen(bytes, true, usize::MAX),
        10 => values(bytes),
        11 => value_ring(bytes),
        12 => value_chain(bytes),
        _ => calls_back(bytes),
    };
    Text { name: HARD[sort], text: filled(text, bytes) }
}

/// Filled up with a comment.
pub fn filled(mut text: String, bytes: usize) -> Vec<u8> {
    if text.len() < bytes {
        text.push('%');
        text.push_str(&"-".repeat(bytes - text.len()));
    }
    text.into_bytes()
}

/// Names with one beginning of so many letters, matched again and again.
fn names(bytes: usize, stem: usize, most: usize) -> String {
    let name = |i: usize| {
        let letters = b"abcdefghijklmnopqrstuvwxyz";
        let digits = [letters[i / 26 % 26], letters[i % 26]];
        format!("{}{}", "N".repeat(stem), String::from_utf8_lossy(&digits))
    };
    let tokens = (bytes / 2 / (stem + 3)).clamp(2, 511);
    let names: Vec<String> = (0..tokens).map(name).collect();
    matches("input", bytes, &names, &[], most)
}

/// Tokens of these names, each with its string where there are strings, matched again and again, the last declared ones most of all.
fn matches(head: &str, bytes: usize, names: &[String], strings: &[String], most: usize) -> String {
    let gap = |i: usize| if i % 8 == 7 { '\n' } else { ' ' };
    let mut text = format!("{head}:\n");
    for (i, name) in names.iter().enumerate() {
        text.push_str(name);
        text.push_str(strings.get(i).map_or("", String::as_str));
        text.push(gap(i));
    }
    text.push_str(";\nrules M:\n");
    let last: Vec<&String> = names.iter().rev().take(64).collect();
    let room = bytes.saturating_sub(text.len() + 8) / (last[0].len() + 1);
    for i in 0..room.min(most) {
        text.push_str(last[i % last.len()]);
        text.push(gap(i));
    }
    text.push_str(";\nend\n");
    text
}

/// Names of four bytes that the library's index has all in one chain; or strings as well, in two classes, so that each row is met twice.
fn chosen(bytes: usize, with_strings: bool, most: usize) -> String {
    let entry = if with_strings { 10 } else { 5 };
    let tokens = (bytes / 2 / entry).clamp(2, 510);
    let names = chained(TOKENS, "N", "", tokens);
    if with_strings {
        return matches("input output", bytes, &names, &chained(TOKENS, "'", "'", tokens), most);
    }
    matches("input", bytes, &names, &[], most)
}

/// What the hash of a token begins with, and that of a section of operators.
pub const TOKENS: u64 = 1;
pub const OPERATORS: u64 = 600;

/// So many words of three letters or digits between these, all in the first chain of the library's index where they are of the class. The hash is a copy
/// of the one in `crates/symbols/specs/Index.antt` and serves to choose names only: were that one another, these would be names like any.
pub fn chained(class: u64, before: &str, behind: &str, count: usize) -> Vec<String> {
    let letters: Vec<char> = ('a'..='z').chain('A'..='Z').chain('0'..='9').chain(['_']).collect();
    let hash = |hash: u64, part: &str| part.bytes().fold(hash, |hash, byte| (hash * 33 + u64::from(byte)) % (1 << 48));
    let mut words = Vec::new();
    // Two beginnings, since one has fewer than 510 such words.
    for more in ["", "N"] {
        for (a, b) in letters.iter().flat_map(|a| letters.iter().map(move |b| (a, b))) {
            let start = format!("{before}{more}{a}{b}");
            let started = hash(class, &start);
            let fits = |c: &&char| hash(started, &format!("{c}{behind}")) % 511 == 0;
            words.extend(letters.iter().filter(fits).map(|c| format!("{start}{c}{behind}")));
        }
    }
    words.truncate(count);
    words
}

/// Cycles in choices in cycles, 32 deep, each on a line of its own, over and over.
fn nesting(bytes: usize) -> String {
    // A small text has no room to indent.
    let indent = if bytes < 4_096 { 0 } else { 1 };
    let mut part = String::new();
    for depth in 0..32 {
        let open = ["{", "[ | a: > | *:"][depth % 2];
        part.push_str(&format!("{}{open}\n", " ".repeat(indent * depth)));
    }
    for depth in (0..32).rev() {
        let close = ["}", "]"][depth % 2];
        part.push_str(&format!("{}{close}\n", " ".repeat(indent * depth)));
    }
    one_rule("input: a;\n", &part, 16 * 11, bytes)
}

/// One rule in so many bytes: a part of so many words of a table, as often as it fits.
fn one_rule(sections: &str, part: &str, words: usize, bytes: usize) -> String {
    let (head, end) = (format!("{sections}rules M:\n"), ";\nend\n");
    let room = bytes.saturating_sub(head.len() + 8);
    let times = (room / part.len()).min(4_000 / words);
    format!("{head}{}{end}", part.repeat(times))
}

/// Choices of 64 labels.
fn labels(bytes: usize) -> String {
    let stem = (bytes / 2_600).clamp(1, 12);
    let name = |i: usize| format!("{}{i:02}", "L".repeat(stem));
    let count = (bytes / 4 / (stem + 3)).clamp(2, 64);
    let sections = format!("input: {};\n", (0..count).map(|i| format!("{} ", name(i))).collect::<String>());
    let mut part = String::from("[");
    for i in 0..count {
        part.push_str(if i % 8 == 0 { "\n| " } else { ", " });
        part.push_str(&name(count - 1 - i));
        if i % 8 == 7 || i + 1 == count {
            part.push(':');
        }
    }
    part.push_str("]\n");
    one_rule(&sections, &part, 2 * count + 2 * count.div_ceil(8) + 7, bytes)
}

/// Rules that each call the next; only the last is passed quietly by itself.
fn calls(bytes: usize) -> String {
    let each = if bytes > 16_384 { 15 } else { 3 };
    let name = |i: usize| format!("Rule_{i:08}");
    let count = (bytes / (16 * each + 20)).clamp(2, 128);
    let mut text = String::from("rules\n");
    for i in 0..count {
        text.push_str(&format!("{}:\n", name(i)));
        if i + 1 < count {
            text.push_str(&format!("@{} ", name(i + 1)).repeat(each));
        }
        text.push_str(";\n");
    }
    text.push_str("end\n");
    text
}

/// Each rule calls the one before, inside three cycles: the figure of each is known only after that.
fn calls_back(bytes: usize) -> String {
    let (open, close) = ("{[|*:".repeat(3), ">]}".repeat(3));
    let mut text = String::from("rules\nR0: ;\n");
    for rule in 1..128 {
        let next = format!("R{rule}: {open}@R{}{close};\n", rule - 1);
        if text.len() + next.len() + 4 > bytes {
            break;
        }
        text.push_str(&next);
    }
    text.push_str("end\n");
    text
}

/// Cycles around calls that are passed quietly, side by side; none has a quiet path round.
fn cycles(bytes: usize) -> String {
    let part = "    { @Helper [ | token: @Helper .result | *: > ] }\n";
    let mut text = String::from("input: token;\noutput: result;\nrules\nMain:\n");
    let mut words = 0;
    let mut rule = 0;
    let mut in_rule = 0;
    while text.len() + part.len() + 64 < bytes && words < 3_900 {
        text.push_str(part);
        words += 17;
        in_rule += 1;
        if in_rule == 16 {
            rule += 1;
            in_rule = 0;
            text.push_str(&format!(";\nPart{rule}:\n"));
        }
    }
    text.push_str(";\nHelper: [ | token: | *: ];\nend\n");
    text
}

/// The sections of a program with so many values of a type.
fn valued(count: usize) -> String {
    let values: String = (0..count).map(|i| format!("v{i}{}", if i % 16 == 15 { "\n" } else { " " })).collect();
    format!("type T: {values};\nmechanism m: c >> T;\nrules\n")
}

/// One rule that returns each value by the one before, all of them quietly: its choices stand in backward order, so that going through the
/// text from its start finds one value more each time. Up to 4,096 words.
fn values(bytes: usize) -> String {
    let count = (bytes.saturating_sub(120) / 28).clamp(2, 340);
    let mut text = valued(count + 1);
    text.push_str("M: ?;\nR >> T: [c | v0: >> v0 | *: ]\n");
    for i in (0..count).rev() {
        text.push_str(&format!("[@R|v{i}:>>v{}|*:]\n", i + 1));
    }
    text.push_str(">> v0;\nend\n");
    text
}

/// The same with up to 127 rules: each returns a value by one of the next rule's, the last by one of the first's, round and round.
fn value_ring(bytes: usize) -> String {
    let count = (bytes.saturating_sub(160) / 36).clamp(2, 325);
    let rules = (count / 2).clamp(1, 127);
    let mut text = valued(count + 1);
    text.push_str("M: ;\n");
    for rule in 1..=rules {
        let next = rule % rules + 1;
        let first = if rule == rules { rules } else { rules - rule };
        text.push_str(&format!("R{rule}>>T:{}", if rule == rules { "[c|v0:>>v0|*:]" } else { "" }));
        for value in (first..count + 1).step_by(rules).rev() {
            let otherwise = if value == first { "" } else { "|*:" };
            text.push_str(&format!("[@R{next}|v{}:>>v{value}{otherwise}]", value - 1));
        }
        text.push_str(";\n");
    }
    text.push_str("end\n");
    text
}

/// Up to 126 rules that return each value by one of the next rule's, the last by an operation; finishing.
fn value_chain(bytes: usize) -> String {
    let count = (bytes.saturating_sub(180) / 60).clamp(1, 126);
    let mut text = valued(4);
    text.push_str("M: {[@R1 | v0, v1, v2, v3: > ]};\n");
    for rule in 1..=count {
        text.push_str(&format!("R{rule}>>T:[@R{}|v0:>>v1|v1:>>v2|v2:>>v0|*:>>v3];\n", rule + 1));
    }
    text.push_str(&format!("R{} >> T: [c | v0: >> v0 | v1: >> v1 | *: >> v2];\nend\n", count + 1));
    text
}

/// Every kind of choice and operation, some choices without otherwise.
pub const CHOICES: &str = "input: a b; output: o p; type t: v w x; mechanism m: c>>t d(t)>>t u(t) n; \
    rules M: { [c | w: .o u(x) | x: @K] [d(w) | v: n | w: > | *: .p] [@N | v: ? | w: b] }; K: [ | a: u(v) | *: n]; \
    N >> t: [ | a: >> v | b: >> w | *: >> x]; end";

/// A mixed program of so many bytes: tokens, errors, types, operations and rules in the usual proportions, with comments.
pub fn typical(seed: &mut Seed, bytes: usize) -> Text {
    loop {
        let mut writer = Writer::new(seed, bytes);
        writer.sections();
        writer.rules(bytes);
        if writer.text.len() <= bytes {
            return Text { name: "typical", text: filled(writer.text, bytes) };
        }
    }
}

struct Writer<'a> {
    seed: &'a mut Seed,
    text: String,
    tokens: usize,
    outputs: usize,
    errors: usize,
    values: usize,
    rules: usize,
    /// Words of the table so far.
    words: usize,
}

impl Writer<'_> {
    fn new(seed: &mut Seed, bytes: usize) -> Writer<'_> {
        Writer {
            text: String::new(),
            tokens: (bytes / 300).clamp(4, 60),
            outputs: (bytes / 400).clamp(3, 50),
            errors: (bytes / 1_500).clamp(1, 16),
            values: 4,
            rules: (bytes / 360).clamp(2, 90),
            words: 0,
            seed,
        }
    }

    fn sections(&mut self) {
        let list = |stem: &str, n: usize| {
            (0..n).map(|i| format!(" {stem}{i}{}", if i % 8 == 7 { "\n   " } else { "" })).collect::<String>()
        };
        let strings = |stem: &str, n: usize| {
            (0..n)
                .map(|i| format!(" {stem}{i}{}", if i % 3 == 0 { format!(" '<{i}>'\n   ") } else { String::new() }))
                .collect::<String>()
        };
        self.text.push_str("% A program of the usual kind.\ninput:\n   ");
        self.text.push_str(&strings("token", self.tokens));
        self.text.push_str(";\noutput:\n   ");
        self.text.push_str(&list("output", self.outputs));
        self.text.push_str(";\nerror:\n   ");
        self.text.push_str(&list("error", self.errors).replacen("error0", "error0 = 10", 1));
        self.text.push_str(";\ntype State:\n   ");
        self.text.push_str(&list("state", self.values));
        self.text.push_str(";\nmechanism Page:\n    Place\n    Turn(State)\n    Room >> State\n    Measure(State) >> State;\n");
    }

    fn rules(&mut self, bytes: usize) {
        self.text.push_str("rules\n");
        for rule in 0..self.rules {
            let chooses = rule % 5 == 4;
            let head = if chooses { format!("Rule{rule} >> State:\n") } else { format!("Rule{rule}:\n") };
            self.text.push_str(&head);
            let until = self.text.len() + (bytes.saturating_sub(self.text.len() + 80)) / (self.rules - rule);
            let room = self.words + 3_900usize.saturating_sub(self.words) / (self.rules - rule);
            while self.text.len() + 80 < until {
                if self.words + 30 > room {
                    self.text.push_str("    % The table is nearly full: what follows is said in words only.\n");
                } else {
                    self.action(rule, 1);
                }
            }
            let last = if chooses { "    >> state1;\n" } else { "    ;\n" };
            self.words += if chooses { 3 } else { 1 };
            self.text.push_str(last);
        }
        self.text.push_str("end\n");
    }

    fn line(&mut self, depth: usize, line: &str, words: usize) {
        self.text.push_str(&"    ".repeat(depth));
        self.text.push_str(line);
        if self.seed.one_in(12) {
            self.text.push_str("  % as the manual says");
        }
        self.text.push('\n');
        self.words += words;
    }

    fn action(&mut self, rule: usize, depth: usize) {
        let token = self.token();
        let output = self.seed.below(self.outputs);
        let state = self.seed.below(self.values);
        match self.seed.below(if depth < 3 { 12 } else { 8 }) {
            0 => self.line(depth, &token, 2),
            1 => self.line(depth, &format!(".output{output}"), 2),
            2 => self.line(depth, &format!("{token} .output{output}"), 4),
            3 => {
                let error = self.seed.below(self.errors);
                self.line(depth, &format!("#error{error} ?"), 3);
            }
            4 => self.line(depth, &format!("Place Turn(state{state})"), 4),
            5 | 6 => {
                // Rules call later ones only, and no choice rules.
                let next = rule + 1 + self.seed.below(3);
                let next = if next % 5 == 4 { next + 1 } else { next };
                if next < self.rules {
                    self.line(depth, &format!("@Rule{next}"), 2);
                } else {
                    self.line(depth, "Place", 1);
                }
            }
            7 => self.line(depth, "% The next part goes with the one before.", 0),
            8 => {
                self.line(depth, "{[", 4);
                let labels = self.alternatives(rule, depth + 1);
                self.line(depth + 1, "| *: >", 2);
                self.line(depth, "]}", 1 + 2 * labels);
            }
            9 | 10 => {
                self.line(depth, "[", 6);
                let labels = self.alternatives(rule, depth + 1);
                self.line(depth, "]", 1 + 2 * labels);
            }
            _ => {
                let chooser = (rule + 1..self.rules).find(|rule| rule % 5 == 4);
                let by = match (self.seed.below(3), chooser) {
                    (0, Some(rule)) => format!("[@Rule{rule}"),
                    (1, _) => format!("[ Measure(state{state})"),
                    _ => "[ Room".to_string(),
                };
                self.line(depth, &by, 6);
                self.line(depth + 1, "| state0, state2:", 6);
                self.action(rule, depth + 2);
                self.line(depth + 1, "| state1:", 4);
                self.action(rule, depth + 2);
                self.line(depth + 1, "| *: Place", 1);
                self.line(depth, "]", 1);
            }
        }
    }

    fn token(&mut self) -> String {
        let token = self.seed.below(self.tokens);
        if token.is_multiple_of(3) && self.seed.one_in(2) { format!("'<{token}>'") } else { format!("token{token}") }
    }

    /// Labelled alternatives; the count of labels.
    fn alternatives(&mut self, rule: usize, depth: usize) -> usize {
        let count = 1 + self.seed.below(4);
        let first = self.seed.below(self.tokens - 3);
        let mut labels = 0;
        for i in 0..count.min(self.tokens - first) {
            if i == 0 && first > 0 && self.seed.one_in(3) {
                self.line(depth, &format!("| token{first}, token{}:", first - 1), 2);
                labels += 2;
            } else {
                self.line(depth, &format!("| token{}:", first + i), 2);
                labels += 1;
            }
            self.action(rule, depth + 1);
        }
        labels
    }
}

#[cfg(test)]
mod tests {
    use super::*;
    use crate::processor::{Answer, MAX_TABLE, process};

    #[test]
    fn they_are_accepted() {
        for bytes in [1_024, 8_192, 32_768] {
            for sort in 0..HARD.len() {
                let Text { name, text } = hard(sort, bytes);
                assert_eq!(text.len(), bytes, "{name}");
                let answer = process(&text, MAX_TABLE);
                let refused = matches!(answer, Answer::Refused { number: 20, .. });
                assert!(
                    refused && name.ends_with("20") || matches!(answer, Answer::Accepted { .. }),
                    "{name} of {bytes}: {answer:?}"
                );
            }
        }
        for n in 0..30 {
            let mut seed = Seed::new(n);
            let bytes = 1_024 + seed.below(31_745);
            let Text { text, .. } = typical(&mut seed, bytes);
            let answer = process(&text, MAX_TABLE);
            assert!(matches!(answer, Answer::Accepted { .. }), "{n}, {bytes}: {answer:?}\n{}", String::from_utf8_lossy(&text));
            assert_eq!(text.len(), bytes, "{n}");
        }
    }
}
