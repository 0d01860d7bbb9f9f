//! Texts around the limits, from a seed.

use crate::texts::{Seed, good, join};

/// The limits, each with the greatest amount that is accepted.
pub const LIMITS: [(&str, usize); 15] = [
    ("depth", 32),
    ("labels", 64),
    ("table words", 4_096),
    ("rules", 128),
    ("names", 512),
    ("updates", 256),
    ("updates with a parameter", 256),
    ("choice operations", 256),
    ("choice operations with a parameter", 256),
    ("bytes of a name", 32),
    ("bytes of a string", 32),
    ("value set", 65_535),
    ("value counted", 65_535),
    ("value counted over sections", 65_535),
    ("bytes of a text", 32_768),
];

/// A text with just so much of what a limit is about.
pub struct Sample {
    pub amount: usize,
    pub text: Vec<u8>,
    /// What it is refused with.
    pub number: Option<u16>,
}

/// Texts of one shape with one less than the limit, at it, one past it, and sometimes far past it.
pub fn samples(seed: &mut Seed, limit: usize) -> Vec<Sample> {
    let (name, most) = LIMITS[limit];
    let number = match name {
        "bytes of a string" => 1,
        "table words" => 20,
        _ => 9,
    };
    let far = most + 2 + seed.below(40);
    let drawn = seed.clone();
    seed.draw();
    [most - 1, most, most + 1, far]
        .into_iter()
        .map(|amount| {
            // The same draws for each amount.
            let mut seed = drawn.clone();
            let text = text(&mut seed, limit, amount);
            Sample { amount, text, number: (amount > most).then_some(number) }
        })
        .collect()
}

/// Texts of 32 KB that are far beyond a limit all through, with their numbers. The first has a table of more than 65,535 words.
pub fn beyond() -> Vec<(Vec<u8>, u16)> {
    let texts = [
        (format!("input: a; rules M: {}; end", "[|a:]".repeat(6_500)), 20),
        (format!("rules M: {}; end", "?".repeat(32_700)), 20),
        (format!("rules M: {}{}; end", "{".repeat(16_000), "}".repeat(16_000)), 9),
        (format!("rules M: {}", "[|*:".repeat(8_000)), 9),
        (format!("input: {}; rules M: ; end", list("a", 5_000, "")), 9),
        (format!("rules {}end", list("r", 4_000, ":;")), 9),
        (format!("input: a; rules M: [|{}a:]; end", "a,".repeat(16_000)), 9),
        (format!("mechanism m: {}; rules M: ; end", list("f", 5_000, "")), 9),
        (format!("rules {}: ; end", "n".repeat(32_700)), 9),
        (format!("input: a = {}; rules M: ; end", "9".repeat(32_700)), 9),
        (format!("input: a '{}'; rules M: ; end", "s".repeat(32_700)), 1),
    ];
    texts.into_iter().map(|(text, number)| (text.into_bytes(), number)).collect()
}

fn list(stem: &str, n: usize, tail: &str) -> String {
    (0..n).map(|i| format!("{stem}{i}{tail} ")).collect()
}

fn text(seed: &mut Seed, limit: usize, n: usize) -> Vec<u8> {
    let text = match limit {
        0 => depth(seed, n),
        1 => labels(seed, n),
        2 => words(seed, n),
        3 => format!("input: a; rules {}end", (0..n).map(|i| format!("r{i}: {}; ", body(seed, n, i))).collect::<String>()),
        4 => names(seed, n),
        5..=8 => operations(seed, limit - 5, n),
        9 => name(seed, n),
        10 => string(seed, n),
        11 => {
            let zeros = "0".repeat(seed.below(3) * seed.below(30));
            value(seed, &format!("= {zeros}{n}"), "x")
        }
        12 => {
            let back = seed.below(6);
            let names = list("x", back, "");
            let last = format!("x{back}");
            value(seed, &format!("= {} {names} {last}", n - back - 1), &last)
        }
        13 => {
            let (one, two, used) = *seed.of(&[
                ("input", "input output", "b"),
                ("output", "input output", ".b"),
                ("input output", "input", "b"),
                ("error", "error", "#b"),
            ]);
            let other = seed.of(&["", "type t: v = 65535 w = 3;", "mechanism m: f;"]);
            format!("{one}: a = {} c = 4; {other} {two}: b; rules M: {used}; end", n - 1)
        }
        _ => return long(seed, n),
    };
    text.into_bytes()
}

/// A rule's few actions.
fn body(seed: &mut Seed, rules: usize, i: usize) -> String {
    match seed.below(5) {
        0 => "a ?".to_string(),
        1 => format!("@r{}", seed.below(rules.min(128))),
        2 => "{ ? > }".to_string(),
        3 if i > 0 => "[ | a: ]".to_string(),
        _ => String::new(),
    }
}

/// Cycles and choices in each other, in some rule.
fn depth(seed: &mut Seed, n: usize) -> String {
    let (mut open, mut close) = (String::new(), String::new());
    let only = seed.below(8);
    for _ in 0..n {
        let kind = if only < 4 { only } else { seed.below(7) };
        let (a, b) = [
            ("{", "}"),
            ("[|*:", "]"),
            ("do ", " od"),
            ("[ | a, b: ? | *:", "]"),
            ("if ! a : ", "! *: fi"),
            ("{ > ", "}"),
            ("[ f | v: | w:", "]"),
        ][kind];
        open.push_str(a);
        close.insert_str(0, b);
    }
    let before = list("R", seed.below(3), ": { { ? > } > };");
    format!("input: a b; type t: v w; mechanism m: f>>t; rules {before} M: {open} ? {close}; N: {{ }}; end")
}

/// A choice of so many labels, in alternatives of one label or more.
fn labels(seed: &mut Seed, n: usize) -> String {
    let mut choice = String::from("|");
    for i in 0..n {
        if i > 0 {
            let gap = *seed.of(&[", ", ":|", ": ? |", ",", ": [ | a1, a2: ] !"]);
            choice.push_str(gap);
        }
        choice.push_str(&format!("a{i}"));
    }
    choice.push(':');
    let last = *seed.of(&["", "?", "| *:", "| *: ?"]);
    choice.push_str(last);
    let most = 120;
    let tokens = list("a", most, "");
    match seed.below(3) {
        0 => format!("input: {tokens}; rules M: [{choice}]; end"),
        1 => format!("input: a1 a2; type t: {tokens}; rules M: ; K: [@N {choice}]; N>>t: >>a0; end"),
        _ => format!("input: a1 a2; type t: {tokens}; mechanism m: f(t)>>t; rules M: {{ [f(a7) {choice}] }}; end"),
    }
}

/// A table of so many words, the last rule ending it.
fn words(seed: &mut Seed, n: usize) -> String {
    let mut actions = String::new();
    let mut left = n - 1;
    let only = seed.below(10);
    while left > 0 {
        let kind = if only < 5 { only } else { seed.below(10) };
        let (action, size) = [
            ("? ", 1),
            ("a ", 2),
            ("{?}", 3),
            ("[|a:]", 11),
            ("[|*:]", 3),
            ("@N ", 2),
            ("g(v)", 3),
            ("[f|v:|w:?]", 14),
            (".o ", 2),
            ("{>}", 4),
        ][kind];
        if size <= left {
            actions.push_str(action);
            left -= size;
        } else {
            actions.push_str(&"?".repeat(left));
            left = 0;
        }
    }
    let head = "input: a; output: o; type t: v w; mechanism m: g(t) f>>t;";
    if seed.one_in(2) {
        // Two rules: the first has one word.
        let cut = actions.strip_suffix('?').map(str::to_string);
        if let Some(actions) = cut {
            return format!("{head} rules N: ; M: {actions}; end");
        }
    }
    format!("{head} rules M: {actions}; end").replace("@N", "@M")
}

/// So many names of entries, types and rules, in sections of all kinds.
fn names(seed: &mut Seed, n: usize) -> String {
    let rules = seed.within(1, 100);
    let types = seed.within(1, 30);
    let operations = seed.within(1, 200);
    let tokens = n - rules - operations - 2 * types;
    let mut text = format!("{}: {}; ", seed.of(&["input", "output", "error", "input output"]), list("a", tokens, ""));
    for i in 0..types {
        text.push_str(&format!("type t{i}: v; "));
    }
    let tail = *seed.of(&["", ">>t0", "(t0)"]);
    text.push_str(&format!("mechanism m: {}; ", list("f", operations, tail)));
    format!("{text} rules {} end", list("r", rules, ":;"))
}

/// So many operations of a kind, among some of the others.
fn operations(seed: &mut Seed, kind: usize, n: usize) -> String {
    let tails = ["", "(t)", ">>t", "(t) >> t"];
    let mut others = seed.below(200);
    let mut entries = String::new();
    for i in 0..n {
        entries.push_str(&format!("f{i}{} ", tails[kind]));
        if others > 0 && seed.one_in(2) {
            others -= 1;
            let other = (kind + 1 + seed.below(3)) % 4;
            entries.push_str(&format!("g{others}{} ", tails[other]));
        }
        if seed.one_in(60) {
            entries.push_str("; mechanism m: ");
            entries.push_str(&format!("h{i}{} ", tails[(kind + 1) % 4]));
        }
    }
    let last = format!("f{}", n - 1);
    let body = [last.clone(), format!("{last}(v)"), format!("[{last}|v:]"), format!("[{last}(v)|*:]")][kind].clone();
    format!("type t: v; mechanism m: {entries}; rules M: {body}; end")
}

/// A name of so many bytes in a place where one is declared or referred to.
fn name(seed: &mut Seed, n: usize) -> String {
    let name: String = std::iter::once('N').chain((1..n).map(|_| *seed.of(&['a', 'Z', '0', '_', 'q']))).collect();
    let shapes = [
        "rules X: @X; end",
        "input: X; rules M: X; end",
        "input: X 's'; rules M: 's'; end",
        "output: X; rules M: .X; end",
        "error: a X = 7; rules M: #X; end",
        "type X: v; mechanism m: f(X); rules M: f(v); end",
        "type t: v X; mechanism m: f(t); rules M: f(X); end",
        "mechanism X: f; rules M: ; end",
        "mechanism m: X; rules M: X; end",
        "type t: v; mechanism m: X>>t; rules M: [X|*:]; end",
        "type X: v; rules M: [@N|v:]; N >> X: >> v; end",
        "type t: X; rules M: [@N|X:]; N >> t: >> X; end",
        "input: a X; rules M: [|a, X:]; end",
    ];
    seed.of(&shapes).replace('X', &name)
}

/// A string of so many bytes.
fn string(seed: &mut Seed, n: usize) -> String {
    let string: String = (0..n).map(|_| *seed.of(&['a', ' ', ';', '"', '\t', '\r', '>', '_', '\0', '|'])).collect();
    let shapes =
        ["input: a 'X'; rules M: 'X'; end", "output: a 'X'; rules M: .'X'; end", "input: b a 'X' = 6; rules M: [|b:|'X':]; end"];
    seed.of(&shapes).replace('X', &string)
}

/// An entry of some class with that value, counted or set.
fn value(seed: &mut Seed, entries: &str, last: &str) -> String {
    let shapes = [
        "input: x ENTRIES; rules M: LAST; end",
        "output: x ENTRIES; rules M: .LAST; end",
        "input output: x ENTRIES; rules M: LAST .LAST; end",
        "error: x ENTRIES; rules M: #LAST; end",
        "type t: x ENTRIES; mechanism m: f(t); rules M: f(LAST); end",
        "type t: x ENTRIES; rules M: ; N>>t: [|*:>>LAST]; end",
    ];
    seed.of(&shapes).replace("ENTRIES", entries).replace("LAST", last)
}

/// A good program filled up to so many bytes, before, behind or between its words.
fn long(seed: &mut Seed, n: usize) -> Vec<u8> {
    let words = good(seed, 20);
    let program = join(seed, &words);
    let rest = n - program.len() - 3;
    let gap: Vec<u8> = match seed.below(5) {
        0 => vec![b' '; rest],
        1 => vec![b'\n'; rest],
        2 => std::iter::once(b'%').chain(std::iter::repeat_n(b'x', rest - 1)).collect(),
        3 => (0..rest)
            .map(|i| {
                if i % 61 == 0 {
                    b'%'
                } else if i % 61 == 60 {
                    b'\n'
                } else {
                    b'\''
                }
            })
            .collect(),
        _ => b"\r\t \n".iter().copied().cycle().take(rest).collect(),
    };
    let mut text = Vec::new();
    let behind = seed.one_in(2);
    if behind {
        text.extend(&program);
        text.push(b'\n');
    }
    text.extend(&gap);
    text.push(b'\n');
    if !behind {
        text.extend(&program);
        text.push(b'\n');
    }
    text.push(b'%');
    text
}

#[cfg(test)]
mod tests {
    use super::*;
    use crate::processor::{Answer, process};

    #[test]
    fn far_beyond() {
        for (text, wanted) in beyond() {
            let shown = String::from_utf8_lossy(&text[..40]).into_owned();
            assert!(text.len() <= 32_768, "{shown}: {}", text.len());
            assert!(matches!(process(&text, 70_000), Answer::Refused { number, .. } if number == wanted), "{shown}");
        }
    }

    #[test]
    fn samples_are_what_they_say() {
        for n in 0..6 {
            for (limit, (name, most)) in LIMITS.iter().enumerate() {
                let mut seed = Seed::new(n);
                for sample in samples(&mut seed, limit) {
                    let answer = process(&sample.text, 70_000);
                    let shown = String::from_utf8_lossy(&sample.text[..sample.text.len().min(400)]);
                    let number = match &answer {
                        Answer::Accepted { .. } => None,
                        Answer::Refused { number, .. } => Some(*number),
                    };
                    assert_eq!(number, sample.number, "{name}, {} of {most}, seed {n}: {shown}", sample.amount);
                    if *name == "table words" && sample.number.is_none() {
                        assert!(matches!(answer, Answer::Accepted { table, .. } if table.len() == sample.amount), "{shown}");
                    }
                    if *name == "bytes of a text" {
                        assert_eq!(sample.text.len(), sample.amount);
                    }
                }
            }
        }
    }
}
