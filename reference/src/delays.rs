//! Programs made to keep a processor busy: each is the worst that was found for one loop inside another. None is longer than a text may be.

use crate::programs::{OPERATORS, TOKENS, Text, chained, filled};

/// The longest text.
const BYTES: usize = 32_768;
/// The names that a program may have.
const NAMES: usize = 512;

/// All of them.
pub fn all() -> Vec<Text> {
    let text = |name, text: String| Text { name, text: filled(text, BYTES) };
    let short: Vec<String> = (0..510).map(short).collect();
    let none: [String; 0] = [];
    let strings = chained(TOKENS, "'", "'", 510);
    vec![
        text("entries", entries(&short, &none)),
        text("entries, chosen", entries(&chained(TOKENS, "N", "", 510), &strings)),
        text("entries, knotted", entries(&knotted(255), &none)),
        text("matches, knotted", knotted_matches()),
        text("uses, chosen", uses(&chained(OPERATORS, "N", "", 110), 370)),
        text("uses, knotted", uses(&knotted(110), 370)),
        text("uses", uses(&short[..110], 2_900)),
        text("uses, mapped", uses(&short[..110], 900)),
        text("levels", levels(&short)),
        text("one name", one_name()),
        text("zigzag", zigzag()),
        text("zigzag, crossed", zigzag_crossed()),
        text("zigzag, labels", zigzag_by_labels()),
        text("zigzag, reached", zigzag_reached()),
        text("ring back", ring_back(9, 63)),
        text("rule of results", one_rule_of_results()),
    ]
}

/// A name of one to three letters.
fn short(i: usize) -> String {
    let letters = b"ABCDEFGHIJKLMNOPQRSTUVWXYZ";
    let letter = |i: usize| letters[i % 26] as char;
    if i < 26 { letter(i).to_string() } else { format!("{}{}", letter(i / 26 - 1), letter(i)) }
}

/// Names that any hash `h * key + byte` of 16 bits with an odd key takes together, which is why the library's has 48: they differ by sums of (key² - 1)⁶ times
/// powers of the key, and 8 divides key² - 1.
fn knotted(count: usize) -> Vec<String> {
    const KNOT: [i32; 13] = [1, 0, -6, 0, 15, 0, -20, 0, 15, 0, -6, 0, 1];
    const KNOTS: usize = 19;
    let letter = |byte: i32| u8::try_from(byte).ok().filter(|byte| byte.is_ascii_alphanumeric() || *byte == b'_');
    let name = |bits: usize| -> Option<String> {
        let mut bytes = [i32::from(b'j'); KNOT.len() + KNOTS - 1];
        for knot in (0..KNOTS).filter(|knot| bits >> knot & 1 == 1) {
            for (byte, step) in bytes[knot..].iter_mut().zip(KNOT) {
                *byte += step;
            }
        }
        bytes.into_iter().map(|byte| letter(byte).map(char::from)).collect()
    };
    (0..1 << KNOTS).filter_map(name).take(count).collect()
}

/// The sections of tokens with these names, each with its string where there are strings, and one output token.
fn tokens(names: &[String], strings: &[String]) -> String {
    let entry = |(i, name): (usize, &String)| format!("{name}{} ", strings.get(i).map_or("", String::as_str));
    format!("input: {};\noutput: o;\n", names.iter().enumerate().map(entry).collect::<String>())
}

/// Sections of operators with an entry for each token, as many as there is room for.
fn entries(names: &[String], strings: &[String]) -> String {
    let mut text = tokens(&names[..names.len().min(NAMES - 7)], strings);
    let words = if strings.is_empty() { names } else { strings };
    for section in 0..5 {
        text.push_str(&format!("operators E{section}:"));
        for word in words.iter().take(NAMES - 7) {
            if text.len() + word.len() + 40 > BYTES {
                break;
            }
            text.push_str(&format!("{word} 1 left o\n"));
        }
        if text.ends_with(':') {
            text.truncate(text.len() - 13);
            break;
        }
        text.push_str(";\n");
    }
    text.push_str("rules M:;end\n");
    text
}

/// Knotted names, matched as often as there is room for.
fn knotted_matches() -> String {
    let names = knotted(510);
    let mut text = tokens(&names, &[]);
    text.push_str("rules M:");
    for name in names.iter().rev().cycle() {
        if text.len() + name.len() + 8 > BYTES {
            break;
        }
        text.push_str(name);
        text.push(' ');
    }
    text.push_str(";end\n");
    text
}

/// Sections of one entry, each used once, behind so many uses of the first.
fn uses(sections: &[String], before: usize) -> String {
    let mut text = String::from("input:t;output:o;\n");
    for section in sections {
        text.push_str(&format!("operators {section}:t 1 left o;\n"));
    }
    text.push_str("rules M:");
    let used = |section: &String| format!("^{section}@P ");
    text.push_str(&used(&sections[0]).repeat(before));
    text.extend(sections.iter().map(used));
    text.push_str(";P:t;end\n");
    text
}

/// One section with entries of all levels, used with as many operand rules as that leaves.
fn levels(names: &[String]) -> String {
    let mut text = tokens(&names[..NAMES - 116], &[]);
    text.push_str("operators E:");
    for (i, name) in names[..NAMES - 116].iter().enumerate() {
        text.push_str(&format!("{name} {} left o\n", i % 15 + 1));
    }
    let rules = || (0..7).map(|i| format!("P{i}"));
    text.push_str(";\nrules M:");
    text.extend(rules().map(|rule| format!("^E@{rule} ")));
    text.push(';');
    text.extend(rules().map(|rule| format!("{rule}:;")));
    text.push_str("end\n");
    text
}

/// One name for a value of each of many types and for a rule, which is called as often as there is room for.
fn one_name() -> String {
    let types: String = (0..254).map(|i| format!("type {}:a;", short(i))).collect();
    let mut text = format!("{types}\nrules M:");
    while text.len() + 20 < BYTES {
        text.push_str("@a");
    }
    text.push_str(";a:;end\n");
    text
}

/// The order of rules in a zigzag: from both ends to the middle in turn.
fn zigzag_order(count: usize) -> Vec<usize> {
    (0..count).map(|i| if i % 2 == 0 { i / 2 } else { count - 1 - i / 2 }).collect()
}

/// A zigzag of rules that each call the next, or one further on by so much; all call a rule with these results.
fn zigzag_of(count: usize, calls: usize, results: &str, call: &str, further: Option<usize>) -> String {
    let order = zigzag_order(count);
    let mut rules = vec![String::new(); count];
    let mut left = calls;
    for (i, rule) in order.iter().enumerate() {
        let here = left / (count - i);
        left -= here;
        let called = |step: usize| order.get(i + step).map_or(String::new(), |next| format!("@R{next}"));
        let next = further.map_or(called(1), |step| format!("[c|v:{}|w:{}|*:]", called(1), called(step)));
        rules[*rule] = format!("R{rule}:{next}{};\n", call.repeat(here));
    }
    format!("type T:v w;\nmechanism m:c>>T;\nrules {}Q>>T:{results};\nend\n", rules.concat())
}

fn zigzag() -> String {
    zigzag_of(126, 371, &">>v".repeat(610), "[@Q|*:]", None)
}

/// The same with a choice of two rules to call, so that a rule's number rises again and again.
fn zigzag_crossed() -> String {
    zigzag_of(126, 180, &">>v".repeat(320), "[@Q|*:]", Some(7))
}

/// The same with results that can all be reached, so that each has a number that rises.
fn zigzag_reached() -> String {
    zigzag_of(126, 180, &format!("{}>>v", "[c|v:>>v|*:]".repeat(80)), "[@Q|*:]", Some(7))
}

/// A zigzag with labels in the choices.
fn zigzag_by_labels() -> String {
    zigzag_of(126, 206, &">>v".repeat(610), "[@Q|w:|*:]", None)
}

/// Rules in a ring, each called by the one behind it, that return so many values; a value more once round the ring.
fn ring_back(rules: usize, values: usize) -> String {
    let names: String = (0..=values).map(|i| format!("v{i} ")).collect();
    let mut text = format!("type T:{names};\nmechanism m:c>>T;\nrules M:;\n");
    for rule in 0..rules {
        let before = (rule + rules - 1) % rules;
        let first = if rule == 0 { "[c|v0:>>v0|*:]" } else { "" };
        text.push_str(&format!("R{rule}>>T:{first}[@R{before}"));
        for value in 0..values {
            text.push_str(&format!("|v{value}:>>v{}", value + usize::from(rule == 0)));
        }
        text.push_str("|*:>>v0];\n");
    }
    text.push_str("end\n");
    text
}

/// One rule with many results, called from one other rule as often as there is room for.
fn one_rule_of_results() -> String {
    format!("type T:v;\nrules M:{};Q>>T:{};\nend\n", "[@Q|*:]".repeat(409), ">>v".repeat(680))
}

#[cfg(test)]
mod tests {
    use super::*;
    use crate::processor::{Answer, MAX_TABLE, process};

    #[test]
    fn they_are_what_they_are_said_to_be() {
        assert_eq!(knotted(510).len(), 510);
        for Text { name, text } in all() {
            assert_eq!(text.len(), BYTES, "{name}");
            let answer = process(&text, MAX_TABLE);
            let refused = matches!(answer, Answer::Refused { number: 20, .. });
            assert!(refused || matches!(answer, Answer::Accepted { .. }), "{name}: {answer:?}");
        }
    }
}
