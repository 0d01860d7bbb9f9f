//! Bytes that make no word (1), and words that are not allowed where they stand (2).

use super::Explained;
use crate::held::library;
use crate::message::either;
use crate::place::quoted;
use crate::source::Source;
use reference::processor::{At, MAX_BYTES, Sort};

pub fn no_word(source: &Source, at: At) -> Explained {
    let start = source.word(at).start;
    let byte = source.text[start];
    if byte == b'\'' {
        return quote(&source.text[start + 1..]);
    }
    let shown = quoted(&[byte]);
    let explained = Explained::new(format!("no word begins with {shown}"));
    match byte {
        b'"' => explained.note("a string stands between single quotes: 'text'"),
        b'_' => explained.note("a name begins with a letter"),
        b'/' => explained.note("a comment begins with %"),
        b'<' | b'-' | b'+' | b'&' => explained.note("signs of the language: : ; , = ( ) [ ] { } | ! * ? . # @ ^ > >>"),
        0x80.. => explained.note("outside strings and comments a text is plain ASCII"),
        _ => explained,
    }
}

/// An opening quote with the bytes behind it.
fn quote(behind: &[u8]) -> Explained {
    let inside = behind.iter().take_while(|byte| !matches!(byte, b'\'' | b'\n')).count();
    if behind.get(inside) != Some(&b'\'') {
        return Explained::new("the string that begins here is not closed on its line".to_string());
    }
    if inside == 0 {
        return Explained::new("the string is empty".to_string()).note(format!("a string has 1 to {MAX_BYTES} bytes"));
    }
    Explained::new(format!("the string has {inside} bytes")).note(format!("a string has 1 to {MAX_BYTES} bytes"))
}

/// Words that may begin an action, apart from names and strings.
const ACTIONS: [&str; 9] = ["?", ".", "#", "@", "^", ">", ">>", "{", "["];

/// All other words, as they are offered.
const OTHERS: [&str; 22] = [
    ";",
    ":",
    "}",
    "]",
    "|",
    ",",
    "(",
    ")",
    "=",
    "*",
    "input",
    "output",
    "error",
    "type",
    "mechanism",
    "operators",
    "rules",
    "end",
    "left",
    "right",
    "a number",
    "a name",
];

pub fn not_here(source: &Source, at: At) -> Explained {
    let word = source.word(at);
    let before = &source.text[..word.start];
    let what = match word.sort {
        Sort::End => "the text ends here".to_string(),
        _ => format!("{} is not allowed here", source.quoted(at)),
    };
    let explained = Explained::new(what).note(may_stand(before));
    let explained = explained.notes(open_bracket(source, at));
    if word.sort == Sort::End && at > 0 {
        return explained.note(format!("the last word is {} in line {}", source.quoted(at - 1), source.line(at - 1)));
    }
    explained
}

/// Which words the library does not refuse behind a text.
fn may_stand(before: &[u8]) -> String {
    let allows = |spelling: &str| {
        let mut text = before.to_vec();
        // A line feed ends a comment.
        text.push(b'\n');
        let start = text.len();
        text.extend(spelling.as_bytes());
        let answer = library(&text);
        !(answer.number == 2 && answer.start == start)
    };
    let (name, string) = (allows("n"), allows("'s'"));
    let others = OTHERS.iter().filter(|word| match **word {
        "a name" => name && !(string && allows("?")),
        "a number" => allows("1"),
        // Names of their own places.
        "operators" | "left" | "right" => !name && allows(word),
        word => allows(word),
    });
    let mut things: Vec<String> = others.map(|word| shown(word)).collect();
    let actions: Vec<String> = ACTIONS.iter().filter(|word| allows(word)).map(|word| format!("`{word}`")).collect();
    if string && actions.len() == ACTIONS.len() {
        things.push(format!("an action: a name, a string, {}", either(&actions, "or")));
    } else {
        things.extend(string.then(|| "a string".to_string()));
        things.extend(actions);
    }
    if things.is_empty() {
        "no word may stand behind `end`".to_string()
    } else {
        format!("here may stand {}", either(&things, "or"))
    }
}

fn shown(word: &str) -> String {
    if word.starts_with("a ") { word.to_string() } else { format!("`{word}`") }
}

/// The innermost cycle or choice that is open before a word, where the word would be right without it.
fn open_bracket(source: &Source, at: At) -> Option<String> {
    let mut open: Vec<At> = Vec::new();
    for other in 0..at {
        match source.word(other).sort {
            Sort::Sign("{" | "[") => open.push(other),
            Sort::Sign("}" | "]") => _ = open.pop(),
            _ => {}
        }
    }
    let closes = matches!(source.word(at).sort, Sort::Sign(";" | "end" | "}" | "]") | Sort::End);
    let inner = open.last().filter(|_| closes)?;
    Some(format!("{} of line {} is still open", source.quoted(*inner), source.line(*inner)))
}
