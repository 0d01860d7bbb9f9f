//! Charts: well formed, every text on the page, and no two texts over each other, for the examples and for programs at the limits.

use crate::{examples, sst};
use sst::Status;

/// Checks that a document is well formed: tags nested, attributes quoted, nothing left to escape. Gives the tags with their attributes.
fn tags(document: &str) -> Vec<&str> {
    let (mut open, mut all) = (Vec::new(), Vec::new());
    let mut rest = document;
    while let Some((text, behind)) = rest.split_once('<') {
        plain(text);
        let (tag, behind) = behind.split_once('>').expect("a tag is closed");
        match tag.strip_prefix('/') {
            Some(name) => assert_eq!(open.pop(), Some(name), "tags are nested"),
            None => {
                attributes(tag.trim_end_matches('/'));
                let name = tag.split([' ', '/']).next().unwrap_or_default();
                if !tag.ends_with('/') {
                    open.push(name);
                }
                all.push(tag);
            }
        }
        rest = behind;
    }
    assert!(open.is_empty() && rest.trim().is_empty(), "all tags are closed");
    all
}

/// Text in which nothing has to be escaped.
fn plain(text: &str) {
    assert!(!text.chars().any(|sign| sign.is_control() && sign != '\n'), "a control character in {text:?}");
    for entity in text.split('&').skip(1) {
        assert!(["amp;", "lt;", "gt;", "quot;"].iter().any(|known| entity.starts_with(known)), "{text}");
    }
}

fn attributes(tag: &str) {
    let Some((_, attributes)) = tag.split_once(' ') else { return };
    let pieces: Vec<&str> = attributes.split('"').collect();
    assert!(pieces.len() % 2 == 1 && pieces.last().is_some_and(|last| last.trim().is_empty()), "quotes in {tag}");
    pieces.iter().step_by(2).take(pieces.len() / 2).for_each(|name| assert!(name.ends_with('='), "{tag}"));
    pieces.iter().for_each(|piece| plain(piece));
}

fn number(tag: &str, name: &str) -> i32 {
    let value = tag.split(&format!(" {name}=\"")).nth(1).and_then(|behind| behind.split('"').next());
    value.and_then(|value| value.parse().ok()).unwrap_or_else(|| panic!("no {name} in {tag}"))
}

/// A text's left, right, top and bottom.
type Corners = [i32; 4];

fn corners(tag: &str) -> Corners {
    const HALF: i32 = 6;
    let (x, y, width) = (number(tag, "x"), number(tag, "y"), number(tag, "textLength"));
    let begins = tag.contains("class=\"title\"") || tag.contains("class=\"note\"");
    let left = if begins { x } else { x - width / 2 };
    [left, left + width, y - HALF, y + HALF]
}

fn charted(arguments: &[&str], text: &str) -> Vec<String> {
    let ended = sst(&[&["chart"], arguments].concat(), text.as_bytes());
    assert_eq!(ended.status, Status::Yes, "{arguments:?}: {}", ended.err);
    let tags = tags(&ended.out);
    let (width, height) = (number(tags[0], "width"), number(tags[0], "height"));
    let texts: Vec<Corners> = tags.iter().filter(|tag| tag.starts_with("text ")).map(|tag| corners(tag)).collect();
    for (i, a) in texts.iter().enumerate() {
        assert!(a[0] >= 0 && a[1] <= width && a[2] >= 0 && a[3] <= height, "{arguments:?}: {a:?} on {width} by {height}");
        for b in &texts[..i] {
            assert!(a[1] <= b[0] || b[1] <= a[0] || a[3] <= b[2] || b[3] <= a[2], "{arguments:?}: {a:?} over {b:?}");
        }
    }
    tags.iter().map(|tag| tag.to_string()).collect()
}

#[test]
fn examples_are_drawn() {
    for path in examples() {
        let tags = charted(&[&path], "");
        assert!(number(&tags[0], "width") < 730, "{path} fits a sheet");
    }
}

#[test]
fn programs_at_the_limits_are_drawn() {
    let names: Vec<String> = (0..64).map(|i| format!("t{i}")).collect();
    let tracks: String = names.iter().map(|name| format!("| {name}: @N ")).collect();
    let (all, list) = (names.join(" "), names.join(", "));
    charted(&["-"], &format!("input: {all}; rules M: {{[ {tracks} ]}}; N: [ | {list}: | *: ]; end"));
    let deep = |front: &str, middle: &str, behind: &str| {
        format!("input: a b; output: o; rules M: {}{middle}{}; end", front.repeat(16), behind.repeat(16))
    };
    charted(&["-"], &deep("{[ | a: ", "?", " | *: > ]}"));
    charted(&["-"], &deep("[ | a: [ | b: ", ".o", " ] | b: .o ]"));
    let row = "a .o @N ".repeat(60);
    charted(&["-"], &format!("input: a; output: o; rules M: {row}; N: {{ a .o a .o a .o [ | a: > .o | *: {row} ] }}; end"));
    let [input, output, value, other, mark] = ["i", "o", "v", "w", "<"].map(|sign| sign.repeat(32));
    charted(
        &["-"],
        &format!(
            "input: {input} '{mark}' b; output: {output}; type T: {value} {other}; mechanism m: P(T) >> T; rules \
             M: '{mark}' .{output} [ P({value}) | {value}: .{output} .{output} | {other}: {{ [ @N | {other}: > ] }} ]; \
             N >> T: [ | {input}: >> {value} | b: ] >> {other}; end"
        ),
    );
    charted(&["-"], "input: a '\u{4e2d}&\u{e4}' b '\t\u{1}'; rules M: '\u{4e2d}&\u{e4}' '\t\u{1}'; end");
}

#[test]
fn never_is_pale_and_often_is_dark() {
    let report = sst(&["figures", "--counts", "examples/pages.ssl", "examples/shelf/torn.book"], b"");
    let tags = charted(&["--figures", "-", "examples/pages.ssl"], &report.out);
    let count = |class: &str| tags.iter().filter(|tag| tag.starts_with(&format!("g class=\"{class}\""))).count();
    // the legend has one of each
    let dark = count("s4") + count("s5");
    assert!(count("n") > 5 && dark > 1, "{} pale, {dark} dark", count("n"));
    let report = sst(&["figures", "examples/pages.ssl"], b"");
    let tags = charted(&["--figures", "-", "examples/pages.ssl"], &report.out);
    assert_eq!(tags.iter().filter(|tag| tag.starts_with("g class=\"s")).count(), 2, "the legend's alone");
}
