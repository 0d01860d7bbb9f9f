//! Where a part of a text stands: line, column, and the line itself with carets under the part.

use std::fmt::Write;

/// Line and column, both from 1; a column is a byte of the line.
#[derive(Clone, Copy, PartialEq, Eq, Debug)]
pub struct Place {
    pub line: usize,
    pub column: usize,
}

pub fn place(text: &[u8], start: usize) -> Place {
    let before = &text[..start];
    let begins = line_begins(text, start);
    Place { line: 1 + before.iter().filter(|byte| **byte == b'\n').count(), column: start - begins + 1 }
}

fn line_begins(text: &[u8], start: usize) -> usize {
    text[..start].iter().rposition(|byte| *byte == b'\n').map_or(0, |feed| feed + 1)
}

/// A piece of a line as it is shown, and how many columns of a terminal it takes.
struct Cell {
    byte: usize,
    shown: String,
    width: usize,
}

/// The columns of a terminal that a line may take; longer ones are cut around the part.
const MOST_WIDTH: usize = 100;
/// How much is shown before the part where a line is cut.
const BEFORE: usize = 40;
const CUT: &str = "..";
const TAB: usize = 8;

/// The line of a part and the carets below it, each with the line's number or a blank in front.
pub fn shown(text: &[u8], start: usize, len: usize) -> String {
    let begins = line_begins(text, start);
    let end = text[begins..].iter().position(|byte| *byte == b'\n').map_or(text.len(), |feed| begins + feed);
    let line = text[begins..end].strip_suffix(b"\r").unwrap_or(&text[begins..end]);
    let cells = cells(line);
    let (from, to) = window(&cells, start - begins);
    let width = |cells: &[Cell]| cells.iter().map(|cell| cell.width).sum::<usize>();
    let inside = |cell: &&Cell| cell.byte >= start - begins && cell.byte < start - begins + len;
    let first = cells[from..to].iter().position(|cell| cell.byte >= start - begins).unwrap_or(to - from);
    let carets = cells[from..to].iter().filter(inside).map(|cell| cell.width).sum::<usize>().max(1);
    let (before, behind) = (if from > 0 { CUT } else { "" }, if to < cells.len() { CUT } else { "" });
    let body: String = cells[from..to].iter().map(|cell| cell.shown.as_str()).collect();
    let number = place(text, start).line.to_string();
    let blank = " ".repeat(before.len() + width(&cells[from..from + first]));
    let source = format!("{number:>5} | {before}{body}{behind}");
    format!("{}\n{:>5} | {blank}{}\n", source.trim_end(), "", "^".repeat(carets))
}

/// The cells that are shown: all, or some around the one at that byte.
fn window(cells: &[Cell], byte: usize) -> (usize, usize) {
    if cells.iter().map(|cell| cell.width).sum::<usize>() <= MOST_WIDTH {
        return (0, cells.len());
    }
    let at = cells.iter().position(|cell| cell.byte >= byte).unwrap_or(cells.len());
    let (mut from, mut taken) = (at, 0);
    while from > 0 && taken + cells[from - 1].width <= BEFORE {
        from -= 1;
        taken += cells[from].width;
    }
    let mut to = at;
    while to < cells.len() && taken + cells[to].width <= MOST_WIDTH {
        taken += cells[to].width;
        to += 1;
    }
    (from, to)
}

fn cells(line: &[u8]) -> Vec<Cell> {
    let mut cells = Vec::new();
    let (mut byte, mut column) = (0, 0);
    let mut push = |byte: usize, shown: String, width: usize| {
        cells.push(Cell { byte, shown, width });
        width
    };
    for chunk in line.utf8_chunks() {
        for sign in chunk.valid().chars() {
            column += match sign {
                '\t' => push(byte, " ".repeat(TAB - column % TAB), TAB - column % TAB),
                _ if sign.is_control() => push(byte, escaped(sign as u32), 4),
                _ => push(byte, sign.to_string(), width(sign)),
            };
            byte += sign.len_utf8();
        }
        for bad in chunk.invalid() {
            column += push(byte, escaped(u32::from(*bad)), 4);
            byte += 1;
        }
    }
    cells
}

fn escaped(byte: u32) -> String {
    format!("\\x{byte:02X}")
}

/// The columns that a character takes: none for marks that join the one before, two for the wide scripts.
fn width(sign: char) -> usize {
    match sign as u32 {
        0x300..=0x36F | 0x200B..=0x200F | 0xFE00..=0xFE0F => 0,
        0x1100..=0x115F | 0x2E80..=0xA4CF | 0xAC00..=0xD7A3 | 0xF900..=0xFAFF | 0xFE30..=0xFE6F => 2,
        0xFF00..=0xFF60 | 0xFFE0..=0xFFE6 | 0x1F300..=0x1FAFF | 0x20000..=0x3FFFD => 2,
        _ => 1,
    }
}

/// The columns that a text takes, control characters being shown by their numbers.
pub fn columns(text: &str) -> usize {
    text.chars().map(|sign| if sign.is_control() { 4 } else { width(sign) }).sum()
}

/// The most characters of a quoted word.
const MOST_QUOTED: usize = 48;

/// A word in a sentence: between grave accents, cut where it is long, other bytes than plain characters escaped.
pub fn quoted(word: &[u8]) -> String {
    let mut out = String::from("`");
    for (i, cell) in cells(word).iter().enumerate() {
        if i == MOST_QUOTED {
            out.push_str(CUT);
            break;
        }
        out.push_str(if word[cell.byte] == b'\t' { "\\x09" } else { &cell.shown });
    }
    out.push('`');
    out
}

/// A string of JSON; bytes that are no UTF-8 become the replacement character.
pub fn json(text: &str) -> String {
    let mut out = String::from("\"");
    for sign in text.chars() {
        match sign {
            '"' | '\\' => out.extend(['\\', sign]),
            _ if sign.is_control() => _ = write!(out, "\\u{:04x}", sign as u32),
            _ => out.push(sign),
        }
    }
    out.push('"');
    out
}

#[cfg(test)]
mod tests {
    use super::*;

    #[track_caller]
    fn is(text: &[u8], word: &[u8], line: &str, carets: &str) {
        let start = text.windows(word.len()).rposition(|part| part == word).expect("the word is there");
        let number = place(text, start).line;
        assert_eq!(shown(text, start, word.len()), format!("{number:>5} | {line}\n      | {carets}\n"));
    }

    #[test]
    fn carets_stand_under_the_word() {
        is(b"a\n  bc d\n", b"bc", "  bc d", "  ^^");
        is(b"\ta\tbc\n", b"bc", "        a       bc", "                ^^");
        is(b"a bc\r\nd\r\n", b"bc", "a bc", "  ^^");
        is(b"a\r\nbc", b"bc", "bc", "^^");
        is(b"'\xff\xc3' bc", b"bc", "'\\xFF\\xC3' bc", "           ^^");
        is("'\u{e4}' bc".as_bytes(), b"bc", "'\u{e4}' bc", "    ^^");
        is("'\u{4e2d}' bc".as_bytes(), b"bc", "'\u{4e2d}' bc", "     ^^");
        is("'a\u{301}' bc".as_bytes(), b"bc", "'a\u{301}' bc", "    ^^");
        is(b"\x00 bc", b"bc", "\\x00 bc", "     ^^");
        is(b"a b\xc3", b"\xc3", "a b\\xC3", "   ^^^^");
    }

    #[test]
    fn long_lines_are_cut_around_the_word() {
        let text = format!("{}bc{}", "x ".repeat(3_000), " y".repeat(3_000));
        let lines = shown(text.as_bytes(), 6_000, 2);
        let (line, carets) = lines.trim_end().split_once('\n').expect("two lines");
        assert!(line.len() < 120 && line.starts_with("    1 | ..") && line.ends_with(".."), "{line}");
        assert_eq!(line.find("bc"), carets.find("^^"));
        let digits = "9".repeat(5_000);
        let lines = shown(digits.as_bytes(), 0, digits.len());
        assert!(lines.lines().all(|line| line.len() < 120), "{lines}");
    }

    #[test]
    fn the_end_of_the_text() {
        assert_eq!(shown(b"", 0, 0), "    1 |\n      | ^\n");
        assert_eq!(shown(b"ab\n", 3, 0), "    2 |\n      | ^\n");
        assert_eq!(shown(b"ab", 2, 0), "    1 | ab\n      |   ^\n");
        assert_eq!(place(b"ab\ncd", 4), Place { line: 2, column: 2 });
    }

    #[test]
    fn words_in_sentences() {
        assert_eq!(quoted(b"a\tb\xff"), "`a\\x09b\\xFF`");
        assert!(quoted(&[b'7'; 500]).len() < 60);
        assert_eq!(json("a\"\\\n"), "\"a\\\"\\\\\\u000a\"");
    }
}
