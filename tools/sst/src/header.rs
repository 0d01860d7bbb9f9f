//! `sst header`: a C header with the program's names.

use crate::arguments::Arguments;
use crate::check::refusal;
use crate::held::{self, Answer, Figure};
use crate::input;
use crate::known::{Class, Known};
use crate::session::{Done, Session, Status, Trouble};
use crate::source::Source;
use std::collections::HashMap;
use std::ffi::OsStr;
use std::path::Path;

/// Words of an event: a buffer with fewer holds none.
const EVENT_WORDS: usize = 3;

pub fn run(session: &mut Session, arguments: &Arguments) -> Done {
    let path = arguments.one("a file")?;
    let input = input::read(session, path)?;
    let answer = held::ask(session, &input.name, &input.bytes)?;
    let source = Source::new(&input.name, &input.bytes);
    if answer.number != 0 {
        return refusal(session, &source, &answer);
    }
    let prefix = prefix(path, arguments.value("prefix"))?;
    let known = Known::new(&source);
    let header = Header { known: &known, prefix };
    let enums = header.enums();
    if let Some((first, second, name)) = meeting(&enums) {
        return Err(Trouble::Refused(format!(
            "{}: {first} and {second} would both be {name} in C; rename one of them",
            source.name
        )));
    }
    let text = header.text(&enums, &answer, arguments.has("table"));
    match arguments.value("output") {
        Some(out) => input::write(out, text.as_bytes())?,
        None => session.out(&text)?,
    }
    Ok(Status::Yes)
}

/// What all names begin with: as asked, or by the file's name.
fn prefix(path: &OsStr, asked: Option<&OsStr>) -> Result<String, Trouble> {
    let Some(asked) = asked else {
        let stem = Path::new(path).file_stem().map(|stem| stem.to_string_lossy().into_owned()).filter(|_| path != "-");
        return Ok(identifier(&stem.unwrap_or_else(|| "program".to_string())));
    };
    let asked = asked.to_string_lossy();
    if asked.is_empty() || identifier(&asked) != asked {
        return Err(Trouble::Usage(format!("`{asked}` is no name of C; `--prefix` wants one")));
    }
    Ok(asked.into_owned())
}

/// A name of C: other signs become low lines, and one stands before a digit.
fn identifier(name: &str) -> String {
    let plain: String = name.chars().map(|sign| if sign.is_ascii_alphanumeric() { sign } else { '_' }).collect();
    if plain.starts_with(|sign: char| sign.is_ascii_digit()) { format!("_{plain}") } else { plain }
}

/// An enumeration: its name, what it is for, and its constants with what they are in the text.
struct Enum {
    name: String,
    about: String,
    constants: Vec<(String, u16, String)>,
}

/// Two things whose names in C would be one.
fn meeting(enums: &[Enum]) -> Option<(String, String, String)> {
    let mut seen: HashMap<&str, &str> = HashMap::new();
    for (name, _, what) in enums.iter().flat_map(|numbers| &numbers.constants) {
        if let Some(first) = seen.insert(name, what) {
            return Some((first.to_string(), what.clone(), name.clone()));
        }
    }
    None
}

struct Header<'a> {
    known: &'a Known<'a>,
    prefix: String,
}

impl Header<'_> {
    fn enums(&self) -> Vec<Enum> {
        let mut out = vec![
            self.class(Class::Input, "input", "input tokens"),
            self.class(Class::Output, "output", "output tokens: event 1"),
            self.class(Class::Error, "error", "errors: event 2"),
        ];
        for declared in self.known.of_class(Class::Type) {
            let of = self.known.spelt(declared.name);
            let values = self.known.values(declared.name).filter_map(|value| Some((value.name, value.value?)));
            let constants = values.map(|(name, value)| {
                self.constant(&of, name, value, &format!("value `{}` of type `{of}`", self.known.spelt(name)))
            });
            out.push(Enum {
                name: format!("{}_{of}", self.prefix),
                about: format!("values of type {of}"),
                constants: constants.collect(),
            });
        }
        let operations = self.known.operations();
        let constants = operations.iter().map(|(number, declared)| {
            self.constant("operation", declared.name, *number, &format!("operation `{}`", self.known.spelt(declared.name)))
        });
        let name = format!("{}_operation", self.prefix);
        out.push(Enum { name, about: "operations: event 3".to_string(), constants: constants.collect() });
        out.retain(|numbers| !numbers.constants.is_empty());
        out
    }

    fn class(&self, class: Class, word: &str, about: &str) -> Enum {
        let declared = self.known.of_class(class).filter_map(|declared| Some((declared.name, declared.value?)));
        let constants =
            declared.map(|(name, value)| self.constant(word, name, value, &format!("{word} `{}`", self.known.spelt(name))));
        Enum { name: format!("{}_{word}", self.prefix), about: about.to_string(), constants: constants.collect() }
    }

    fn constant(&self, word: &str, name: reference::processor::At, value: u16, what: &str) -> (String, u16, String) {
        let prefix = format!("{}_{word}", self.prefix).to_ascii_uppercase();
        (format!("{prefix}_{}", self.known.spelt(name)), value, what.to_string())
    }

    fn text(&self, enums: &[Enum], answer: &Answer, with_table: bool) -> String {
        let upper = self.prefix.to_ascii_uppercase();
        let mut out = format!(
            "/* Names and numbers of {}, made by `sst header`. */\n#ifndef {upper}_NAMES_H\n#define {upper}_NAMES_H\n",
            self.known.source.name.rsplit('/').next().unwrap_or_default().replace("*/", "* /")
        );
        for Enum { name, about, constants } in enums {
            let lines: Vec<String> = constants.iter().map(|(name, value, _)| format!("    {name} = {value}")).collect();
            out.push_str(&format!("\n/* {about} */\nenum {name} {{\n{}\n}};\n", lines.join(",\n")));
        }
        out.push_str(&format!("\n/* 1 where every walk ends */\n#define {upper}_FINISHING {}\n", u8::from(answer.finishing)));
        if let Figure::Most(most) = answer.figure {
            out.push_str(&format!(
                "/* every walk of n tokens and r repairs ends within 65 * Q * (n + r + 1) steps */\n#define {upper}_Q {most}u\n"
            ));
        }
        out.push_str(&format!(
            "/* an event buffer holds at least so many bytes, those of one event */\n#define {upper}_EVENT_BYTES {}\n",
            2 * EVENT_WORDS
        ));
        out.push_str(&format!("#define {upper}_TABLE_WORDS {}\n", answer.table.len()));
        if with_table {
            out.push_str(&self.table(&answer.table));
        }
        out.push_str("\n#endif\n");
        out
    }

    /// The table as the library's entries take it: bytes, the high one of each word first.
    fn table(&self, table: &[u16]) -> String {
        let bytes: Vec<String> = table.iter().flat_map(|word| word.to_be_bytes()).map(|byte| byte.to_string()).collect();
        let lines: Vec<String> = bytes.chunks(16).map(|line| format!("    {}", line.join(", "))).collect();
        format!(
            "\n/* the table's words, high byte first, as sst.h wants them */\nstatic const unsigned char {}_table[{}] = {{\n{}\n}};\n",
            self.prefix,
            bytes.len(),
            lines.join(",\n")
        )
    }
}

#[cfg(test)]
mod tests {
    use super::identifier;

    #[test]
    fn names_of_c() {
        for (name, wanted) in [("pages", "pages"), ("optional-item", "optional_item"), ("2nd", "_2nd"), ("a b\u{e4}", "a_b_")] {
            assert_eq!(identifier(name), wanted);
        }
    }
}
