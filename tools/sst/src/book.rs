//! What a walk is given: tokens, answers, allowance and budget, by arguments or by a book file, with names for numbers.

use crate::arguments::Arguments;
use crate::explain::nearest;
use crate::input;
use crate::known::{Class, Declaration, Known};
use crate::message::either;
use crate::session::{Session, Trouble};
use std::ffi::OsString;

/// The budget of a book without one.
pub const USUAL_BUDGET: u64 = 1_000_000_000;

/// A walk's inputs; answers are words still, as their names hang on the operation that asks.
#[derive(Debug, PartialEq, Eq)]
pub struct Book {
    pub tokens: Vec<u16>,
    pub answers: Vec<String>,
    pub allowance: u16,
    pub budget: u64,
}

/// A token by its name, its string or its number.
pub fn token(known: &Known, word: &str) -> Result<u16, Trouble> {
    let named = known.find(Class::Input, word.as_bytes()).and_then(|declared| declared.value);
    named.or_else(|| number(word)).ok_or_else(|| {
        let near = nearest(known, word.as_bytes(), &[Class::Input]);
        let near = if near.is_empty() { String::new() } else { format!("; nearly alike: {}", either(&near, "and")) };
        Trouble::File(format!("`{word}` is no input token of {}{near}", known.source.name))
    })
}

fn number(word: &str) -> Option<u16> {
    if word.bytes().all(|byte| byte.is_ascii_digit()) { word.parse().ok() } else { None }
}

/// An answer to an operation: a value of its type, or a number.
pub fn answer(known: &Known, operation: u16, word: &str) -> Result<u16, Trouble> {
    let declared = asked(known, operation);
    let of = declared.and_then(|declared| declared.of);
    let named = of.and_then(|of| known.values(of).find(|value| known.named(value, word.as_bytes())));
    named.and_then(|value| value.value).or_else(|| number(word)).ok_or_else(|| {
        let name = declared.map_or_else(|| operation.to_string(), |declared| known.spelt(declared.name));
        let values = answers_of(known, operation).join(" or ");
        Trouble::File(format!("`{word}` is no answer of {name}, which answers {values}"))
    })
}

fn asked<'a>(known: &'a Known, operation: u16) -> Option<&'a Declaration> {
    known.operations().into_iter().find(|(number, _)| *number == operation).map(|(_, declared)| declared)
}

/// The names of what an operation may answer.
pub fn answers_of(known: &Known, operation: u16) -> Vec<String> {
    let of = asked(known, operation).and_then(|declared| declared.of);
    of.map_or_else(Vec::new, |of| known.values(of).map(|value| known.spelt(value.name)).collect())
}

/// The book that arguments give: `--book`, or tokens and, behind `--`, answers.
pub fn given(session: &mut Session, arguments: &Arguments, known: &Known) -> Result<Book, Trouble> {
    let text = |word: &OsString| word.to_string_lossy().into_owned();
    let mut book = match arguments.value("book") {
        Some(path) => {
            let input = input::read(session, path)?;
            read(known, &input.name, &input.bytes)?
        }
        None => Book { tokens: Vec::new(), answers: Vec::new(), allowance: 0, budget: USUAL_BUDGET },
    };
    for word in arguments.words.iter().skip(1) {
        book.tokens.push(token(known, &text(word))?);
    }
    book.answers.extend(arguments.behind.iter().flatten().map(text));
    if let Some(allowance) = arguments.number("allowance", u64::from(u16::MAX))? {
        book.allowance = allowance as u16;
    }
    if let Some(budget) = arguments.number("budget", u64::MAX)? {
        book.budget = budget;
    }
    Ok(book)
}

/// A book file: lines of a name, a colon and words; a percent sign begins a comment.
pub fn read(known: &Known, name: &str, bytes: &[u8]) -> Result<Book, Trouble> {
    let mut book = Book { tokens: Vec::new(), answers: Vec::new(), allowance: 0, budget: USUAL_BUDGET };
    for (i, line) in bytes.split(|byte| *byte == b'\n').enumerate() {
        let line = String::from_utf8_lossy(line);
        let line = line.split('%').next().unwrap_or_default().trim();
        if !line.is_empty() && !entry(known, &mut book, line)? {
            return Err(Trouble::File(format!("{name}: no book: line {} is `{line}`", i + 1)));
        }
    }
    Ok(book)
}

/// A line of a book; whether it is one.
fn entry(known: &Known, book: &mut Book, line: &str) -> Result<bool, Trouble> {
    let Some((name, words)) = line.split_once(':') else { return Ok(false) };
    let words: Vec<&str> = words.split_ascii_whitespace().collect();
    match name {
        "tokens" => {
            for word in words {
                book.tokens.push(token(known, word)?);
            }
        }
        "answers" => book.answers.extend(words.into_iter().map(str::to_string)),
        "allowance" | "budget" => {
            let most = if name == "budget" { u64::MAX } else { u64::from(u16::MAX) };
            for word in words {
                let digits = word.bytes().all(|byte| byte.is_ascii_digit());
                let Some(number) = word.parse::<u64>().ok().filter(|number| digits && *number <= most) else { return Ok(false) };
                if name == "budget" { book.budget = number } else { book.allowance = number as u16 }
            }
        }
        _ => return Ok(false),
    }
    Ok(true)
}
