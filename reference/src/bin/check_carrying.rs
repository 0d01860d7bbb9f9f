//! Checks the table of docs/CARRYING.md: each edit of its text is answered with the number said.
//!
//! check_carrying FILE
//!
//! The text is the document's first indented block. Each row has its edit here, as pairs of what stands once in the text and what
//! stands there then; rows without an edit, and edits without a row, are failures. Both carriers are asked; built without the library,
//! this crate's alone.
#![forbid(unsafe_code)]

use std::process::ExitCode;

use reference::carry::{Carried, Carrier};
use reference::ffi;
use reference::harness;
use reference::processor::{self, Answer};
use reference::side::Reference;
use reference::walker::{self, Walk};

/// What a row's first cell begins with, and its edit.
type Row = (&'static str, &'static [(&'static str, &'static str)]);

const ROWS: [Row; 20] = [
    ("a comment, blanks", &[("plus width;", "plus\r\n\twidth; % all of them"), ("Place .placed;", "Place   .placed;")]),
    ("`do` and `od`", &[("Book: {[", "Book: do["), ("*: > ]}", "*: > ]od")]),
    ("the string of a token", &[("| line: @Line", "| 'l': @Line")]),
    ("`Blank` gets other actions", &[("Blank: Place;", "Blank: TurnPage Place;")]),
    ("`Turn`, which `Line` calls", &[("Turn: TurnPage;", "Turn: TurnPage Place;")]),
    ("`Spare`, which nothing calls", &[("Spare: ;\n", "")]),
    ("a rule is added", &[("rules\n", "rules\nStart: @Book;\n")]),
    (
        "`Book` and `Line` change places",
        &[
            ("rules\n", "rules\nLine: [ Room | fits, tight: | full: @Turn ] Place .placed;\n"),
            ("@Width;\nLine: [ Room | fits, tight: | full: @Turn ] Place .placed;", "@Width;"),
        ],
    ),
    ("another `^Sum @rule`", &[("rules\n", "rules\nStart: ^Sum @Other @Book; Other: width;\n")]),
    ("`Line` gets an action more", &[("Place .placed;", "Place Place .placed;")]),
    ("`Line` calls `Spare`", &[("full: @Turn", "full: @Spare")]),
    ("`Turn` gets another name", &[("full: @Turn", "full: @Over"), ("Turn: TurnPage;", "Over: TurnPage;")]),
    ("`Line` gets another name", &[("line: @Line", "line: @Row"), ("\nLine:", "\nRow:")]),
    ("`Blank` gets another name", &[("blank: @Blank", "blank: @Empty"), ("\nBlank:", "\nEmpty:")]),
    ("the labels `fits, tight`", &[("| fits, tight:", "| tight, fits:")]),
    ("`Book` loses", &[(" ^Sum @Width;", ";")]),
    ("an entry that no rule uses", &[("placed add;", "placed add unused;")]),
    ("a section's entry gets the number", &[("line 'l'", "line 'l' = 0")]),
    ("the mechanism gets another name", &[("mechanism Page:", "mechanism Sheet:")]),
    ("the level of `plus`", &[("plus 1", "plus 2")]),
];

/// The first indented block.
fn first_text(document: &str) -> String {
    let lines = document.lines().skip_while(|line| !line.starts_with("    ")).take_while(|line| line.starts_with("    "));
    lines.map(|line| format!("{}\n", &line[4..])).collect()
}

/// The rows of the table whose last cell is a number: the first cell, and the number.
fn rows(document: &str) -> Vec<(&str, u16)> {
    document
        .lines()
        .filter_map(|line| line.strip_prefix("| ")?.strip_suffix(" |")?.rsplit_once(" | "))
        .filter_map(|(edit, number)| Some((edit, number.parse().ok()?)))
        .collect()
}

fn edited(text: &str, edits: &[(&str, &str)]) -> Result<String, String> {
    edits.iter().try_fold(text.to_string(), |text, (old, new)| match text.matches(old).count() {
        1 => Ok(text.replacen(old, new, 1)),
        times => Err(format!("{old:?} stands there {times} times")),
    })
}

/// The walk that the document speaks of: it has read the first token and waits.
fn waiting(text: &str) -> Result<Walk, String> {
    let Answer::Accepted { table, .. } = processor::process(text.as_bytes(), 4_096) else {
        return Err("the text is not accepted".to_string());
    };
    let table: Vec<u8> = table.iter().flat_map(|word| word.to_be_bytes()).collect();
    let mut walk = Walk::mending(0);
    let done = walker::paused(&table, &[0, 0], None, 100, &mut walk, &mut [0; 60]);
    if done.number == walker::WAITS && walk.held == 1 { Ok(walk) } else { Err(format!("the walk answers {}", done.number)) }
}

fn check(sides: &[&dyn Carrier], text: &str, walk: &Walk, number: u16, edits: &[(&str, &str)]) -> Result<(), String> {
    let new = edited(text, edits)?;
    for side in sides {
        let mut bytes = walk.encode();
        let done = side.carry(text.as_bytes(), new.as_bytes(), &mut bytes);
        if done != Carried::only(number) {
            return Err(format!("{}: {done:?}, not {number}", side.name()));
        }
    }
    Ok(())
}

fn main() -> ExitCode {
    let document = match harness::document("check_carrying") {
        Ok(document) => document,
        Err(status) => return status,
    };
    let mut sides: Vec<&dyn Carrier> = vec![&Reference];
    if let Some(library) = ffi::carrier() {
        sides.push(library);
    }
    let (text, rows) = (first_text(&document), rows(&document));
    let mut good = rows.len() == ROWS.len();
    if !good {
        println!("{} rows, and {} edits", rows.len(), ROWS.len());
    }
    let walk = match waiting(&text) {
        Ok(walk) => walk,
        Err(message) => {
            println!("{message}");
            return ExitCode::FAILURE;
        }
    };
    for ((row, number), (begins, edits)) in rows.iter().zip(ROWS) {
        let checked = if row.starts_with(begins) {
            check(&sides, &text, &walk, *number, edits)
        } else {
            Err(format!("no edit; {begins:?} is next"))
        };
        if let Err(message) = checked {
            println!("{row}: {message}");
            good = false;
        }
    }
    if good { ExitCode::SUCCESS } else { ExitCode::FAILURE }
}
