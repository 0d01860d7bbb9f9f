//! `sst list`: the lister's lines, or the table beside the rules with names for numbers.

use crate::arguments::Arguments;
use crate::check::{refusal, summary};
use crate::held::{self, Answer, Figure};
use crate::input;
use crate::known::Known;
use crate::layout::{Spot, What, layout};
use crate::names::Names;
use crate::place::place;
use crate::session::{Done, Session, Status};
use crate::source::Source;
use reference::quiet;

pub fn run(session: &mut Session, arguments: &Arguments) -> Done {
    let input = input::read(session, arguments.one("a file")?)?;
    let answer = held::ask(session, &input.name, &input.bytes)?;
    let source = Source::new(&input.name, &input.bytes);
    if !arguments.has("names") {
        return lister(session, &source, &answer);
    }
    if answer.number != 0 {
        return refusal(session, &source, &answer);
    }
    session.out(&format!("{}: {}\n", source.name, summary(&answer)))?;
    let known = Known::new(&source);
    let layout = layout(&known, &answer.table)?;
    let names = Names { known: &known, layout: &layout, table: &answer.table };
    for (i, rule) in layout.rules.iter().enumerate() {
        let last = rule.end - 1;
        session.out(&format!("\nrule {}, line {}, locations {} to {last}\n", rule.name, rule.line, rule.location))?;
        for spot in layout.spots.iter().filter(|spot| spot.rule == i) {
            session.out(&line(&names, spot))?;
        }
    }
    Ok(Status::Yes)
}

/// What the proved lister prints.
fn lister(session: &mut Session, source: &Source, answer: &Answer) -> Done {
    if answer.number != 0 {
        session.out(&format!("refused {} line {}\n", answer.number, place(source.text, answer.start).line))?;
        let word = &source.text[answer.start..answer.start + answer.len];
        let shown: &[u8] = if word.is_empty() { b"the end of the text" } else { word };
        session.err_bytes(&[b"at: ", shown, b"\n"].concat());
        return Ok(Status::No);
    }
    lines(session, answer)
}

/// What it prints for a program that is accepted.
pub fn lines(session: &mut Session, answer: &Answer) -> Done {
    let verdict = if answer.finishing { "yes" } else { "no" };
    session.out(&format!("table {} finishing {verdict}\n", answer.table.len()))?;
    if let Figure::Most(most) = answer.figure {
        session.out(&format!("{most}\n"))?;
    }
    for (i, word) in answer.table.iter().enumerate() {
        session.out(&format!("{} {word}\n", i + 1))?;
    }
    Ok(Status::Yes)
}

/// A line of the table, with those of a choice's labels below it.
fn line(names: &Names, spot: &Spot) -> String {
    let at = place(names.known.source.text, spot.start);
    let jump = |names: &Names| usize::from(names.table[spot.location]);
    let what = match spot.what {
        What::Match => format!("input {}", names.phrase(spot)),
        What::Any => "inputAny".to_string(),
        What::Emit => format!("emit {}", &names.phrase(spot)[1..]),
        What::Signal => format!("error {}", &names.phrase(spot)[1..]),
        What::Constant => format!("setParameter {}", names.phrase(spot).trim_matches(['(', ')'])),
        What::Update | What::Ask => {
            let number = names.table[spot.location - 1];
            format!("operation {number} {}", names.operation(number, None))
        }
        What::Call => format!("call {}", names.rule(jump(names))),
        What::ChooseToken => format!("inputChoice{}", labels(names, spot)),
        What::ChooseValue => format!("choice{}", labels(names, spot)),
        What::Labels => return String::new(),
        What::Join | What::Leave => format!("jumpForward {}", spot.location + 1 + jump(names)),
        What::Again | What::Repaired => format!("jumpBack {}", spot.location + 1 - jump(names)),
        What::Result => format!("setResult {}", names.phrase(spot).trim_start_matches(">> ")),
        What::Return | What::Last => "return".to_string(),
        What::Required => format!("input {}", names.phrase(spot)),
        What::NoLabel => "endChoice".to_string(),
    };
    let (first, rest) = what.split_once('\n').map_or((what.as_str(), ""), |(first, rest)| (first, rest));
    let rest = if rest.is_empty() { String::new() } else { format!("{rest}\n") };
    format!("{:>6}  {:>7}  {first}\n{rest}", spot.location, format!("{}:{}", at.line, at.column))
}

/// The labels of a choice with their targets, a line each.
fn labels(names: &Names, spot: &Spot) -> String {
    let (labels, default) = quiet::choice(names.table, spot.location);
    let mut rows: Vec<(String, usize)> = labels.iter().map(|(label, to)| (names.label(spot, *label), *to)).collect();
    rows.push(("*".to_string(), default));
    let width = rows.iter().map(|(label, _)| label.chars().count()).max().unwrap_or(0);
    rows.iter().map(|(label, to)| format!("\n{:>17}  {label:width$}  to {to}", "|")).collect()
}
