//! `sst chart`: a syntax chart of each rule, as one SVG file.

mod draw;
mod item;
mod shade;
mod svg;

use crate::arguments::Arguments;
use crate::check::refusal;
use crate::held;
use crate::input;
use crate::known::Known;
use crate::layout::layout;
use crate::message::counted;
use crate::names::Names;
use crate::session::{Done, Session, Status, Trouble};
use crate::source::Source;
use shade::Shades;

pub fn run(session: &mut Session, arguments: &Arguments) -> Done {
    let input = input::read(session, arguments.one("a file")?)?;
    let report = arguments.value("figures").map(|path| input::read(session, path)).transpose()?;
    let answer = held::ask(session, &input.name, &input.bytes)?;
    let source = Source::new(&input.name, &input.bytes);
    if answer.number != 0 {
        return refusal(session, &source, &answer);
    }
    let known = Known::new(&source);
    let layout = layout(&known, &answer.table)?;
    let names = Names { known: &known, layout: &layout, table: &answer.table };
    let shades = report.map(|report| Shades::read(&report, &source, &layout)).transpose()?.unwrap_or_default();
    let charts = item::charts(&names);
    let svg = svg::document(source.name, &draw::page(&charts, &shades));
    let Some(out) = arguments.value("output") else {
        session.out(&svg)?;
        return Ok(Status::Yes);
    };
    input::write(out, svg.as_bytes())?;
    let (rules, out) = (counted(charts.len() as u64, "rule"), out.to_string_lossy());
    session.out(&format!("{}: a chart of {rules}: {out}\n", source.name))?;
    Ok(Status::Yes)
}

/// The trouble with a report of figures that is not one of this text.
fn not_of(report: &str, source: &Source, why: &str) -> Trouble {
    Trouble::Refused(format!("{report}: no figures of {}: {why}", source.name))
}
