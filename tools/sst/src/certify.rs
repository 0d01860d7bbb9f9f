//! `sst certify`: one page with what a release note rests on.

use crate::arguments::Arguments;
use crate::check::refusal;
use crate::digest::sha256;
use crate::held::{self, Answer, Figure};
use crate::input;
use crate::known::Known;
use crate::message::{counted, grouped};
use crate::session::{Done, Session, Status};
use crate::source::Source;
use crate::table::file;
use crate::why;

/// What a release note may say; the first quotation in it is the sentence itself.
const NOTE: &str = include_str!("../../../docs/RELEASE-NOTE.md");

pub fn run(session: &mut Session, arguments: &Arguments) -> Done {
    let input = input::read(session, arguments.one("a file")?)?;
    let answer = held::ask(session, &input.name, &input.bytes)?;
    let source = Source::new(&input.name, &input.bytes);
    if answer.number != 0 {
        return refusal(session, &source, &answer);
    }
    if !answer.finishing {
        let told = why::told(&Known::new(&source), &answer)?;
        session.err(&told.lines(&source));
        session.err("no certificate: a release note may not say that pagination finishes\n");
        return Ok(Status::No);
    }
    let page = page(&source, &answer, &file(&source, &answer)?);
    match arguments.value("output") {
        Some(out) => input::write(out, page.as_bytes())?,
        None => session.out(&page)?,
    }
    Ok(Status::Yes)
}

fn page(source: &Source, answer: &Answer, file: &[u8]) -> String {
    let words = counted(answer.table.len() as u64, "word");
    let (bytes, file_bytes) = (counted(source.text.len() as u64, "byte"), counted(file.len() as u64, "byte"));
    format!(
        "Certificate of {}\n\n\
         text       {bytes}, SHA-256 {}\n\
         table      {words}; its file has {file_bytes}, SHA-256 {}\n\
         verdict    finishing\n\
         Q          {}\n\
         theorems   {}\n\
         proved by  {}\n\
         made by    sst {}, commit {}\n\n\
         The table file is verified by: sst verify TEXT FILE\n\n\
         A release note may say, under the conditions of docs/RELEASE-NOTE.md:\n\n{}\n",
        source.name,
        sha256(source.text),
        sha256(file),
        figure(answer),
        theorems(answer),
        env!("SST_TOOLCHAIN"),
        env!("SST_VERSION"),
        env!("SST_COMMIT"),
        sentence(answer)
    )
}

fn figure(answer: &Answer) -> String {
    match answer.figure {
        Figure::Most(most) => most.to_string(),
        _ => format!("above {}: no figure may be printed", grouped(u128::from(reference::quiet::GREATEST))),
    }
}

fn theorems(answer: &Answer) -> &'static str {
    match answer.figure {
        Figure::Most(_) => "from-entries, figure-at-entries (crates/bytewise/proofs)",
        _ => "from-entries (crates/bytewise/proofs)",
    }
}

/// The quoted sentence of the document, and the one about the figure where there is one.
fn sentence(answer: &Answer) -> String {
    let quoted = NOTE.lines().skip_while(|line| !line.starts_with("> ")).take_while(|line| line.starts_with("> "));
    let mut out: String = quoted.map(|line| format!("  {}\n", line.trim_start_matches("> "))).collect();
    if let Figure::Most(most) = answer.figure {
        let bound = format!("65 x {most} x (n + r + 1)");
        out.push_str(&format!("\n  No walk of a book of n tokens with repair allowance r takes more than {bound} steps.\n"));
    }
    out
}
