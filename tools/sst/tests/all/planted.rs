//! A second processor that differs from the library: nothing is explained, and the status is 3.

use crate::sst_with;
use reference::quiet::{Measured, Measurer};
use reference::side::Reference;
use sst::Status;

/// In what the second processor is made to differ.
#[derive(Clone, Copy, Debug)]
enum Plant {
    Number,
    Start,
    Len,
    Words,
    Table,
    Verdict,
    Figure,
    FigureNumber,
}

impl Measurer for Plant {
    fn name(&self) -> &'static str {
        "planted"
    }

    fn measure(&self, text: &[u8], table: &mut [u8]) -> Measured {
        let mut measured = Reference.measure(text, table);
        let processed = &mut measured.processed;
        match self {
            Plant::Number => processed.number ^= 1,
            Plant::Start => processed.start -= 1,
            Plant::Len => processed.len += 1,
            Plant::Words => processed.words -= 1,
            Plant::Table => table[3] ^= 1,
            Plant::Verdict => processed.finishing ^= 1,
            Plant::Figure => measured.figure += 1,
            Plant::FigureNumber => measured.figure_number = 47,
        }
        measured
    }
}

#[track_caller]
fn disagrees(plant: Plant, arguments: &[&str], text: &[u8]) {
    let ended = sst_with(&plant, arguments, text);
    assert_eq!(ended.status, Status::Disagree, "{plant:?} {arguments:?}: {}", ended.err);
    assert!(
        ended.out.is_empty() && ended.err.contains("disagree") && !ended.err.contains(": fault "),
        "{plant:?}: {}",
        ended.err
    );
}

#[test]
fn a_difference_is_told() {
    let (good, bad) = (b"input: a; rules M: { ? } a; end", b"rules M: > ; end");
    let commands: [&[&str]; 12] = [
        &["check", "-"],
        &["why", "-"],
        &["list", "-"],
        &["list", "--names", "-"],
        &["chart", "-"],
        &["carry", "-", "examples/pages.ssl"],
        &["header", "-"],
        &["run", "-"],
        &["table", "-", "-o", "target/sst-tests/planted.sst"],
        &["bound", "-", "1", "1"],
        &["figures", "-"],
        &["certify", "-"],
    ];
    for arguments in commands {
        for plant in [Plant::Number, Plant::Words, Plant::Table, Plant::Verdict, Plant::Figure, Plant::FigureNumber] {
            disagrees(plant, arguments, good);
        }
        for plant in [Plant::Number, Plant::Start, Plant::Len] {
            disagrees(plant, arguments, bad);
        }
    }
    disagrees(Plant::Table, &["verify", "-", "examples/pages.ssl"], good);
    assert!(!std::path::Path::new("target/sst-tests/planted.sst").exists());
}
